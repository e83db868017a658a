"""examples/sample.plant on an image with a ring of 8 records, for the tests of images and of what fails outside of the program.

Its images are written here cell by cell, by hand from the tables of docs/IMAGE.md: the gate, and then the fields of the body, to the base 16. So is a run on it: what
each event answers, and how many syncs it makes.
"""

import importlib
import subprocess
import unittest
from pathlib import Path

from folders import ROOT, folder_in_memory
from reference import CELL, Image, Refused, read_plant

PLANT = ROOT / "examples" / "sample.plant"
CELLS = 15
DIGEST = "9c7e1145c9ae08c423f0f7ca90e43310e0aedbd94cbdbfb825a0ddefb2081b48"

# Behind tick, send, tick, send, a flush and a save of A. The fields are: magic, version, atoms, ring, digest. Base. Atom, count, at, marking, how many
# values, value. Number, connector, how many entries, and of each its atom, transition, participation number, how many values, mask, value.
IMAGE = {
    0: f"a5 42495046 0002 0002 00000008 {DIGEST}",
    1: "a5 0000000000000001",
    3: "a5 0000 0000000000000000 0000000000000000 0000000000000001 01 0000000000000000",
    4: "a5 0000 0000000000000004 0000000000000004 0000000000000001 01 0000000000000004",
    5: "a5 0001 0000000000000000 0000000000000000 0000000000000001 01 0000000000000000",
    8: "a5 0000000000000001 0000 01 0000 0000 0000000000000001 00 00",
    9: "a5 0000000000000002 0001 02 0000 0000 0000000000000002 00 00 0001 0000 0000000000000001 01 01 0000000000000001",
    10: "a5 0000000000000003 0000 01 0000 0000 0000000000000003 00 00",
    11: "a5 0000000000000004 0001 02 0000 0000 0000000000000004 00 00 0001 0000 0000000000000002 01 01 0000000000000003",
}

# Each event of a run from the first state, with its answer and how many syncs it makes.
EVENTS = [
    ("fire 0", "1 tick A.t/0", 0),
    ("fire 1", "2 send A.t/0 B.u/0", 0),
    ("flush", "flushed 2", 2),
    ("fire 0", "3 tick A.t/0", 0),
    ("fire 1", "4 send A.t/0 B.u/0", 0),
    ("flush", "flushed 4", 2),
    ("flush", "flushed 4", 0),
    ("ask A", "asked A 4", 0),
    # The second slot was empty.
    ("put A", "stored A 4", 2),
    ("ask B", "asked B 2", 0),
    ("put B", "stored B 2", 2),
    # The second base cell was empty.
    ("trim", "base 5", 3),
    ("fire 1", "5 send A.t/0 B.u/0", 0),
    ("ask A", "asked A 5", 0),
    ("put A", "refused 7 Ahead(0)", 0),
    ("ask B", "asked B 3", 0),
    ("flush", "flushed 5", 2),
    ("put A", "stored A 5", 3),
    ("put B", "stored B 3", 3),
    ("trim", "base 6", 4),
    ("fire 0", "6 tick A.t/0", 0),
]
SCRIPT = "".join(f"{event}\n" for event, _, _ in EVENTS).encode()
# A's n and B's m behind each number.
STATES = [(0, 0), (1, 0), (2, 1), (3, 1), (4, 3), (5, 4), (6, 4)]


def closed(body):
    """A cell with its gate closed, its body as it is."""
    return "00" + body[2:]


def image_in(cells):
    """The image with these cells, all others of zeros."""
    return b"".join(bytes.fromhex(cells.get(cell, "")).ljust(CELL, b"\0") for cell in range(CELLS))


def image_of(changes):
    """The image with these cells in place of its own."""
    return image_in({**IMAGE, **changes})


FORMATTED = image_in({cell: IMAGE[cell] for cell in (0, 1, 3, 5)})
# Behind the run.
LEFT = image_of(
    {
        1: "a5 0000000000000006",
        2: "a5 0000000000000005",
        3: "a5 0000 0000000000000005 0000000000000005 0000000000000001 01 0000000000000005",
        5: "a5 0001 0000000000000003 0000000000000005 0000000000000001 01 0000000000000004",
        6: "a5 0001 0000000000000002 0000000000000004 0000000000000001 01 0000000000000003",
        **{cell: closed(IMAGE[cell]) for cell in range(8, 12)},
        12: "00 0000000000000005 0001 02 0000 0000 0000000000000005 00 00 0001 0000 0000000000000003 01 01 0000000000000004",
    }
)


def text(lines):
    return "".join(f"{line}\n" for line in lines)


def standing(n, m, number=4, base=1, place="s"):
    """What `recover` prints of an image that stands for this."""
    return f"state A [{place}] n={n}\nstate B [s] m={m}\nfront {number} {number} {base}\n"


def told(lines):
    """How many were fired by these lines of a run, how many acknowledged, and from where on records are kept."""
    fired = max((int(line.split()[0]) for line in lines if line[:1].isdigit()), default=0)
    acked = max((int(line.split()[1]) for line in lines if line.startswith("flushed ")), default=0)
    base = max((int(line.split()[1]) for line in lines if line.startswith("base ")), default=1)
    return fired, acked, base


def told_before(place):
    """The same of what the events before this place answer."""
    return told([line for _, line, _ in EVENTS[:place]])


def fired_behind(lines):
    """How many may have been fired once these lines were handed on: all up to the next event that asks the device."""
    behind = next((place for place, (_, _, syncs) in enumerate(EVENTS) if place >= len(lines) and syncs), len(EVENTS))
    return told_before(behind)[0]


def end(fired, acked, base):
    n, m = STATES[fired]
    return [f"state A [s] n={n}", f"state B [s] m={m}", f"front {fired} {acked} {base}"]


def answer():
    """The status, the standard output and the standard error of the run."""
    return 0, text([*(line for _, line, _ in EVENTS), *end(*told_before(len(EVENTS)))]), ""


def notes_of(plant, data):
    """What a start from the image tells on the standard error before it boots, by the second reader of what an image holds: nothing of one that it refuses."""
    try:
        Image(plant, data)
    except Refused:
        return ""
    reader = importlib.import_module("inspection").Inspection(plant, data)
    return "".join(f"{line}\n" for line in reader.notes())


class OnImage(unittest.TestCase):
    """A folder with the plant, the script of the run, one of no event, and an image."""

    maxDiff = None
    program = None

    def setUp(self):
        folder = folder_in_memory()
        self.addCleanup(folder.cleanup)
        self.folder = Path(folder.name)
        self.image = self.folder / "image"
        (self.folder / "plant").write_bytes(PLANT.read_bytes())
        (self.folder / "script").write_bytes(SCRIPT)
        (self.folder / "nothing").write_bytes(b"")
        self.plant = read_plant(PLANT.read_bytes())

    def command(self, words):
        words = words.split()
        return [str(self.program(words)), *words]

    def answered(self, words, given=b"", **how):
        """Runs the program, and gives its status, standard output and standard error."""
        ran = subprocess.run(self.command(words), input=given, capture_output=True, cwd=self.folder, timeout=60, **how)
        return ran.returncode, ran.stdout.decode(), ran.stderr.decode()

    def ran(self, words, given=b"", **how):
        """The same, but for what a start tells before it boots: that has to be right."""
        notes = self.notes(words)
        status, printed, told = self.answered(words, given, **how)
        if status == 0:
            self.assertEqual(told[: len(notes)], notes)
        return status, printed, told.removeprefix(notes)

    def notes(self, words):
        """What the command reports about the image before it boots, if it starts from it."""
        starts = words.split()[0] in ("recover", "run", "serve") and "image" in words.split() and self.image.is_file()
        return notes_of(self.plant, self.image.read_bytes()) if starts else ""

    def standing_in(self, data):
        """What an image stands for, as `recover` prints it, or the line by which it is refused."""
        try:
            return Image(self.plant, data).printed()
        except Refused as refusal:
            return f"image: refusal {refusal}\n"


def suite(kind, program, checks, words):
    """The tests of this kind whose name has one of the words in it; all, if there is no word. Each is a function of the test's class, by its name."""
    kind.program = staticmethod(program)
    tests = unittest.TestSuite()
    for name, check in checks.items():
        if not words or any(word in name for word in words):
            setattr(kind, f"test {name}", check)
            tests.addTest(kind(f"test {name}"))
    return tests
