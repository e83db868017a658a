"""Images that were changed at random: `recover` answers each as docs/IMAGE.md and docs/COMMANDS.md say, and never crashes.

Images of three plants are made by the program, by runs of random events. Then bytes are changed, gates are opened and closed, cells are exchanged,
copied over others or taken from another image, and the file is cut or made longer. What `recover` must print, how it must refuse and what it
must leave in the file is worked out by tests/random/reference.py. So it is with images of the first layout and `migrate`.
"""

import concurrent.futures
import os
import random
import subprocess
import tempfile
import unittest
from pathlib import Path

from folders import FIXTURES, ROOT, folder_in_memory
from reference import CELL, FirstImage, Image, Refused, read_plant
from sample import notes_of

PLANTS = [ROOT / "examples" / "sample.plant", ROOT / "examples" / "buffer.plant", FIXTURES / "every_kind_of_line.plant"]
ROUNDS = 20
IMAGES_A_ROUND = 1000
MADE_A_PLANT = 8
EVENTS = 60
# Images of the sample that an earlier version of the program made, and how many records the image is to have room for that they are brought over to.
FIRST_IMAGES = [(FIXTURES / f"first_layout_{name}.image").read_bytes() for name in ("formatted", "run", "trimmed")]
NEW_RING = 16


def script(chosen, names):
    """Events of every kind: mostly firings, with a flush behind some of them."""
    lines = []
    for _ in range(chosen.randrange(EVENTS)):
        kind = chosen.randrange(12)
        if kind < 6:
            lines.append(f"fire {chosen.randrange(100)}")
        elif kind < 8:
            lines.append("flush")
        elif kind < 9:
            lines.append(chosen.choice(["save", "trim", "trim"]))
        else:
            lines.append(f"{chosen.choice(['ask', 'ask', 'put'])} {chosen.choice(names)}")
        if lines[-1].startswith("ask"):
            lines += ["flush", lines[-1].replace("ask", "put")]
    return "".join(f"{line}\n" for line in lines)


class Changed(bytearray):
    """The bytes of an image, and how many of them a cell has."""

    cell = CELL


class FirstChanged(Changed):
    """The same of an image of the first layout."""

    cell = FirstImage.bytes_of_cell


def place_in(chosen, data):
    """The place of a byte, most often one of the first of a cell, where its fields are."""
    cell = chosen.randrange(max(1, len(data) // data.cell)) * data.cell
    return min(len(data) - 1, cell + chosen.randrange(data.cell if chosen.randrange(5) == 0 else 60))


def change_bytes(chosen, data, _):
    for _ in range(chosen.randint(1, 3)):
        if data:
            place = place_in(chosen, data)
            data[place] = chosen.choice([chosen.randrange(256), (data[place] + chosen.choice([1, 255])) % 256, data[place] ^ 1 << chosen.randrange(8)])


def change_gate(chosen, data, _):
    cell = chosen.randrange(len(data) // data.cell) * data.cell
    data[cell] = 0xA5 if data[cell] != 0xA5 else 0


def change_state(chosen, data, _):
    """Another marking in a slot, or another transition in a record: the last bytes of these fields."""
    place = chosen.choice([26, 15])
    cell = chosen.randrange(len(data) // data.cell) * data.cell
    data[cell + place] = chosen.randrange(8)


def put_cell(data, cell, bytes_of_cell):
    data[cell * data.cell : (cell + 1) * data.cell] = bytes_of_cell


def exchange_cells(chosen, data, _):
    one, other = (chosen.randrange(len(data) // data.cell) for _ in range(2))
    first = bytes(data[one * data.cell : (one + 1) * data.cell])
    put_cell(data, one, bytes(data[other * data.cell : (other + 1) * data.cell]))
    put_cell(data, other, first)


def copy_cell(chosen, data, others):
    """A cell of this image or of another one, over a cell of this."""
    source = chosen.choice([bytes(data), *others])
    cell = chosen.randrange(len(source) // data.cell) * data.cell
    put_cell(data, chosen.randrange(len(data) // data.cell), source[cell : cell + data.cell])


def change_length(chosen, data, _):
    if len(data) >= data.cell and chosen.randrange(2):
        del data[chosen.choice([chosen.randrange(len(data)), chosen.randrange(len(data) // data.cell) * data.cell]) :]
    else:
        data += bytes(chosen.randrange(256) for _ in range(chosen.choice([1, data.cell])))


CHANGES = [change_bytes] * 6 + [change_state] * 4 + [change_gate] * 2 + [exchange_cells] * 2 + [copy_cell] * 3 + [change_length]


def changed(chosen, image, others, kind=Changed):
    """The image after one or two changes; a change of its length is the last."""
    data = kind(image)
    for change in sorted(chosen.choices(CHANGES, k=chosen.randint(1, 2)), key=lambda change: change is change_length):
        change(chosen, data, others)
    return bytes(data)


def expected(plant, data):
    """The status, the standard output, the standard error, and the file behind `recover`."""
    try:
        image = Image(plant, data)
    except Refused as refusal:
        return 1, "", f"image: refusal {refusal}\n", data
    return 0, image.printed(), notes_of(plant, data), image.cleaned()


def expected_of_migrate(plant, data):
    """The status, the standard output, the standard error and the new file of `migrate`, which leaves the old one as it is, and makes none if that is refused."""
    try:
        image = FirstImage(plant, data)
    except Refused as refusal:
        return 1, "", f"image: refusal {refusal}\n", None, data
    return 0, f"migrated {image.last}\n", "", image.migrated(NEW_RING), data


class Images(unittest.TestCase):
    """A thousand images are changed in each round."""

    program = None

    def ran(self, *words):
        words = [str(word) for word in words]
        return subprocess.run([str(self.program(words)), *words], capture_output=True, text=True, timeout=60)

    def images_of(self, path, plant, folder):
        """Images of the plant, made by runs."""
        made = []
        for number in range(MADE_A_PLANT):
            image, events = Path(folder) / f"{path.stem}{number}", Path(folder) / "events"
            self.assertEqual(self.ran("format", path, image, "--ring", "8").returncode, 0)
            chosen = random.Random(f"{path.stem} {number}")
            for _ in range(number % 3 + 1):
                events.write_text(script(chosen, [atom.name for atom in plant.atoms]))
                self.assertEqual(self.ran("run", path, image, events).returncode, 0)
            made.append(image.read_bytes())
        return made

    def check_round(self, number):
        with tempfile.TemporaryDirectory() as folder:
            plants = [read_plant(path.read_bytes()) for path in PLANTS]
            images = [self.images_of(path, plant, folder) for path, plant in zip(PLANTS, plants)]
            everyone = [image for made in images for image in made]

            def check(count):
                chosen = random.Random(number * IMAGES_A_ROUND + count)
                which = chosen.randrange(len(PLANTS))
                data = changed(chosen, chosen.choice(images[which]), everyone)
                file = Path(folder) / f"changed{count}"
                file.write_bytes(data)
                ran = self.ran("recover", PLANTS[which], file)
                found = (ran.returncode, ran.stdout, ran.stderr, file.read_bytes())
                file.unlink()
                return None if found == expected(plants[which], data) else (PLANTS[which].stem, count, found[:3], expected(plants[which], data)[:3])

            with concurrent.futures.ThreadPoolExecutor(os.cpu_count()) as threads:
                wrong = [each for each in threads.map(check, range(IMAGES_A_ROUND)) if each]
            self.assertEqual(wrong, [])


    def check_first_layout(self, number):
        """Images of the first layout, which an earlier version of the program made, are changed and brought over to a file that is not there."""
        with folder_in_memory() as folder:
            plant = read_plant(PLANTS[0].read_bytes())

            def check(count):
                chosen = random.Random(f"first layout {number * IMAGES_A_ROUND + count}")
                data = changed(chosen, chosen.choice(FIRST_IMAGES), FIRST_IMAGES, FirstChanged)
                old, new = Path(folder) / f"old{count}", Path(folder) / f"new{count}"
                old.write_bytes(data)
                ran = self.ran("migrate", PLANTS[0], old, new, "--ring", NEW_RING)
                found = ran.returncode, ran.stdout, ran.stderr, new.read_bytes() if new.exists() else None, old.read_bytes()
                old.unlink()
                new.unlink(missing_ok=True)
                return None if found == expected_of_migrate(plant, data) else (count, found[:3], expected_of_migrate(plant, data)[:3])

            with concurrent.futures.ThreadPoolExecutor(os.cpu_count()) as threads:
                wrong = [each for each in threads.map(check, range(IMAGES_A_ROUND)) if each]
            self.assertEqual(wrong, [])


def suite(program, words):
    """The rounds whose name has one of the words in it; all, if there is no word."""
    Images.program = staticmethod(program)
    tests = unittest.TestSuite()
    for number in range(ROUNDS):
        for name, check in (f"images/{number}", Images.check_round), (f"images/first_layout_{number}", Images.check_first_layout):
            if not words or any(word in name for word in words):
                setattr(Images, f"test {name}", lambda self, number=number, check=check: check(self, number))
                tests.addTest(Images(f"test {name}"))
    return tests
