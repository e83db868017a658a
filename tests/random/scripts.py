"""Scripts that were changed at random: `run` refuses or answers each as docs/COMMANDS.md says, and never crashes.

Each script is run on a freshly formatted image of examples/sample.plant with a ring of 8 records. What it must print is worked out here: the plant has two
choices in each state, tick of A alone and send of both, and a record is told by how often its participants had taken part.
"""

import concurrent.futures
import os
import random
import re
import subprocess
import unittest
from pathlib import Path

from folders import ROOT, folder_in_memory

PLANT = ROOT / "examples" / "sample.plant"
RING = 8
ROUNDS = 20
SCRIPTS_A_ROUND = 1000
ATOMS = ["A", "B"]


class Plant:
    """The sample on its image."""

    def __init__(self):
        self.values = [0, 0]
        self.counts = [0, 0]
        self.records = []
        self.acked = 0
        self.base = 1
        self.saved = [0, 0]
        self.hands = [None, None]
        self.copies = [None, None]

    def fire(self, pick):
        if len(self.records) - self.base + 1 >= RING:
            return "refused 4 RingFull"
        sent = pick % 2 == 1
        if sent:
            self.values[1] = self.values[0]
        self.values[0] += 1
        self.counts = [self.counts[0] + 1, self.counts[1] + sent]
        self.records.append([(0, self.counts[0])] + ([(1, self.counts[1])] if sent else []))
        return f"{len(self.records)} {'send A.t/0 B.u/0' if sent else 'tick A.t/0'}"

    def flush(self):
        self.acked = len(self.records)
        return f"flushed {self.acked}"

    def ask(self, atom):
        if self.counts[atom] == self.saved[atom]:
            return "refused 9 NothingNew"
        self.hands[atom] = self.copies[atom] = self.counts[atom]
        return f"asked {ATOMS[atom]} {self.counts[atom]}"

    def put(self, atom):
        count = self.hands[atom]
        if count is None:
            return f"nothing {ATOMS[atom]}"
        if count != self.copies[atom]:
            return "refused 8 Stranger"
        if count > self.acked_count(atom):
            return f"refused 7 Ahead({atom})"
        self.hands[atom], self.copies[atom], self.saved[atom] = None, None, count
        return f"stored {ATOMS[atom]} {count}"

    def acked_count(self, atom):
        return sum(1 for record in self.records[: self.acked] for other, _ in record if other == atom)

    def save(self):
        behind = [atom for atom in (0, 1) if self.saved[atom] < self.acked_count(atom)]
        if not behind:
            return "refused 9 NothingNew"
        for atom in behind:
            self.saved[atom], self.copies[atom] = self.acked_count(atom), None
        return " ".join([f"saved {self.acked}", *(ATOMS[atom] for atom in behind)])

    def trim(self):
        base = self.base
        while base <= self.acked and all(count <= self.saved[atom] for atom, count in self.records[base - 1]):
            base += 1
        if base == self.base:
            return "refused 9 NothingNew"
        self.base = base
        return f"base {base}"

    def end(self):
        return [f"state A [s] n={self.values[0]}", f"state B [s] m={self.values[1]}", f"front {len(self.records)} {self.acked} {self.base}"]


def event_in(line):
    """The event of a line, nothing for a line without words, or `None` where the line is refused."""
    if not all(0x20 <= byte <= 0x7E or byte == 9 for byte in line):
        return None
    words = line.decode().split()
    if not words:
        return []
    if len(words) == 1 and words[0] in ("flush", "save", "trim"):
        return words
    if len(words) == 2 and words[0] in ("ask", "put") and words[1] in ATOMS:
        return [words[0], ATOMS.index(words[1])]
    if len(words) == 2 and words[0] == "fire" and re.fullmatch(r"[0-9]+", words[1]) and int(words[1]) < 1 << 64:
        return [words[0], int(words[1])]
    return None


def expected(script):
    """The status, the standard output and the standard error of the run."""
    lines = script.split(b"\n")
    lines = [line.removesuffix(b"\r") for line in lines[:-1]] + ([lines[-1]] if lines[-1] else [])
    events = [event_in(line) for line in lines]
    if None in events:
        return 1, "", f"script line {events.index(None) + 1}\n"
    plant = Plant()
    answers = [getattr(plant, event[0])(*event[1:]) for event in events if event]
    return 0, "".join(f"{line}\n" for line in [*answers, *plant.end()]), ""


def changed(chosen):
    """A script of up to 40 events, with no change, or one in some of its bytes."""
    lines = []
    for _ in range(chosen.randrange(40)):
        kind = chosen.choice(["fire"] * 4 + ["flush"] * 2 + ["ask"] * 2 + ["put"] * 2 + ["save", "trim"])
        word = {"fire": str(chosen.choice([0, 1, 7, 1 << 63, (1 << 64) - 1])), "ask": chosen.choice(ATOMS), "put": chosen.choice(ATOMS)}.get(kind)
        lines.append(f"{kind} {word}" if word else kind)
    script = bytearray("\n".join(lines).encode() + chosen.choice([b"", b"\n"]))
    for _ in range(chosen.choice([0, 0, 1, 2])):
        place = chosen.randrange(len(script) + 1)
        new = chosen.choice([b"\n", b" ", b"\t", b"\r\n", b"#", b"0", b"A", b"B", b"fire 1", b"flush ", b"save", bytes([chosen.randrange(256)])])
        script[place : place + chosen.randrange(2)] = new
    return bytes(script)


class Scripts(unittest.TestCase):
    """A thousand scripts are run in each round."""

    program = None

    def ran(self, *words, given=b""):
        words = [str(word) for word in words]
        ran = subprocess.run([str(self.program(words)), *words], input=given, capture_output=True, timeout=60)
        return ran.returncode, ran.stdout.decode(), ran.stderr.decode()

    def check_round(self, number):
        with folder_in_memory() as folder:
            image = Path(folder) / "image"
            self.assertEqual(self.ran("format", PLANT, image, "--ring", RING)[0], 0)
            formatted = image.read_bytes()

            def check(count):
                script = changed(random.Random(number * SCRIPTS_A_ROUND + count))
                own = Path(folder) / f"image{count}"
                own.write_bytes(formatted)
                found = self.ran("run", PLANT, own, "-", given=script)
                own.unlink()
                return None if found == expected(script) else (count, found, expected(script), script)

            with concurrent.futures.ThreadPoolExecutor(os.cpu_count()) as threads:
                wrong = [each for each in threads.map(check, range(SCRIPTS_A_ROUND)) if each]
            self.assertEqual(wrong, [])


def suite(program, words):
    """The rounds whose name has one of the words in it; all, if there is no word."""
    Scripts.program = staticmethod(program)
    tests = unittest.TestSuite()
    for number in range(ROUNDS):
        name = f"scripts/{number}"
        if not words or any(word in name for word in words):
            setattr(Scripts, f"test {name}", lambda self, number=number: self.check_round(number))
            tests.addTest(Scripts(f"test {name}"))
    return tests
