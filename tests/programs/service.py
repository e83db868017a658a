"""A served plant that is killed at random moments and gone on with, and the drivers of examples/.

On a ring of 8 records, and on one of 64, half of 100,000 lines each: firings by name and by number, flushes, and saves where there is little room. The program is
killed with a line half answered, and started again on the same image. Where it stands then has to be the state behind some number of the firings that it had told, no
fewer than were acknowledged; and all that was acknowledged has to be one run, line by line what `trace` prints of the same choices.
"""

import contextlib
import os
import random
import re
import signal
import subprocess
import time
import unittest
from pathlib import Path

from folders import ROOT, folder_in_memory
from stops import PLANT, hear_signals, line_of, state_behind

LINES = 50_000
KILLS = 15
# With fewer places free than this, all is saved.
LEAST_FREE = 4
FRONT = re.compile(r"front (\d+) (\d+) (\d+)")
ROOM = re.compile(r"ring (\d+) live (\d+) free (\d+) tail (\d+) held( \S+)+")
NAMES = {"tick": "tick A.t/0", "send": "send A.t/0 B.u/0"}
# The runs of a driver, each of so many moves, and how long one is let go on.
DRIVEN, MOVES, LATEST = 8, 40, 0.6


class Served:
    """The program, which serves the plant on an image."""

    def __init__(self, program, plant, image):
        words = ["serve", str(plant), str(image)]
        self.running = subprocess.Popen(
            [str(program(words)), *words], stdin=subprocess.PIPE, stdout=subprocess.PIPE, stderr=subprocess.PIPE, text=True, bufsize=1, preexec_fn=hear_signals
        )

    def answer(self):
        lines = []
        for line in self.running.stdout:
            if line == "end\n":
                return lines
            lines.append(line.rstrip("\n"))
        raise AssertionError(f"no end behind {lines}: {self.running.stderr.read()}")

    def write(self, line):
        self.running.stdin.write(f"{line}\n")

    def ask(self, line):
        self.write(line)
        return self.answer()

    def kill(self):
        self.running.kill()
        self.running.communicate()


class Service(unittest.TestCase):
    program = None

    def setUp(self):
        folder = folder_in_memory()
        self.addCleanup(folder.cleanup)
        self.folder = Path(folder.name)
        self.image = self.folder / "image"
        self.chosen = random.Random(62)

    def made(self, *words):
        ran = subprocess.run([str(self.program(words)), *map(str, words)], capture_output=True, text=True, timeout=60)
        self.assertEqual((ran.returncode, ran.stderr), (0, ""), words[0])
        return ran.stdout.splitlines()

    def front_in(self, line):
        found = FRONT.fullmatch(line)
        self.assertTrue(found, line)
        return tuple(map(int, found.groups()))

    def check_started(self, told, acked):
        """Starts the program, and gives it with how many of the firings that were told it stands behind."""
        served = Served(self.program, PLANT, self.image)
        *states, front = served.answer()
        fired, saved, _ = self.front_in(front)
        self.assertEqual(fired, saved)
        self.assertTrue(acked <= fired <= len(told), f"{acked} acknowledged, {len(told)} told, {fired} booted")
        self.assertEqual(states, state_behind(told[:fired]))
        return served, fired

    def check_line(self, served, told, acked, ring):
        """One line and its answer; gives how many firings are acknowledged then."""
        kind = self.chosen.random()
        if kind < 0.6:
            name = self.chosen.choice(sorted(NAMES))
            by_name = self.chosen.random() < 0.5
            said = served.ask(f"fire {NAMES[name]}" if by_name else f"fire {'tick send'.split().index(name) + 2 * self.chosen.randrange(9)}")
            if said == ["refused 4 RingFull"] or said == ["refused 3 TailFull"]:
                return acked
            self.assertEqual(said, [line_of(len(told) + 1, name)])
            told.append(said[0])
        elif kind < 0.85:
            said = served.ask("flush")
            self.assertEqual(said, [f"flushed {len(told)}"])
            return len(told)
        else:
            (said,) = served.ask("room")
            found = ROOM.fullmatch(said)
            self.assertTrue(found, said)
            size, live, free, tail = map(int, found.groups()[:4])
            self.assertEqual((size, live + free, tail), (ring, ring, len(told) - acked))
            if free < LEAST_FREE:
                for line in served.ask("save"):
                    self.assertRegex(line, r"saved \d+( A)?( B)?|base \d+|refused 9 NothingNew")
        return acked

    def check_served(self, ring):
        self.made("format", PLANT, self.image, "--ring", ring)
        told, acked = [], 0
        kills = sorted(self.chosen.sample(range(LINES), KILLS)) + [None]
        served, _ = self.check_started(told, acked)
        for number in range(LINES):
            if number == kills[0]:
                kills.pop(0)
                # A line is on its way: it may be done, or not.
                name = self.chosen.choice(sorted(NAMES))
                served.write(self.chosen.choice(["flush", f"fire {NAMES[name]}"]))
                time.sleep(self.chosen.uniform(0, 0.002))
                served.kill()
                served, booted = self.check_started(told, acked)
                del told[booted:]
                acked = booted
            acked = self.check_line(served, told, acked, ring)
        self.assertEqual(served.ask("flush"), [f"flushed {len(told)}"])
        served.write("quit")
        printed, complained = served.running.communicate()
        self.assertEqual((served.running.returncode, complained), (0, ""))
        self.assertRegex(printed, rf"\Afront {len(told)} {len(told)} \d+\nend\n\Z")
        self.assertGreater(len(told), LINES // 10)
        picks = self.folder / "picks"
        picks.write_text("".join(f"{line.split(' ', 1)[1]}\n" for line in told))
        self.assertEqual(self.made("trace", PLANT, "--picks", picks), told + state_behind(told))

    def check_kills_on_a_ring_of_8(self):
        self.check_served(8)

    def check_kills_on_a_ring_of_64(self):
        self.check_served(64)

    def check_driven(self, *driver):
        """A driver that is killed and started again: its moves go on one after another, and none is told twice."""
        last = 0
        for run in range(DRIVEN):
            running = subprocess.Popen(
                [str(word) for word in driver] + [str(self.image), str(MOVES)], stdout=subprocess.PIPE, stderr=subprocess.PIPE, text=True, preexec_fn=hear_signals, start_new_session=True
            )
            endings = {0}
            try:
                # The first run comes to its end: it makes the image, and the launcher may have to build the program.
                printed, complained = running.communicate(timeout=None if run in (0, DRIVEN - 1) else self.chosen.uniform(0, LATEST))
            except subprocess.TimeoutExpired:
                # It may end by itself at this very moment.
                endings.add(-signal.SIGKILL)
                # The driver and the program that it drives are killed together, as by a power cut.
                with contextlib.suppress(ProcessLookupError):
                    os.killpg(running.pid, signal.SIGKILL)
                printed, complained = running.communicate()
            self.assertIn(running.returncode, endings, complained)
            numbers = [int(line.split()[0]) for line in printed.splitlines() if line[:1].isdigit()]
            for number in numbers:
                # The last move before a kill may be acknowledged and not told.
                self.assertTrue(number == last + 1 or (number == numbers[0] and number == last + 2), f"{number} behind {last}")
                last = number
        self.assertGreater(last, 2 * MOVES - 1)
        states = self.made("recover", ROOT / "examples" / "crossing.plant", self.image)
        self.assertTrue(last <= self.front_in(states[-1])[0] <= last + 1)

    def check_lines_of_every_length(self):
        """A line has 65,536 bytes at most, whatever ends it. Of a longer one no more is kept, and the next line is read."""
        self.made("format", PLANT, self.image, "--ring", 64)
        served, _ = self.check_started([], 0)
        fired = 0
        for length, end in ((65_536, "\n"), (65_536, "\r\n"), (65_537, "\n"), (65_537, "\r\n"), (65_538, "\n"), (65_539, "\n"), (10_000_000, "\n")):
            served.running.stdin.write("fire 0".ljust(length) + end)
            served.running.stdin.flush()
            fired += length == 65_536
            wanted = line_of(fired, "tick") if length == 65_536 else "mistake the line has more than 65536 bytes"
            self.assertEqual(served.answer(), [wanted], length)
            self.assertEqual(served.ask("front"), [f"front {fired} 0 1"])
        served.running.stdin.write("fire 0".ljust(65_537))
        printed, complained = served.running.communicate()
        self.assertEqual((printed, complained), (f"mistake the line has more than 65536 bytes\nend\nfront {fired} 0 1\nend\n", ""))

    def check_driver_in_python(self):
        self.check_driven("python3", ROOT / "examples" / "drive.py")

    def check_driver_in_shell(self):
        self.check_driven("bash", ROOT / "examples" / "drive.sh")


def suite(program, words):
    """The tests whose name has one of the words in it; all, where there is no word."""
    Service.program = staticmethod(program)
    tests = unittest.TestSuite()
    for method in ["check_kills_on_a_ring_of_8", "check_kills_on_a_ring_of_64", "check_lines_of_every_length", "check_driver_in_python", "check_driver_in_shell"]:
        name = f"service/{method.removeprefix('check_')}"
        if not words or any(word in name for word in words):
            setattr(Service, f"test {name}", getattr(Service, method))
            tests.addTest(Service(f"test {name}"))
    return tests
