"""Workers that share a long script, killed at random moments and gone on with on the same image.

Eight workers ask 100,000 events of all kinds on a ring of 64 records. A run by workers tells nothing until it ends, so what is known of the image is what
the last `recover` told: after each kill `recover` has to tell no less, and nothing that could not have been fired. examples/sample.plant counts in A at each firing,
so A's count has to be the number of the last. A run that came to its end has to say by how much that number has grown.
"""

import random
import re
import signal
import subprocess
import time
import unittest
from pathlib import Path

from folders import folder_in_memory
from reference import read_plant
from sample import notes_of
from stops import PLANT, hear_signals

RING = 64
WORKERS = 8
EVENTS = 100_000
KILLS = 20
# A run may come to its end before its kill; then another one is killed, of so many at most.
MOST_RUNS = 3 * KILLS
# The kill of a terminal, among those of the machine.
INTERRUPTED = 7
# The first write of a run comes so many seconds from its start at most. A run is killed within the time that a whole one took after its first write, or within so many
# seconds where it took more.
FIRST_WRITE, LATEST = 20.0, 3.0
FIRES = ["fire", "begin"]
OTHERS = ["flush", "flush", "ask A", "ask B", "save", "trim", "put A", "back B"]
STANDING = re.compile(r"state A \[s\] n=(\d+)\nstate B \[s\] m=(\d+)\nfront (\d+) (\d+) (\d+)\n(?:by (\d+)\n)?")


def events(chosen):
    """Events of all kinds, more than half of them firings."""
    for _ in range(EVENTS):
        if chosen.random() < 0.6:
            yield f"{chosen.choice(FIRES)} {chosen.randrange(100)}"
        else:
            yield chosen.choice(OTHERS)


class Soak(unittest.TestCase):
    program = None

    def setUp(self):
        folder = folder_in_memory()
        self.addCleanup(folder.cleanup)
        self.image, self.script = Path(folder.name) / "image", Path(folder.name) / "script"
        self.chosen = random.Random(8)
        self.first_write = 0.0
        lines = list(events(self.chosen))
        self.firings = sum(line.split()[0] in FIRES for line in lines)
        self.script.write_text("".join(f"{line}\n" for line in lines))

    def started(self, *words):
        return subprocess.Popen([str(self.program(words)), *map(str, words)], stdout=subprocess.PIPE, stderr=subprocess.PIPE, text=True, preexec_fn=hear_signals)

    def made(self, *words):
        notes = notes_of(read_plant(PLANT.read_bytes()), self.image.read_bytes()) if words[0] in ("recover", "run") else ""
        running = self.started(*words)
        printed, told = running.communicate(timeout=60)
        self.assertEqual((running.returncode, told), (0, notes), words[0])
        return printed

    def standing_in(self, printed):
        """What is printed of where the plant stands: the numbers of the front, and how many were fired, if that is told."""
        found = STANDING.fullmatch(printed)
        self.assertTrue(found, printed)
        n, m, fired, acked, base, by = (number and int(number) for number in found.groups())
        self.assertEqual(n, fired, "each firing counts in A")
        self.assertTrue(m == 0 or m < n, printed)
        self.assertTrue(acked <= fired < base + RING and base <= acked + 1, printed)
        return fired, acked, base, by

    def recovered(self):
        fired, acked, base, by = self.standing_in(self.made("recover", PLANT, self.image))
        self.assertEqual((fired, by), (acked, None))
        return acked, base

    def run_for(self, seconds, ending):
        """Runs the events, and kills the program so many seconds after its first write; gives what it printed if it had printed all before."""
        latest, untouched = time.monotonic() + FIRST_WRITE, self.image.stat().st_mtime_ns
        running = self.started("run", PLANT, self.image, self.script, "--workers", WORKERS)
        while self.image.stat().st_mtime_ns == untouched and running.poll() is None and time.monotonic() < latest:
            time.sleep(0.001)
        self.first_write = time.monotonic()
        try:
            printed, told = running.communicate(timeout=seconds)
        except subprocess.TimeoutExpired:
            running.send_signal(ending)
            printed, told = running.communicate(timeout=60)
            if running.returncode == -ending:
                self.assertEqual(told, "")
                # A kill may come while the program ends: then all is printed, or the first part of it.
                return printed if STANDING.fullmatch(printed) else None
        self.assertEqual((running.returncode, told), (0, ""))
        return printed

    def check_run(self, seconds, ending):
        """A run from where the image stands, to its end or to its kill, and what it leaves: whether it was killed, and whether it acknowledged anything."""
        known, base = self.recovered()
        printed = self.run_for(seconds, ending)
        acked, later = self.recovered()
        self.assertTrue(known <= acked <= known + self.firings, f"{known} known, {acked} recovered")
        self.assertTrue(base <= later, f"base {base} known, {later} recovered")
        if printed is not None:
            fired, saved, _, by = self.standing_in(printed)
            self.assertEqual((by, acked), (fired - known, saved))
        return printed is None, acked > known

    def check_kills(self):
        self.made("format", PLANT, self.image, "--ring", RING)
        self.check_run(LATEST, signal.SIGKILL)
        latest, kills, moved = time.monotonic() - self.first_write, 0, 0
        for _ in range(MOST_RUNS):
            ending = signal.SIGINT if kills == INTERRUPTED else signal.SIGKILL
            was_killed, has_moved = self.check_run(self.chosen.uniform(0, latest), ending)
            kills += was_killed
            moved += was_killed and has_moved
            if kills == KILLS:
                break
        self.assertEqual(kills, KILLS, "runs that were killed")
        self.assertGreater(moved, KILLS // 2, "killed runs that acknowledged anything")

    def check_whole_run(self):
        """A script that comes to its end in time."""
        self.script.write_text("".join(self.script.read_text().splitlines(True)[: EVENTS // 50]))
        self.made("format", PLANT, self.image, "--ring", RING)
        for _ in range(2):
            known, _ = self.recovered()
            fired, acked, _, by = self.standing_in(self.made("run", PLANT, self.image, self.script, "--workers", WORKERS))
            self.assertEqual(by, fired - known)
            self.assertEqual(self.recovered()[0], acked)


def suite(program, words):
    """The tests whose name has one of the words in it; all, where there is no word."""
    Soak.program = staticmethod(program)
    tests = unittest.TestSuite()
    for method in [method for method in dir(Soak) if method.startswith("check_") and method != "check_run"]:
        name = f"soak/{method.removeprefix('check_')}"
        if not words or any(word in name for word in words):
            setattr(Soak, f"test {name}", getattr(Soak, method))
            tests.addTest(Soak(f"test {name}"))
    return tests
