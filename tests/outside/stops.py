"""A plant over real stops: the program is killed in the middle of a long run, and the image then has to give back what it told.

At each moment the run is killed while it prints, flushes, saves atoms and drops records. What it had printed by then says what it fired, what it had
flushed and from where on it kept records: `recover` must tell the state behind some number of those firings, no fewer than were flushed, and a base
no less than the last that was told, and the run must go on from there. The states are worked out here, from what examples/sample.plant says,
and not by the program.
"""

import signal
import subprocess
import tempfile
import time
import unittest
from pathlib import Path

from folders import ROOT
from reference import read_plant
from sample import notes_of

PLANT = ROOT / "examples" / "sample.plant"
MOMENTS = 21
# By what it is killed: the machine's own way, that of a service's manager, and that of a terminal.
SIGNALS = [signal.SIGKILL, signal.SIGTERM, signal.SIGINT]
FIRINGS = 4000
# A run is killed behind so many flushes, and no later than so many seconds from its start.
FLUSHES_APART = 6
LATEST = 0.4


def hear_signals():
    """The program is to hear each signal, also where the shell that began the tests passes some over."""
    for ending in {signal.SIGTERM, signal.SIGINT}:
        signal.signal(ending, signal.SIG_DFL)


def script():
    """Some thousand events: ticks and sends by no short pattern, a flush behind some of them, and an atom that is asked for or stored, a save, or a trim, behind others."""
    lines = []
    for number in range(FIRINGS):
        lines.append(f"fire {number * number // 3}")
        if number * number % 31 < 8:
            lines.append("flush")
        if number % 5 == 1:
            lines.append(f"ask {'AB'[number % 2]}")
        if number % 5 == 3:
            lines.append(f"put {'AB'[number // 2 % 2]}")
        if number % 11 == 5:
            lines.append("save")
        if number % 7 == 2:
            lines.append("trim")
    return "".join(f"{line}\n" for line in lines)


def state_behind(fired):
    """The lines of the states behind these lines of firings: each counts in A, and a send hands A's count to B before that."""
    n = m = 0
    for line in fired:
        if " send " in line:
            m = n
        n += 1
    return [f"state A [s] n={n}", f"state B [s] m={m}"]


def line_of(number, name):
    return f"{number} {name} " + {"tick": "A.t/0", "send": "A.t/0 B.u/0"}[name]


class Stops(unittest.TestCase):
    """The run is killed at some moments."""

    program = None

    def made(self, *words):
        notes = notes_of(read_plant(PLANT.read_bytes()), words[2].read_bytes()) if words[0] in ("recover", "run") else ""
        ran = subprocess.run([str(self.program(words)), *map(str, words)], capture_output=True, text=True, timeout=60)
        self.assertEqual((ran.returncode, ran.stderr), (0, notes), words[0])
        return ran.stdout.splitlines()

    def killed_run(self, image, events, moment):
        """Runs the events, kills the program at the moment, and gives the whole lines that it had printed."""
        ending = SIGNALS[moment % len(SIGNALS)]
        started = time.monotonic()
        words = ["run", str(PLANT), str(image), str(events)]
        with subprocess.Popen([str(self.program(words)), *words], stdout=subprocess.PIPE, preexec_fn=hear_signals) as running:
            lines, flushes = [], 0
            for line in running.stdout:
                lines.append(line)
                flushes += line.startswith(b"flushed ")
                if flushes > FLUSHES_APART * moment or time.monotonic() > started + LATEST:
                    break
            # Not always at the same place behind a flush.
            time.sleep(moment % 5 / 5000)
            running.send_signal(ending)
            lines += running.stdout.readlines()
        self.assertEqual(running.returncode, -ending, "the run ended before it was killed")
        return [line.decode().rstrip("\n") for line in lines if line.endswith(b"\n")]

    def check_moment(self, moment):
        with tempfile.TemporaryDirectory() as folder:
            image, events = Path(folder) / "image", Path(folder) / "events"
            events.write_text(script())
            self.made("format", PLANT, image, "--ring", "4096")
            printed = self.killed_run(image, events, moment)
            fired = [line for line in printed if line[:1].isdigit()]
            self.assertEqual(fired, [line_of(k + 1, line.split()[1]) for k, line in enumerate(fired)], "what was fired")
            flushed = max((int(line.split()[1]) for line in printed if line.startswith("flushed ")), default=0)
            *states, front = self.made("recover", PLANT, image)
            number, base = int(front.split()[1]), int(front.split()[3])
            self.assertEqual(front, f"front {number} {number} {base}")
            self.assertTrue(flushed <= number <= len(fired), f"{flushed} flushed, {number} recovered, {len(fired)} fired")
            kept = max((int(line.split()[1]) for line in printed if line.startswith("base ")), default=1)
            self.assertTrue(kept <= base <= number + 1, f"base {kept} told, {base} recovered")
            self.assertEqual(states, state_behind(fired[:number]))
            self.check_on(image, fired[:number], base, Path(folder) / "more")

    def check_on(self, image, fired, base, events):
        """The run goes on behind these firings."""
        events.write_text("fire 1\nflush\n")
        more = line_of(len(fired) + 1, "send")
        number = len(fired) + 1
        told = [more, f"flushed {number}", *state_behind([*fired, more]), f"front {number} {number} {base}"]
        self.assertEqual(self.made("run", PLANT, image, events), told)


def suite(program, words):
    """The stops whose name has one of the words in it; all, where there is no word."""
    Stops.program = staticmethod(program)
    tests = unittest.TestSuite()
    for moment in range(MOMENTS):
        name = f"stops/{moment}"
        if not words or any(word in name for word in words):
            setattr(Stops, f"test {name}", lambda self, moment=moment: self.check_moment(moment))
            tests.addTest(Stops(f"test {name}"))
    return tests
