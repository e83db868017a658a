"""Images that are made and a stop that cuts this short: `format`, `migrate` and `backup` are killed before each of their calls, and at random moments.

A stop leaves no file under the image's name, or the whole image; and whatever it leaves, the same command does its work when it is given again. A file that was
there before is neither changed nor replaced, also where another program makes it meanwhile.
"""

import errno
import fcntl
import os
import random
import shutil
import signal
import subprocess
import tempfile
import time
import unittest
from pathlib import Path

import calls
import sample
from calls import Fails, Killed
from folders import ROOT
from power import FIRST_IMAGE
from sample import CELLS, FORMATTED, LEFT, OnImage
from stops import SIGNALS, hear_signals
from syncs import Cache

# An image is made under another name beside its own.
UNFINISHED = "image.kilnmace-unfinished"
MAKING = ("image", UNFINISHED)
IS_THERE = 3, "", "file image is there\n"
OTHER = bytes(range(256)) * 4 * CELLS
# Before one of these a command is killed. The first of them opens a text, or the image that is read.
ASKED = {"openat", "flock", "stat", "fstat", "pread64", "pwrite64", "fsync", "fdatasync", "link", "rename", "unlink", "write", "close"}
# So many are killed at random moments, each while it makes an image as large as one is.
KILLS, LARGEST_RING = 100, 4096
# The runs of a driver that are killed, within so many seconds of the first file, and how many moves each run makes.
DRIVEN, LATEST, MOVES = 40, 0.03, 5


def makes(ring, cells, front):
    """Each command that makes an image, with what it prints. The image that is copied has so many cells, and stands for so many firings."""
    return {
        f"format plant image --ring {ring}": f"formatted {cells}\n",
        f"format plant image --ring {ring} --new": f"formatted {cells}\n",
        f"migrate plant old image --ring {ring}": "migrated 5\n",
        "backup kept image": f"copied {cells} front {front}\n",
    }


def is_never_over(words):
    """A command that refuses a file that is there."""
    return words.endswith("--new") or words.startswith("backup")


def at(number, act, asked=ASKED, file=None):
    """Before the one of these calls that has this number, on the file if one is named, the test acts; what it gives becomes of the call."""
    left = iter([*number * [False], True])
    return lambda call: act() if call.name in asked and file in (None, call.file) and next(left, False) else None


def without_links(error, act=lambda: None):
    """No file gets a second name. Before that is refused the test acts."""

    def decide(call):
        if call.name != "link":
            return None
        act()
        return Fails(error)

    return decide


class Making(OnImage):
    """Each way to cut it short is a test."""

    def setUp(self):
        super().setUp()
        self.others = {"plant", "script", "nothing", "old", "kept"}
        self.begin(makes(8, CELLS, 5), LEFT)

    def begin(self, prints, kept):
        """Makes each image once."""
        self.prints = prints
        self.sources = {"plant": sample.PLANT.read_bytes(), "old": FIRST_IMAGE.read_bytes(), "kept": kept}
        for name, data in self.sources.items():
            (self.folder / name).write_bytes(data)
        self.wholes = {words: self.made(words) for words in prints}

    def watched(self, words, decide=lambda call: None):
        return calls.watched(self.command(words), decide, cwd=self.folder)

    def left(self):
        """The files in the folder that were not there before."""
        return {file.name for file in self.folder.iterdir()} - self.others

    def clear(self):
        for name in self.left():
            (self.folder / name).unlink()

    def made(self, words):
        """What the command makes, and the calls of it before which it may be killed."""
        self.clear()
        whole = self.watched(words)
        self.assertEqual(whole.answer, (0, self.prints[words], ""))
        self.assertEqual(self.left(), {"image"})
        return self.image.read_bytes(), [call for call in whole.calls if call.name in ASKED]

    def expect_same(self, found, data, why):
        """The bytes are these. They are not printed if they are others."""
        self.assertTrue(found == data, why)

    def expect_made_again(self, words, data):
        """After a stop nothing has the name, or the whole image has it. The command is given again and does its work."""
        is_there = self.image.exists()
        if is_there:
            self.expect_same(self.image.read_bytes(), data, "a part of an image has its name")
        refused = is_there and is_never_over(words)
        self.assertEqual(self.ran(words), IS_THERE if refused else (0, self.prints[words], ""))
        self.expect_same(self.image.read_bytes(), data, "another image is made")
        if not refused:
            self.assertEqual(self.left(), {"image"})
        for name, source in self.sources.items():
            self.expect_same((self.folder / name).read_bytes(), source, name)

    def expect_all(self, stops):
        """After each of the stops, which are functions, the command they were of does its work. It gives which names stops have left."""
        wrong, found = [], set()
        for many, (words, stop) in enumerate(stops, 1):
            self.clear()
            stop(words)
            found.add(frozenset(self.left()))
            try:
                self.expect_made_again(words, self.wholes[words][0])
            except AssertionError as error:
                wrong.append(f"{words}: {error}")
        self.assertEqual(len(wrong), 0, f"of {many} stops: {wrong[:1]}")
        return found

    def killed_at(self, number):
        return lambda words: self.assertEqual(self.watched(words, at(number, lambda: Killed(signal.SIGKILL))).status, -signal.SIGKILL)

    def check_a_kill_before_each_call(self):
        found = self.expect_all([(words, self.killed_at(number)) for words, (_, made) in self.wholes.items() for number in range(len(made))])
        self.assertEqual(found, {frozenset(names) for names in ((), (UNFINISHED,), MAKING, ("image",))})

    def killed_after(self, seconds, ending):
        """It may have come to its end by then."""

        def stop(words):
            with subprocess.Popen(self.command(words), stdout=subprocess.PIPE, cwd=self.folder, preexec_fn=hear_signals) as running:
                time.sleep(seconds)
                running.send_signal(ending)
                running.stdout.read()
            self.assertIn(running.returncode, (0, -ending))

        return stop

    def seconds_of(self, words):
        """How long it takes."""
        self.clear()
        begun = time.monotonic()
        self.ran(words)
        return time.monotonic() - begun

    def check_kills_at_random_moments(self):
        chosen = random.Random(12)
        self.clear()
        self.ran(f"format plant image --ring {LARGEST_RING}")
        self.begin(makes(LARGEST_RING, CELLS - 8 + LARGEST_RING, 0), self.image.read_bytes())
        latest = {words: self.seconds_of(words) for words in self.prints}
        killed = [chosen.choice(list(self.prints)) for _ in range(KILLS)]
        found = self.expect_all([(words, self.killed_after(chosen.uniform(0, latest[words]), SIGNALS[number % len(SIGNALS)])) for number, words in enumerate(killed)])
        self.assertIn({UNFINISHED}, found, "none was killed while it made an image")

    def check_a_kill_where_a_file_is_there(self):
        """It stays, the very file, whatever it holds."""
        for words in filter(is_never_over, self.prints):
            self.clear()
            self.image.write_bytes(OTHER)
            number = self.image.stat().st_ino
            refused = self.watched(words)
            self.assertEqual(refused.answer, IS_THERE)
            for place in range(len([call for call in refused.calls if call.name in ASKED])):
                self.assertEqual(self.watched(words, at(place, lambda: Killed(signal.SIGKILL))).status, -signal.SIGKILL)
                self.assertEqual(self.image.stat().st_ino, number)
                self.expect_same(self.image.read_bytes(), OTHER, words)
            self.assertEqual(self.ran(words), IS_THERE)

    def ran_with_a_file_that_comes(self, words, number):
        """Another program makes a file of this name before the call with this number, if none is there. It gives which file that is, and the status."""
        self.clear()

        def come():
            if not self.image.exists():
                self.image.write_bytes(OTHER)
                came.append(self.image.stat().st_ino)

        came = []
        ran = self.watched(words, at(number, come))
        self.assertEqual(ran.answer, IS_THERE if ran.status else (0, self.prints[words], ""))
        self.assertEqual(self.left(), {"image"}, (words, number))
        return came, ran.status

    def check_a_file_that_comes_meanwhile(self):
        """It has the name from then on, the very file, as it was made. If it comes before the command looks, that may format it where it is."""
        for words, (data, made) in self.wholes.items():
            ended = set()
            for number in range(len(made)):
                came, status = self.ran_with_a_file_that_comes(words, number)
                found = self.image.read_bytes()
                if came:
                    self.assertEqual([self.image.stat().st_ino], came, (words, number))
                if came and not status:
                    self.assertEqual(self.standing_in(found), self.standing_in(data), (words, number))
                else:
                    self.expect_same(found, OTHER if came else data, (words, number))
                ended.add((bool(came), status))
            self.assertEqual(ended, {(True, 3), (False, 0)} | (set() if is_never_over(words) else {(True, 0)}), words)

    def check_what_another_program_makes(self):
        """A name that another program holds locked, as it makes the image there, is not taken away."""
        for words in self.prints:
            self.clear()
            self.hold()
            self.expect_in_use(self.ran(words), words)
            self.held.close()
            self.assertEqual(self.ran(words), (0, self.prints[words], ""))
            self.assertEqual(self.left(), {"image"})

    def hold(self):
        """Another program makes a file under the other name, in place of what has it, and locks it."""
        unfinished = self.folder / UNFINISHED
        unfinished.unlink(missing_ok=True)
        unfinished.write_bytes(OTHER)
        self.held = open(unfinished, "rb")
        self.addCleanup(self.held.close)
        fcntl.flock(self.held, fcntl.LOCK_EX)

    def expect_in_use(self, answer, why):
        """The command is refused, and the file of the other program is as that made it."""
        self.assertEqual(answer, (3, "", "file image in use\n"), why)
        self.assertEqual(self.left(), {UNFINISHED}, why)
        self.expect_same((self.folder / UNFINISHED).read_bytes(), OTHER, why)

    def check_another_program_that_is_faster(self):
        """It takes away what a stop left, or what is not locked yet, and makes its own before this call."""
        for words in self.prints:
            for is_left, name, number in ((False, "flock", 0), (True, "flock", 0), (True, "openat", 2)):
                self.clear()
                if is_left:
                    (self.folder / UNFINISHED).write_bytes(OTHER)
                ran = self.watched(words, at(number, self.hold, {name}, UNFINISHED))
                self.expect_in_use(ran.answer, (words, is_left, name))

    def expect_order(self, words, data, fails):
        """When the image takes its name, and also when it is told, the disk has each byte of it, whatever it held before; and then it has the name."""
        self.clear()
        disk, named = Cache(bytes(len(data) * [0xFF])), []
        for call in self.watched(words, fails).calls:
            if call.file == "image" and call.name in ("link", "rename"):
                self.expect_same(disk.synced, data, words)
                named.append((call.name, call.answer))
            elif call.file == "." and call.name == "fsync" and named:
                named.append(("fsync", call.answer))
            elif call.file in MAKING:
                disk.take(call)
            elif call.file == "<output>":
                self.expect_same(disk.synced, data, words)
                return named
        self.fail(f"{words}: nothing is told")

    def check_the_order(self):
        for words, (data, _) in self.wholes.items():
            self.assertEqual(self.expect_order(words, data, lambda call: None), [("link", 0), ("fsync", 0)], words)

    def check_a_file_system_without_links(self):
        """There the file is renamed, in the same order, and what has come to the name by then stays as it is."""
        for error in (errno.EPERM, errno.EOPNOTSUPP, errno.ENOSYS):
            for words, (data, _) in self.wholes.items():
                named = self.expect_order(words, data, without_links(error))
                self.assertEqual(named, [("link", -error), ("rename", 0), ("fsync", 0)], words)
                self.assertEqual(self.left(), {"image"}, words)
                self.expect_same(self.image.read_bytes(), data, words)
                self.clear()
                ran = self.watched(words, without_links(error, lambda: self.image.write_bytes(OTHER)))
                self.assertEqual((ran.answer, self.left()), (IS_THERE, {"image"}), words)
                self.expect_same(self.image.read_bytes(), OTHER, words)

    def check_a_refused_source(self):
        """Of an image that can't be migrated or copied nothing new is left."""
        for name, data in {"old": FORMATTED, "kept": bytes(len(LEFT))}.items():
            (self.folder / name).write_bytes(data)
        for words in ("migrate plant old image --ring 8", "backup kept image"):
            self.clear()
            status, printed, _ = self.ran(words)
            self.assertEqual((status, printed, self.left()), (1, "", set()), words)

    def drivers(self):
        """The drivers of examples/, beside a launcher of their program that takes no time. Their image is on a disk, where to make it takes some."""
        folder = tempfile.TemporaryDirectory()
        self.addCleanup(folder.cleanup)
        self.folder = Path(folder.name)
        self.image, self.others = self.folder / "image", {"drivers"}
        place = self.folder / "drivers"
        (place / "examples").mkdir(parents=True)
        for name in ("drive.py", "drive.sh", "crossing.plant"):
            shutil.copy(ROOT / "examples" / name, place / "examples")
        launcher = place / "bip_run"
        launcher.write_text(f'#!/bin/sh\nexec "{self.program(["serve"])}" "$@"\n')
        launcher.chmod(0o755)
        return [["python3", place / "examples" / "drive.py"], ["bash", place / "examples" / "drive.sh"]]

    def killed_driver(self, driver, is_alone, seconds):
        """A driver is started where no image is, and killed so long after any file is there: alone, or with all that it started."""
        running = subprocess.Popen([*driver, self.image, str(MOVES)], stdout=subprocess.DEVNULL, stderr=subprocess.DEVNULL, start_new_session=True)
        while not self.left() & set(MAKING) and running.poll() is None:
            time.sleep(0.0002)
        time.sleep(seconds)
        os.kill(running.pid, signal.SIGKILL) if is_alone else os.killpg(running.pid, signal.SIGKILL)
        running.wait()

    def check_drivers(self):
        """A driver that is killed as it begins goes on when it is started again."""
        chosen = random.Random(36)
        drivers = self.drivers()
        wrong = []
        for number in range(DRIVEN):
            self.clear()
            driver = drivers[number % 2]
            self.killed_driver(driver, number % 8 < 2, chosen.uniform(0, LATEST))
            ran = subprocess.run([*driver, self.image, str(MOVES)], capture_output=True, text=True, timeout=60)
            moves = [line for line in ran.stdout.splitlines() if line[:1].isdigit()]
            if (ran.returncode, len(moves)) != (0, MOVES):
                wrong.append(f"{driver[0]}: {ran.stderr}")
        self.assertEqual(len(wrong), 0, f"of {DRIVEN}: {wrong[:1]}")


def suite(program, words):
    reason = calls.why_not()
    checks = {method.removeprefix("check_"): getattr(Making, method) for method in dir(Making) if method.startswith("check_")}
    return sample.suite(Making, program, {f"making/{name}": unittest.skipIf(reason, reason)(check) for name, check in checks.items()}, words)
