"""Syncs that fail, as Linux has them fail, then a start, and then a loss of power.

Linux keeps a cache of the disk: a write goes to the cache, and a sync to the disk. If the disk doesn't take a page of it, the sync fails and the page counts as clean all
the same. The next sync succeeds and does not write it, a read still gives what the disk does not have, and after a loss of power it is gone. Such a cache is
modelled here over the calls that the program makes on its image, which are watched. What a start or a run has told as acknowledged has to be there
after a loss of power at any later moment.

A life is some runs on one image. In each of them syncs may fail and the program may be killed; between them the system may drop clean pages, write those that wait, or fail
to; and power may be lost. The states are worked out here, from what examples/sample.plant says, and not by the program.

    python3 tests/outside/syncs.py PROGRAM LIVES [FIRST]    tells how many of so many lives of a program go wrong, from life FIRST on
"""

import errno
import itertools
import random
import re
import signal
import sys
import unittest
from pathlib import Path

# By itself it is run from anywhere.
sys.path.append(str(Path(__file__).resolve().parent.parent))

import calls
import folders
import power
import sample
from calls import Fails, Killed
from power import BLOCK, Disk, with_bytes
from reference import CELL, Image, Refused
from sample import CELLS, FORMATTED, OnImage
from stops import state_behind

# The pages of Linux. A system may as well keep blocks of the disk one by one, and then more is left that no later write takes along.
PAGE = 4096
LIVES = 240
# Of how many runs a life is made, and of how many events a script, from and to.
RUNS, SCRIPT = (3, 7), (3, 30)
# Of a run one sync fails, mostly: one of the first so many.
FIRST_SYNCS = 16
# At how many moments of a run power is lost, besides its end.
MOMENTS = 3
SYNCS = {"fsync", "fdatasync"}
OF_A_RUN = ("run plant image nothing", "run plant image script", "run plant image script --strict", "run plant image script --workers 3")
STARTS = ("recover plant image", "restate plant image", "serve plant image", *OF_A_RUN)
OF_A_DISK = (errno.EIO, errno.ENOSPC)
TOLD = re.compile(r"(?:flushed (?P<flushed>\d+)|base (?P<base>\d+)|front \d+ (?P<acked>\d+) (?P<kept>\d+))")
FIRED = re.compile(r"(\d+) (tick|send) ")


class Cache(Disk):
    """A disk with a cache before it. `read` is what the cache shows, `synced` what the disk holds, and the pages that wait for a sync are `dirty`."""

    def __init__(self, data, page=PAGE):
        super().__init__(data)
        self.page = page
        self.dirty = set()

    def pages_of(self, start, length):
        return range(start // self.page, -(-(start + length) // self.page))

    def range_of(self, page):
        return range(page * self.page, min((page + 1) * self.page, len(self.read)))

    def take(self, call, is_lost=lambda page: True):
        """A call that was made. A page that a failed sync loses is clean from then on, and not on the disk; the others are there."""
        if call.name == "pwrite64":
            length = max(call.answer, 0)
            self.read[call.place : call.place + length] = call.data[:length]
            self.dirty.update(self.pages_of(call.place, length))
        elif call.name in SYNCS:
            self.write_back(lambda page: call.answer < 0 and is_lost(page))

    def write_back(self, is_lost):
        synced = bytearray(self.synced).ljust(len(self.read), b"\0")
        for page in self.dirty:
            if not is_lost(page):
                within = slice(page * self.page, (page + 1) * self.page)
                synced[within] = self.read[within]
        self.synced = bytes(synced)
        self.dirty = set()

    def drop(self, is_dropped):
        """The system needs memory: of a clean page the next read asks the disk."""
        for page in range(-(-len(self.read) // self.page)):
            if page not in self.dirty and is_dropped(page):
                within = slice(page * self.page, (page + 1) * self.page)
                self.read[within] = self.synced[within]

    def pending(self):
        return [place for page in sorted(self.dirty) for place in self.range_of(page) if self.read[place] != self.synced[place]]

    def blocks(self):
        """The blocks of the pages that wait, as of one write each."""
        parts = [range(self.range_of(page).start, self.range_of(page).stop, BLOCK) for page in sorted(self.dirty)]
        return [[(place, bytes(self.read[place : place + BLOCK])) for place in part] for part in parts]


def with_all(cache, _):
    """All that waits came to the disk in time, and nothing else did."""
    return with_bytes(cache, lambda place: cache.read[place])


PATTERNS = [with_all if pattern is power.all_new else pattern for pattern in power.PATTERNS]


def acknowledged(printed):
    """How many firings a text tells as acknowledged, and from where on records are kept."""
    acked, base = 0, 1
    for line in printed.splitlines():
        if found := TOLD.fullmatch(line):
            acked = max(acked, int(found["flushed"] or found["acked"] or 0))
            base = max(base, int(found["base"] or found["kept"] or 1))
    return acked, base


class Wrong(Exception):
    """What was told is not there."""


class Life:
    """An image with what was told of it, from one start to the next."""

    def __init__(self, test, number):
        self.test = test
        self.chosen = random.Random(f"life {number}")
        self.cache = Cache(FORMATTED, self.chosen.choice([PAGE, BLOCK]))
        self.fired, self.acked, self.base = [], 0, 1
        # What the runs of this life came to.
        self.refused = self.killed = 0

    def chance(self, often):
        return self.chosen.random() < often

    def expect(self, data, acked, base):
        """What power leaves on the disk stands for what was fired up to some place, no earlier than what was told as acknowledged."""
        try:
            found = Image(self.test.plant, data)
        except Refused as refusal:
            raise Wrong(f"{acked} acknowledged, and the image is refused: {refusal}") from None
        if not acked <= found.last <= len(self.fired):
            raise Wrong(f"{acked} acknowledged, {found.last} in the image, {len(self.fired)} fired")
        if not base <= found.base <= found.last + 1:
            raise Wrong(f"base {base} told, {found.base} in the image")
        if found.printed() != sample.text([*state_behind(self.fired[: found.last]), f"front {found.last} {found.last} {found.base}"]):
            raise Wrong(f"another state than the one after {found.last} firings")
        return found

    def fails(self):
        """A sync of a run fails, or none, or each; and it may be killed before any of its calls on the image."""
        one, kill = self.chosen.randrange(FIRST_SYNCS), self.chosen.randrange(60) if self.chance(0.2) else None
        failing = self.chosen.choice([*3 * [{one}], set(), set(), range(one, FIRST_SYNCS)])
        numbers, syncs = itertools.count(), itertools.count()

        def decide(call):
            if call.file != "image":
                return None
            if next(numbers) == kill:
                return Killed(signal.SIGKILL)
            return Fails(self.chosen.choice(OF_A_DISK)) if call.name in SYNCS and next(syncs) in failing else None

        return decide

    def run(self):
        """One run. Power is lost at some moments of it, for copies alone, and at its end."""
        given, words = power.events(self.chosen, SCRIPT), self.chosen.choice(["run plant image -", "serve plant image", "recover plant image"])
        found = self.expect(bytes(self.cache.read), 0, 1)
        # An earlier run may have fired more, and lost it.
        del self.fired[found.last :]
        self.test.image.write_bytes(self.cache.read)
        ran = self.test.watched(words, self.fails(), given)
        self.refused += ran.status > 0
        self.killed += ran.status < 0
        fired = [line for line in ran.printed.splitlines() if FIRED.match(line)]
        self.test.assertEqual([int(line.split()[0]) for line in fired], list(range(found.last + 1, found.last + len(fired) + 1)))
        self.fired += fired
        self.follow(ran.calls)
        self.test.assertEqual(bytes(self.cache.read), self.test.image.read_bytes(), "what the calls make of the file")
        self.lose_power()

    def follow(self, made):
        """Takes the calls of a run one by one."""
        made = [call for call in made if call.file in ("image", "<output>")]
        moments = set(self.chosen.sample(range(len(made)), min(MOMENTS, len(made))))
        printed = ""
        for place, call in enumerate(made):
            if place in moments:
                self.lose_power()
            if call.file == "<output>":
                printed += call.data[: max(call.answer, 0)].decode()
                # A line counts once it is whole.
                acked, base = acknowledged(printed[: printed.rfind("\n") + 1])
                self.acked, self.base = max(self.acked, acked), max(self.base, base)
            else:
                often = self.chosen.choice([0.5, 1])
                self.cache.take(call, lambda page, often=often: self.chance(often))

    def lose_power(self):
        """Looks at what a loss of power may leave now, and gives it."""
        for pattern in (power.all_old, self.chosen.choice(PATTERNS)):
            data = pattern(self.cache, self.chosen)
            self.expect(data, self.acked, self.base)
        return data

    def rest(self):
        """What comes between two runs."""
        kind, often = self.chosen.random(), self.chosen.choice([0, 0, 0, 0.5, 1])
        if kind < 0.1:
            self.cache = Cache(self.lose_power(), self.cache.page)
        elif kind < 0.5:
            self.cache.write_back(lambda page: self.chance(0.5))
        self.cache.drop(lambda page: self.chance(often))

    def live(self):
        """Why it goes wrong; nothing where all is right."""
        try:
            for _ in range(self.chosen.randrange(*RUNS)):
                self.run()
                self.rest()
        except Wrong as wrong:
            return str(wrong)
        return None


def is_written_anew(made):
    """Whether each byte of the image is written and synced before anything is told."""
    written = set()
    for call in made:
        if call.file == "<output>":
            return False
        if call.name == "pwrite64" and call.file == "image":
            written.update(range(call.place, call.place + call.answer))
        elif call.name == "fdatasync" and call.answer == 0:
            return written == set(range(CELLS * CELL))
    return False


class Syncs(OnImage):
    """Lives, and each sync of one run."""

    def watched(self, words, decide=lambda call: None, given=b""):
        return calls.watched(self.command(words), decide, given, cwd=self.folder)

    def check_lives(self):
        refused = killed = 0
        for number in range(LIVES):
            life = Life(self, number)
            self.assertIsNone(life.live(), f"life {number}")
            refused += life.refused
            killed += life.killed
        self.assertGreater(refused, LIVES // 3, "runs that a sync ended")
        self.assertGreater(killed, LIVES // 6, "killed runs")

    def expect_there(self, cache, printed):
        """What was acknowledged is on the disk."""
        acked, base = acknowledged(printed)
        found = Image(self.plant, cache.synced)
        self.assertTrue(acked <= found.last and base <= found.base, f"{acked} acknowledged, {found.last} on the disk; base {base} told, {found.base} on the disk")

    def ran_over(self, cache, words, failing=None):
        """A run in which this sync fails, if any, and loses all that waits."""
        numbers = itertools.count()
        ran = self.watched(words, lambda call: Fails(errno.EIO) if call.file == "image" and call.name in SYNCS and next(numbers) == failing else None)
        for call in ran.calls:
            if call.file == "image":
                cache.take(call)
        self.expect_there(cache, ran.printed)
        return ran

    def check_a_start_after_each_sync_of_a_run(self):
        """The next start acknowledges what it finds, once it has made sure of it. So does one whose own sync fails, and that after it."""
        whole = self.watched_from_first("run plant image script")
        syncs = len([call for call in whole.calls if call.file == "image" and call.name in SYNCS])
        for failing in range(syncs):
            self.image.write_bytes(FORMATTED)
            cache = Cache(FORMATTED)
            self.assertEqual(self.ran_over(cache, "run plant image script", failing).status, 3)
            for refused in (0, 1):
                self.assertEqual(self.ran_over(cache, "recover plant image", refused).printed, "")
            self.assertEqual(self.ran_over(cache, "recover plant image").printed, Image(self.plant, cache.read).printed())

    def watched_from_first(self, words):
        self.image.write_bytes(FORMATTED)
        return self.watched(words)

    def check_what_each_start_writes(self):
        """Each byte, before anything else."""
        for words in STARTS:
            self.assertTrue(is_written_anew(self.watched_from_first(words).calls), words)


def suite(program, words):
    reason = calls.why_not()
    checks = {method.removeprefix("check_"): getattr(Syncs, method) for method in dir(Syncs) if method.startswith("check_")}
    return sample.suite(Syncs, program, {f"syncs/{name}": unittest.skipIf(reason, reason)(check) for name, check in checks.items()}, words)


def main():
    program, many, first = sys.argv[1], int(sys.argv[2]), int((*sys.argv[3:], 0)[0])
    Syncs.program = staticmethod(lambda words: program)
    wrong = {}
    for number in range(first, first + many):
        test = Syncs("check_lives")
        test.setUp()
        if why := Life(test, number).live():
            wrong[number] = why
        test.doCleanups()
    for number, why in wrong.items():
        print(f"life {number}: {why}")
    print(f"{len(wrong)} of {many} lives are wrong")


if __name__ == "__main__":
    main()
