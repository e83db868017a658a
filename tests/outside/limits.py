"""A program that gets less: of memory, of open files, of bytes in a file, of standard streams, of rights.

Whatever it does not get, it tells the line of docs/COMMANDS.md that is for it, or prints all that it has to: never a part, and it never crashes. What an image stands
for is then no less than what was acknowledged.
"""

import ctypes
import errno
import functools
import itertools
import os
import re
import resource
import signal
import subprocess
import tempfile
import unittest
from pathlib import Path

import calls
import sample
from calls import Fails, LetGo
from damaged import NOTES, TAKEN
from failures import BOOT_SYNCS, NOT_FORMATTED, answer_at
from folders import ROOT
from power import FIRST_IMAGE
from reference import CELL, Image
from sample import CELLS, FORMATTED, LEFT, PLANT, OnImage, answer, image_of, standing, told_before
from transcripts import every_case

# The superuser reads and writes any file by these rights, which can be given up for good.
DROP_OF_THE_BOUND, OVERRIDE, READ_SEARCH = 24, 1, 2
# Each block of memory is asked of the system by itself, where the C library knows this.
BLOCK_BY_BLOCK = {"GLIBC_TUNABLES": "glibc.malloc.mmap_threshold=1"}
LEAST_BLOCKS, LAST_BLOCKS = 100, 40
# These boot a plant, whose records are replayed by threads: so many of the last blocks are asked for while threads come and go.
WITH_THREADS, BLOCKS_WITH_THREADS = ("run", "recover", "migrate"), 20
# Of what asks for more blocks than so many, which makes the same calls over and over, one of so many is refused each.
MANY_BLOCKS, BLOCKS_APART = 300, 37
# The beginning of a run, and then a round that is made over and over: each kind of event, done and refused. A ring of 8 is used again with each three rounds.
BEGINNING = b"fire 0\nask B\nput B\ntrim\nflush\nask A\nput A\ntrim\n"
ROUND = b"fire 1\nfire send A.t/0 B.u/0\nask A\nput A\nbegin 0\nask A\nfire 0\nback A\nback B\nflush\nflush\nput A\nask A\nput A\nsave\nsave\nput B\ntrim\ntrim\n"
ROUNDS = 100
# Tests of the library, each with its crate, that ask memory of these calls in turn. They print the name of one that is refused it, and make it again.
REFUSED = "durable_tests", "tests::memory::a_refused_growth_changes_nothing"
ASKING = ["plant", "device", "format", "boot", "hands", "drive"]
EXPLORING = "durable_tests", "tests::memory::a_refused_growth_ends_an_exploration"
# This one prints a line first, once its plant is there.
OPENING = "host_tests", "tests::memory::a_refused_growth_opens_no_host"
PASSED = "\ntest result: ok\n"
FIRST = standing(0, 0, number=0)
EXPLORED = (0, "stops 20 boots 80 bad 0\n", "")
# What a start tells first of the image in which record 6 is after an empty cell.
DOUBT = sample.text(NOTES["record_behind_an_empty_cell"])


def obey_rights():
    """The rights of files are to bind the program, also if the superuser runs the tests."""
    system = ctypes.CDLL(None, use_errno=True)
    for right in (OVERRIDE, READ_SEARCH) if os.geteuid() == 0 else ():
        if system.prctl(DROP_OF_THE_BOUND, right, 0, 0, 0):
            raise OSError(ctypes.get_errno(), "prctl")


@functools.cache
def why_rights_bind_nothing():
    """Why the rights of a file do not bind a program that the tests run; nothing where they do."""
    with tempfile.NamedTemporaryFile() as file:
        os.chmod(file.name, 0)
        try:
            ran = subprocess.run(["cat", file.name], stdout=subprocess.DEVNULL, stderr=subprocess.DEVNULL, preexec_fn=obey_rights)
        except subprocess.SubprocessError as error:
            return f"the superuser can't give up a right: {error}"
    return None if ran.returncode else "a file without rights can be read"


def is_growth(call):
    """The call asks for more memory, and not only where the data ends."""
    return call.file == "<memory>" and not (call.name == "brk" and call.place == 0)


class RefusesOnce:
    """Refuses one growth of memory, and whatever the C library asks for in its place, until the program prints a line. Behind that it runs on by itself."""

    def __init__(self, number):
        self.left = number
        self.is_refusing = False

    def __call__(self, call):
        if self.is_refusing and call.file == "<output>":
            return LetGo(lambda process: None)
        if not is_growth(call):
            return None
        self.is_refusing |= self.left == 0
        self.left -= 1
        return Fails(errno.ENOMEM) if self.is_refusing else None


class RefusesOnceAfterALine(RefusesOnce):
    """The same, of the growths after the first line that the program prints."""

    has_begun = False

    def __call__(self, call):
        if self.has_begun:
            return super().__call__(call)
        self.has_begun = call.file == "<output>"
        return None


def no_more_memory(process):
    """The process keeps the memory for data that it has, and gets no more. Its stack may grow."""
    used = re.search(r"^VmData:\s+(\d+) kB$", Path(f"/proc/{process}/status").read_text(), re.M)
    resource.prlimit(process, resource.RLIMIT_DATA, (1024 * int(used[1]), 1024 * int(used[1])))


def at_most(kind, count):
    """Limits what a program that is about to begin gets."""

    def limit():
        signal.signal(signal.SIGXFSZ, signal.SIG_IGN)
        resource.setrlimit(kind, (count, count))

    return limit


def fewer_bytes(cells, syncs):
    """The program gets no more than so many cells of a file, of its output too, once it has made so many syncs. It is watched no more then."""
    made = []

    def decide(call):
        if call.name == "fdatasync":
            made.append(call)
        elif len(made) == syncs:
            return LetGo(lambda process: resource.prlimit(process, resource.RLIMIT_FSIZE, (cells * CELL, cells * CELL)))
        return None

    return decide


class Limits(OnImage):
    """Each sweep is a test."""

    def setUp(self):
        super().setUp()
        (self.folder / "old").write_bytes(FIRST_IMAGE.read_bytes())
        (self.folder / "kept").write_bytes(LEFT)

    def limited(self, words, cells, syncs, **how):
        """What the program answers that gets no more than so many cells of its image after these syncs."""
        return calls.watched(self.command(words), fewer_bytes(cells, syncs), cwd=self.folder, **how).answer

    def check_bytes_of_a_start(self):
        """It writes all of the image, and is refused where it can't. The image stands for what it stood for."""
        for words in ("run plant image script", "recover plant image", "serve plant image"):
            for cells in (0, 1, CELLS - 1):
                self.image.write_bytes(LEFT)
                self.assertEqual(self.ran(words, preexec_fn=at_most(resource.RLIMIT_FSIZE, cells * CELL)), (3, "", "image: refusal 8 Disk\n"), (words, cells))
                self.assertEqual(self.image.read_bytes(), LEFT, (words, cells))

    # Of the cells of the image those past the limit can't be written. Records 1 and 2 are in the cells 8 and 9, 3 and 4 in 10 and 11, and 5 in 12.
    def check_bytes_of_a_run(self):
        failing = {1: 2, 8: 2, 9: 2, 10: 5, 11: 5, 12: 16}
        for cells in (*failing, 13, CELLS):
            self.image.write_bytes(FORMATTED)
            ran = self.limited("run plant image script", cells, BOOT_SYNCS, restore_signals=False)
            self.assertEqual(ran, answer_at(failing[cells]) if cells in failing else answer(), cells)
            fired, acked, _ = told_before(failing.get(cells))
            found = Image(self.plant, self.image.read_bytes())
            self.assertTrue(acked <= found.last <= fired, cells)
            self.assertEqual(self.ran("recover plant image"), (0, found.printed(), ""))

    def check_bytes_of_a_worker(self):
        """Of the cells of the image those past the limit can't be written. The last lines are printed all the same, and the status alone tells that the device failed."""
        (self.folder / "script").write_bytes(b"fire 0\nflush\nfire 1\nflush\nfire 0\n")
        answers = {
            8: (3, "state A [s] n=1\nstate B [s] m=0\nfront 1 0 1\nby 1\n", ""),
            9: (3, "state A [s] n=2\nstate B [s] m=1\nfront 2 1 1\nby 2\n", ""),
            10: (0, "state A [s] n=3\nstate B [s] m=1\nfront 3 2 1\nby 3\n", ""),
        }
        for acked, (cells, wanted) in enumerate(answers.items()):
            self.image.write_bytes(FORMATTED)
            ran = self.limited("run plant image script --workers 1", cells, BOOT_SYNCS, restore_signals=False)
            self.assertEqual(ran, wanted, cells)
            found = Image(self.plant, self.image.read_bytes())
            self.assertTrue(acked <= found.last <= acked + 1, cells)
            self.assertEqual(self.ran("recover plant image"), (0, found.printed(), ""))

    def check_bytes_of_a_run_that_is_killed(self):
        """The system ends the program at the first byte past the limit."""
        self.image.write_bytes(FORMATTED)
        ran = self.limited("run plant image script", 10, BOOT_SYNCS)
        self.assertEqual(ran, (-signal.SIGXFSZ, "1 tick A.t/0\n2 send A.t/0 B.u/0\nflushed 2\n3 tick A.t/0\n4 send A.t/0 B.u/0\n", ""))
        self.assertEqual(self.ran("recover plant image"), (0, standing(2, 1, number=2), ""))

    def check_bytes_of_a_recover(self):
        """Once the image is written anew, cell 13 is to be emptied. Of that record it tells before it boots."""
        changes, printed, emptied = TAKEN["record_behind_an_empty_cell"]
        self.assertEqual(emptied, [13])
        refused = 3, "", DOUBT + "image: refusal 8 Disk\n"
        for cells, wanted in {1: refused, 13: refused, 14: (0, printed, DOUBT)}.items():
            self.image.write_bytes(image_of(changes))
            self.assertEqual(self.limited("recover plant image", cells, 1, restore_signals=False), wanted)
            self.assertEqual(self.standing_in(self.image.read_bytes()), printed)

    def check_bytes_of_a_new_image(self):
        for count in (0, 1, CELL, 4096, CELLS * CELL - 1):
            self.assertEqual(self.ran("format plant image --ring 8", preexec_fn=at_most(resource.RLIMIT_FSIZE, count)), (3, "", "file image\n"), count)
            self.expect_untouched(None)
        self.assertEqual(self.ran("format plant image --ring 8", preexec_fn=at_most(resource.RLIMIT_FSIZE, CELLS * CELL)), (0, "formatted 15\n", ""))

    def check_bytes_of_an_old_image(self):
        """The identity is emptied first, and then the other full cells, of which 11 is the last."""
        self.image.write_bytes(image_of({}))
        self.assertEqual(self.ran("format plant image --ring 8", preexec_fn=at_most(resource.RLIMIT_FSIZE, 0)), (3, "", "image: refusal 8 Disk\n"))
        self.assertEqual(self.standing_in(self.image.read_bytes()), standing(4, 3))
        left = {1: NOT_FORMATTED, 11: NOT_FORMATTED, 12: FIRST}
        for cells, wanted in left.items():
            self.image.write_bytes(image_of({}))
            ran = self.limited("format plant image --ring 8", cells, 1, restore_signals=False)
            self.assertEqual(ran, (0, "formatted 15\n", "") if wanted == FIRST else (3, "", "image: refusal 8 Disk\n"), cells)
            self.assertEqual(self.standing_in(self.image.read_bytes()), wanted, cells)

    def check_open_files(self):
        """Beside the standard streams a start has its image open, and for a moment the folder too. One that makes an image has it open once more as its device, and then the folder. With
        fewer files it is refused, and nothing is changed."""
        self.image.write_bytes(FORMATTED)
        self.assertEqual(self.ran("run plant image script", preexec_fn=at_most(resource.RLIMIT_NOFILE, 4)), (3, "", "file image\n"))
        self.assertEqual(self.image.read_bytes(), FORMATTED)
        self.assertEqual(self.ran("run plant image script", preexec_fn=at_most(resource.RLIMIT_NOFILE, 5)), answer())
        self.image.unlink()
        self.assertEqual(self.ran("format plant image --ring 8", preexec_fn=at_most(resource.RLIMIT_NOFILE, 4)), (3, "", "file image\n"))
        self.expect_untouched(None)
        self.assertEqual(self.ran("format plant image --ring 8", preexec_fn=at_most(resource.RLIMIT_NOFILE, 5)), (0, "formatted 15\n", ""))
        self.assertEqual(self.ran("explore plant nothing --ring 8", preexec_fn=at_most(resource.RLIMIT_NOFILE, 4)), EXPLORED)

    def check_closed_streams(self):
        """No file that the program opens is taken for a stream that it does not have."""
        commands = {
            "check plant": (0, "atoms 2 connectors 2 interactions 2 rules 0\n", ""),
            "format plant image --ring 8": (0, "formatted 15\n", ""),
            "run plant image script": answer(),
            "recover plant image": (0, FIRST, ""),
            "recover script image": (1, "", "plant line 1: fault 3 UnknownWord\n"),
            "recover other image": (1, "", "image: refusal 3 OtherSystem\n"),
            "explore plant nothing --ring 8": EXPLORED,
        }
        (self.folder / "other").write_bytes(PLANT.read_bytes() + b"\n")
        for command, (status, printed, line) in commands.items():
            for streams in itertools.chain.from_iterable(itertools.combinations((0, 1, 2), count) for count in (1, 2, 3)):
                self.image.write_bytes(FORMATTED)
                ran = self.ran(command, preexec_fn=lambda: [os.close(stream) for stream in streams])
                is_unwritten = bool(printed) and 1 in streams
                wanted = 3 if is_unwritten else status, "" if 1 in streams else printed, "" if 2 in streams else line
                self.assertEqual(ran, wanted, (command, streams))
                is_run = command.startswith("run") and not is_unwritten
                self.assertEqual(Image(self.plant, self.image.read_bytes()).last, 5 if is_run else 0, (command, streams))
                if not is_run:
                    self.assertEqual(self.image.read_bytes(), FORMATTED, (command, streams))

    def expect_memory(self, turn, words, answer, lines, data=None):
        """Memory runs out at each block that the command asks for. The lines that it tells come in this order, and the image stays as it was."""
        self.put_image(data)
        whole = self.with_memory(words)
        self.assertEqual(whole.answer, answer)
        count = len([call for call in whole.calls if is_growth(call)])
        if count < LEAST_BLOCKS:
            self.skipTest("the C library does not ask the system for each block of memory by itself")
        found = []
        # The commands take the blocks by turns, since each of them begins alike; at the end each takes all.
        numbers = [number for number in range(min(count, MANY_BLOCKS)) if number % len(MEMORY) == turn]
        numbers += [*range(MANY_BLOCKS, count, BLOCKS_APART), *range(count - LAST_BLOCKS, count)]
        for number in sorted(set(numbers)):
            self.put_image(data)
            ran = self.with_memory(words, number)
            # What the stacks of threads give back serves the command, and it does without a thread that it can't have.
            if number >= count - BLOCKS_WITH_THREADS and words.split()[0] in WITH_THREADS and ran.answer == answer:
                continue
            self.assertEqual((ran.status, ran.printed), (3, ""), number)
            found += [ran.told] if [ran.told] != found[-1:] else []
            self.expect_untouched(data)
        self.assertEqual(found, lines)

    def calls_refused(self, test, numbers, refuses=RefusesOnce, first=(), least=LEAST_BLOCKS):
        """The calls of a test that tell it if each of these growths of memory is refused them, until a run meets no refusal. The lines that the test
        prints first name none."""
        crate, name = test
        tests = ROOT / "crates" / crate / "out" / f"{crate}_tests"
        if reason := calls.why_not() or not tests.exists() and f"the tests of {crate} are not built":
            self.skipTest(reason)
        found = []
        for number in numbers:
            ran = calls.watched([tests, name], refuses(number), cwd=self.folder, env={**os.environ, **BLOCK_BY_BLOCK})
            self.assertEqual((ran.status, ran.told), (0, ""), number)
            printed = ran.printed.removesuffix(PASSED).split()
            self.assertEqual(tuple(printed[: len(first)]), first, number)
            names = printed[len(first) :]
            if not names:
                break
            found += names if names != found[-1:] else []
        if number < least:
            self.skipTest("the C library does not ask the system for each block of memory by itself")
        return found

    def check_memory_of_each_call(self):
        """One growth is refused, each in turn. The call tells it and has changed nothing, and made again it succeeds."""
        self.assertEqual(self.calls_refused(REFUSED, itertools.count()), ASKING)

    def check_memory_of_exploring(self):
        """The same of `explore`, which makes a run over and over: of its growths all of the first trials are refused, and then one of so many."""
        numbers = itertools.chain(range(MANY_BLOCKS), itertools.count(MANY_BLOCKS, BLOCKS_APART))
        self.assertEqual(self.calls_refused(EXPLORING, numbers), ["plant", "explore"])

    def check_memory_of_a_host(self):
        """The same of a host that is named and opened, once its plant is there."""
        found = self.calls_refused(OPENING, itertools.count(), RefusesOnceAfterALine, ("host",), 1)
        self.assertEqual(found, ["name", "room"])

    def check_memory_behind_a_boot(self):
        """Behind its boot a run asks for no memory, whatever is asked of the plant: neither the system nor the C library, which here asks the system for each
        block by itself. A boot ends with its second sync of the image: what it does not need is empty then."""
        self.image.write_bytes(FORMATTED)
        (self.folder / "script").write_bytes(BEGINNING + ROUND * ROUNDS)
        ran = self.with_memory("run plant image script")
        fired = 1 + 3 * ROUNDS
        self.assertEqual((ran.status, ran.told), (0, ""))
        self.assertEqual("".join(ran.printed.splitlines(keepends=True)[-3:]), standing(fired, fired - 2, fired, fired + 1))
        ended = [place for place, call in enumerate(ran.calls) if call.name == "fdatasync"][1]
        before, behind = ([call for call in calls if is_growth(call)] for calls in (ran.calls[:ended], ran.calls[ended:]))
        if len(before) < LEAST_BLOCKS:
            self.skipTest("the C library does not ask the system for each block of memory by itself")
        self.assertEqual(behind, [])

    def check_memory_of_reasons(self):
        """Where memory is wanting for the table of what is above what, the order is asked for each pair: the reasons are the same."""
        case = next(case for case in every_case() if case.name == "why/chain_of_rules_with_conditions")
        (self.folder / "chain").write_bytes(case.files["plant"].data)
        answer = 0, case.runs[0].printed.data.decode(), ""
        whole = self.with_memory("why chain")
        self.assertEqual(whole.answer, answer)
        count = len([call for call in whole.calls if is_growth(call)])
        if count < LEAST_BLOCKS:
            self.skipTest("the C library does not ask the system for each block of memory by itself")
        answers = (self.with_memory("why chain", number).answer for number in range(count - LAST_BLOCKS // 2, count))
        self.assertEqual([found for found, _ in itertools.groupby(answers)], [(3, "", OF_PLANT), (3, "", NO_MEMORY), answer])

    def put_image(self, data):
        self.image.unlink(missing_ok=True)
        if data is not None:
            self.image.write_bytes(data)

    def expect_untouched(self, data):
        """The image is as it was. Where there was none, there is none, under no name."""
        if data is not None:
            self.assertEqual(self.image.read_bytes(), data)
        else:
            self.assertEqual([file for file in self.folder.iterdir() if file.name.startswith("image")], [])

    def with_memory(self, words, blocks=None):
        """The command gets so many blocks of memory and no more, or all."""
        counted = itertools.count()

        def decide(call):
            return LetGo(no_more_memory) if blocks is not None and is_growth(call) and next(counted) == blocks else None

        return calls.watched(self.command(words), decide, cwd=self.folder, env={**os.environ, **BLOCK_BY_BLOCK})


NO_MEMORY, OF_PLANT, OF_IMAGE = "memory\n", "plant line 0: fault 15 Memory\n", "image: refusal 9 Memory\n"
# Each with the command, its answer, what it tells for want of memory: while it reads the words, the plant, a script and the image and while it runs; and the image.
MEMORY = {
    "check": ("check plant", (0, "atoms 2 connectors 2 interactions 2 rules 0\n", ""), [NO_MEMORY, OF_PLANT]),
    "trace": ("trace plant 0 1", (0, "1 tick A.t/0\n2 send A.t/0 B.u/0\nstate A [s] n=2\nstate B [s] m=1\n", ""), [NO_MEMORY, OF_PLANT, NO_MEMORY]),
    "format": ("format plant image --ring 8", (0, "formatted 15\n", ""), [NO_MEMORY, OF_PLANT, OF_IMAGE]),
    "format_of_an_old_image": ("format plant image --ring 8", (0, "formatted 15\n", ""), [NO_MEMORY, OF_PLANT, OF_IMAGE], image_of({})),
    "run": ("run plant image script", answer(), [NO_MEMORY, OF_PLANT, NO_MEMORY, OF_IMAGE], FORMATTED),
    "explore": ("explore plant nothing --ring 8", EXPLORED, [NO_MEMORY, OF_PLANT, NO_MEMORY]),
    "recover": ("recover plant image", (0, standing(4, 3), DOUBT), [NO_MEMORY, OF_PLANT, OF_IMAGE, DOUBT + OF_IMAGE], image_of(TAKEN["record_behind_an_empty_cell"][0])),
    "migrate": ("migrate plant old image --ring 8", (0, "migrated 5\n", ""), [NO_MEMORY, OF_PLANT, OF_IMAGE]),
    "backup": ("backup kept image", (0, f"copied {CELLS} front 5\n", ""), [NO_MEMORY, OF_IMAGE]),
}


def suite(program, words):
    reason = calls.why_not()
    checks = {f"limits/{method.removeprefix('check_')}": getattr(Limits, method) for method in dir(Limits) if method.startswith("check_")}
    for turn, (name, what) in enumerate(MEMORY.items()):
        checks[f"limits/memory_of_{name}"] = unittest.skipIf(reason, reason)(lambda self, turn=turn, what=what: self.expect_memory(turn, *what))
    return sample.suite(Limits, program, checks, words)
