"""Programs of one's own over the engine: the controller of the level crossing in Rattle, in C and in Rust, which is killed at random moments and gone on with.

The test plays the world: trains come and go at random, and each report is a line. Behind each report stands one that is never possible, whose answer tells that all moves
were made. Where the controller says that the crossing stands behind a kill has to be the state behind the moves that it had told, or behind one more: that one was
acknowledged, and not told yet. A train enters only while the barrier is down.

The controllers in C and in Rust are built here, as docs/EMBEDDING.md says. Programs in C ask the interface itself, in embedding/: calls.c makes each call, mistaken and not,
images.c asks what an image is refused for, failing.c has each write and each sync of a device fail, files.c opens and makes files on a system that it has fail, and many.c makes
many calls under valgrind.
"""

import atexit
import errno
import functools
import os
import random
import re
import shutil
import signal
import subprocess
import tempfile
import unittest
from pathlib import Path

import calls
import sample
from built import program_of
from calls import Fails, Killed
from folders import ROOT, TESTS, folder_in_memory
from gone import TAKEN_AWAY
from making import at
from stops import hear_signals
from syncs import SYNCS, Cache, acknowledged

CROSSING, SAMPLE = ROOT / "examples" / "crossing.plant", ROOT / "examples" / "sample.plant"
SOURCES, ASKING = ROOT / "examples" / "embedding", TESTS / "programs" / "embedding"
# What makes a warning of whatever can have one, and an error of it.
WARNINGS = ["-Wall", "-Wextra", "-Wpedantic", "-Wconversion", "-Wshadow", "-Werror"]
C, CPP = ["-std=c11", *WARNINGS, "-Wstrict-prototypes", "-I", SOURCES], ["-std=c++17", *WARNINGS, "-I", SOURCES]
# All that a program may do with a header alone.
BEGINS = """\
#include "{}"
int main(void) {{
    kilnmace_text text = KILNMACE_NOTHING;
    kilnmace_plant plants[] = {{KILNMACE_NOTHING, KILNMACE_NOTHING}};
    kilnmace_device device = KILNMACE_NO_DEVICE;
    return text.held.at != plants[0].held.at || plants[1].device.of != device.of;
}}
"""
# The programs that ask the interface itself. Each is C and C++ alike.
ASKING_PROGRAMS = ["calls", "images", "failing", "files"]
# So many events under valgrind. They take some ten seconds of a processor that has nothing else to do.
EVENTS, SECONDS = 100_000, 600
RUNS, REPORTS = 30, 40
ASKED = "all told"
TOLD = f"not possible now: {ASKED}"
MOVE = re.compile(r"(\d+) ([a-z_]+)")
# Where each move leaves its atom, as the plant's text says.
LEAVES = {
    "approach_north": ("North", "near"),
    "enter_north": ("North", "inside"),
    "leave_north": ("North", "away"),
    "approach_south": ("South", "near"),
    "enter_south": ("South", "inside"),
    "leave_south": ("South", "away"),
    "lower": ("Barrier", "down"),
    "raise": ("Barrier", "up"),
}
# Before these calls a controller is killed that makes its image.
MAKING = {"openat", "flock", "pwrite64", "fsync", "fdatasync", "link", "rename", "unlink"}
FIRST = {"North": "away", "South": "away", "Barrier": "up"}
# By hand: a train from the north, and then one from each side at once.
REPORTED = "approach_north leave_north approach_south leave_north approach_north leave_south leave_north"
ANSWERED = """\
state North [away] trips=0
state South [away] trips=0
state Barrier [up]
state Supervisor [calm]
front 0 0 1
1 approach_north
2 lower
3 enter_north
4 leave_north
5 raise
6 approach_south
7 lower
8 enter_south
not possible now: leave_north
9 approach_north
10 enter_north
11 leave_south
12 leave_north
13 raise
"""


def library():
    """What a program in another language is linked with, in this order; None where the library is not built, or the kit of the language Rattle is not there."""
    ours = ROOT / "crates" / "kilnmace_c" / "out" / "libkilnmace_c.a"
    if not ours.exists() or not shutil.which("rt"):
        return None
    page = subprocess.run(["rt", "doc"], stdout=subprocess.PIPE, text=True, check=True).stdout
    of_the_kit = [Path(page.strip()).parent / "c" / name for name in ("libos_c.a", "liblibc_c.a")]
    return [ours, *of_the_kit] if all(file.exists() for file in of_the_kit) else None


def library_or_skip():
    """The same; the test is skipped without it."""
    found = library()
    if not found:
        raise unittest.SkipTest("crates/kilnmace_c/out/libkilnmace_c.a is not built, or the kit is not there")
    return found


def tool_or_skip(*names):
    """The first of these programs that is there. The test is skipped without one."""
    for name in names:
        if shutil.which(name):
            return name
    raise unittest.SkipTest(f"there is no {names[0]}")


@functools.cache
def folder_of_programs():
    """Where programs are built, until the tests end."""
    folder = tempfile.TemporaryDirectory()
    atexit.register(folder.cleanup)
    return Path(folder.name)


def compiled(*command, **how):
    ran = subprocess.run([str(word) for word in command], stdout=subprocess.PIPE, stderr=subprocess.STDOUT, text=True, **how)
    if ran.returncode or ran.stdout:
        raise AssertionError(f"{command[0]}: status {ran.returncode}\n{ran.stdout}")


@functools.cache
def built_of_c(source):
    """The program of this file in C, built without a warning."""
    compiler, program = tool_or_skip("gcc", "cc"), folder_of_programs() / source.stem
    compiled(compiler, *C, "-O2", "-g", source, *library_or_skip(), "-pthread", "-o", program)
    return program


@functools.cache
def built_of_rust(source):
    """The same in Rust."""
    compiler, program = tool_or_skip("rustc"), folder_of_programs() / f"{source.stem}_in_rust"
    linked = [word for file in library_or_skip() for word in ("-C", f"link-arg={file}")]
    compiled(compiler, "--edition", "2021", "-O", "-D", "warnings", source, *linked, "-o", program)
    return program


class Embedding(unittest.TestCase):
    program = None

    # The controllers, each with its name in the line that tells how it is used.
    def in_rattle(self):
        return program_of("crossing_control"), "crossing_control"

    def in_c(self):
        return built_of_c(SOURCES / "crossing.c"), "crossing"

    def in_rust(self):
        return built_of_rust(SOURCES / "crossing.rs"), "crossing"

    def setUp(self):
        folder = folder_in_memory()
        self.addCleanup(folder.cleanup)
        self.folder = Path(folder.name)
        self.image = self.folder / "image"

    def check_controller(self, controller, check):
        self.controller, self.name = controller(self)
        check(self)

    def started(self, *words):
        return subprocess.Popen([self.controller, *map(str, words)], stdin=subprocess.PIPE, stdout=subprocess.PIPE, stderr=subprocess.PIPE, text=True, preexec_fn=hear_signals)

    def ended(self, reports, *words):
        running = self.started(*words)
        printed, complained = running.communicate("".join(f"{report}\n" for report in reports), timeout=60)
        return printed, complained, running.returncode

    def check_reports(self):
        self.assertEqual(self.ended(REPORTED.split(), CROSSING, self.image), (ANSWERED, "", 0))
        # The moves are there when it is started again.
        printed, _, status = self.ended([], CROSSING, self.image)
        self.assertEqual((printed.splitlines()[:3], status), (["state North [away] trips=2", "state South [away] trips=1", "state Barrier [up]"], 0))

    def check_lines(self):
        """Whatever stands in a line: 64 bytes of it are kept, the line feed among them."""
        lines = {
            b"approach_north\r\n": b"1 approach_north\n2 lower\n3 enter_north\n",
            b"\n": b"not possible now: \n",
            b"\r\n": b"not possible now: \n",
            b" leave_north\n": b"not possible now:  leave_north\n",
            b"leave_north\0\n": b"not possible now: leave_north\0\n",
            b"lower\n": b"not possible now: lower\n",
            b"\xff\xfe\n": b"not possible now: \xff\xfe\n",
            b"y" * 62 + b"\r\n": b"not possible now: " + b"y" * 62 + b"\n",
            b"y" * 63 + b"\r\n": b"not possible now: " + b"y" * 63 + b"\r\n",
            b"y" * 64 + b"\r\n": b"not possible now: " + b"y" * 64 + b"\n",
            b"x" * 100_000 + b"\n": b"not possible now: " + b"x" * 64 + b"\n",
            # The last one has no end.
            b"leave_north": b"4 leave_north\n5 raise\n",
        }
        ran = subprocess.run([self.controller, CROSSING, self.image], input=b"".join(lines), capture_output=True, timeout=60)
        stands = "".join(ANSWERED.splitlines(keepends=True)[:5]).encode()
        self.assertEqual((ran.stdout, ran.stderr, ran.returncode), (stands + b"".join(lines.values()), b"", 0))

    def check_refusals(self):
        faulty = self.folder / "faulty"
        faulty.write_text("atom A\nplaice s\n")
        for words, complained, status in (
            ([CROSSING], f"usage: {self.name} PLANT IMAGE\n", 2),
            ([CROSSING, self.image, self.image], f"usage: {self.name} PLANT IMAGE\n", 2),
            ([self.image, self.image], "the plant's text can't be opened\n", 3),
            ([faulty, self.image], "plant line 2: fault 3", 1),
            ([SAMPLE, self.image], "it is no plant of a crossing\n", 1),
            ([CROSSING, "/dev/null"], "the image: ", 3),
            ([CROSSING, self.folder / "no folder" / "image"], "the image: ", 3),
        ):
            printed, told, ended = self.ended([], *words)
            self.assertEqual((printed, ended), ("", status), words)
            self.assertTrue(told.startswith(complained) and told.endswith("\n"), told)
        self.assertFalse(self.image.exists())
        self.image.write_bytes(bytes(1024))
        printed, told, ended = self.ended([], CROSSING, self.image)
        self.assertEqual((printed, ended), ("", 1))
        self.assertRegex(told, r"\Athe image: .*never formatted.*\n\Z")
        self.assertEqual(self.image.read_bytes(), bytes(1024))

    def check_in_use(self):
        """A second controller does not get the plant of the first one."""
        running = self.started(CROSSING, self.image)
        running.stdout.readline()
        printed, told, ended = self.ended(["approach_north"], CROSSING, self.image)
        self.assertEqual((printed, ended), ("", 3))
        self.assertTrue(told.startswith("the image: "), told)
        running.communicate("approach_north\n", timeout=60)
        self.assertEqual(running.returncode, 0)

    def check_output(self):
        """An output that takes nothing ends the controller, and one that is closed is not taken for the image."""
        for closed in (False, True):
            for _ in range(2):
                with open("/dev/full", "w") as full:
                    ran = subprocess.run(
                        [self.controller, CROSSING, self.image],
                        input=b"approach_north\n",
                        stdout=full,
                        stderr=subprocess.PIPE,
                        timeout=60,
                        preexec_fn=functools.partial(os.close, 1) if closed else None,
                    )
                if ran.returncode != 0 or not closed:
                    self.assertEqual((ran.returncode, ran.stderr), (3, b"the standard output can't be written\n"))
        # A program in Rust gets an output in place of a closed one, and goes on.
        printed, complained, status = self.ended([], CROSSING, self.image)
        self.assertEqual((len(printed.splitlines()) >= 5, complained, status), (True, "", 0))

    def check_kills(self):
        chosen = random.Random(66)
        last, places = 0, dict(FIRST)
        for run in range(RUNS):
            running = self.started(CROSSING, self.image)
            stands = [running.stdout.readline().split() for _ in range(5)]
            found = {words[1]: words[2].strip("[]") for words in stands[:3]}
            acked = int(stands[4][2])
            # The last move before the kill may be acknowledged, and not told.
            if acked == last:
                self.assertEqual(found, places)
            else:
                self.assertEqual(acked, last + 1)
                self.assertIn(found, [places | dict([left]) for left in LEAVES.values()])
            last, places = acked, found
            living = chosen.randrange(REPORTS) if run < RUNS - 1 else REPORTS
            for report in range(living + 1):
                near = [atom for atom in ("North", "South") if places[atom] != "near"]
                atom = chosen.choice(near)
                word = "leave" if places[atom] == "inside" else "approach"
                running.stdin.write(f"{word}_{atom.lower()}\n{ASKED}\n")
                running.stdin.flush()
                if report == living and run < RUNS - 1:
                    running.kill()
                for line in running.stdout:
                    if line == f"{TOLD}\n":
                        break
                    number, name = MOVE.fullmatch(line.rstrip("\n")).groups()
                    self.assertEqual(int(number), last + 1)
                    self.assertTrue(not name.startswith("enter") or places["Barrier"] == "down")
                    last = int(number)
                    places |= dict([LEAVES[name]])
            _, complained = running.communicate(timeout=60)
            self.assertEqual((running.returncode, complained), (0 if run == RUNS - 1 else -9, ""))
        # So often that the ring was used again.
        self.assertGreater(last, 5 * 64)

    def watched(self, reports=(), decide=lambda call: None):
        if reason := calls.why_not():
            self.skipTest(reason)
        return calls.watched([self.controller, CROSSING, self.image], decide, "".join(f"{report}\n" for report in reports).encode())

    def check_a_kill_while_it_makes_its_image(self):
        """It is started again, and does all that it would have done."""
        made = [call for call in self.watched().calls if call.name in MAKING]
        for number in range(len(made)):
            for file in self.folder.iterdir():
                file.unlink()
            self.assertEqual(self.watched(decide=at(number, lambda: Killed(signal.SIGKILL), MAKING)).status, -signal.SIGKILL)
            self.assertEqual(self.ended(REPORTED.split(), CROSSING, self.image), (ANSWERED, "", 0), made[number])
            # A second name of the image may be left.
            self.assertEqual([file for file in self.folder.iterdir() if not file.samefile(self.image)], [], made[number])

    def check_an_image_that_is_taken_away(self):
        """The next move is not made, and the controller ends."""
        for name, take_away in TAKEN_AWAY.items():
            running = self.started(CROSSING, self.image)
            for line in ANSWERED.splitlines(True)[:5]:
                self.assertEqual(running.stdout.readline(), line)
            take_away(self.image)
            printed, complained = running.communicate(f"{REPORTED.split()[0]}\n", timeout=60)
            self.assertEqual((running.returncode, printed), (3, ""), name)
            self.assertTrue(complained, name)
            shutil.rmtree(self.folder)
            self.folder.mkdir()

    def over(self, cache, reports=(), failing=None):
        """A controller in which this sync fails, and what waits for it is forgotten: what it told as acknowledged."""
        syncs = iter(range(1 << 30))
        fails = lambda call: Fails(errno.EIO) if call.file == "image" and call.name in SYNCS and next(syncs) == failing else None
        ran = self.watched(reports, fails)
        for call in ran.calls:
            if call.file == "image":
                cache.take(call)
        moves = [int(found[1]) for found in map(MOVE.fullmatch, ran.printed.splitlines()) if found]
        return ran, max([acknowledged(ran.printed)[0], *moves])

    def check_a_start_after_each_sync(self):
        """A sync fails. What the next start tells of is there when power is lost."""
        self.ended([], CROSSING, self.image)
        data = self.image.read_bytes()
        whole, moves = self.over(Cache(data), REPORTED.split())
        for failing in range(len([call for call in whole.calls if call.file == "image" and call.name in SYNCS])):
            self.image.write_bytes(data)
            cache = Cache(data)
            ran, told = self.over(cache, REPORTED.split(), failing)
            self.assertEqual((ran.status, told < moves), (3, True), failing)
            ran, acked = self.over(cache)
            self.assertEqual((ran.status, told <= acked), (0, True), failing)
            self.image.write_bytes(cache.synced)
            self.assertEqual(self.over(Cache(cache.synced))[1], acked, failing)

    def check_header_in_c(self):
        compiler = tool_or_skip("gcc", "cc")
        compiled(compiler, *C, "-fsyntax-only", "-x", "c", "-", input=BEGINS.format("kilnmace.h"))
        for source in ("-D_DEFAULT_SOURCE", "-D_GNU_SOURCE"):
            compiled(compiler, *C, source, "-fsyntax-only", "-x", "c", "-", input=BEGINS.format("kilnmace_file.h"))

    def check_header_without_a_system(self):
        """kilnmace.h needs no file but the compiler's own."""
        compiler = tool_or_skip("gcc")
        own = subprocess.run([compiler, "-print-file-name=include"], stdout=subprocess.PIPE, text=True, check=True).stdout.strip()
        compiled(compiler, *C, "-ffreestanding", "-nostdinc", "-isystem", own, "-fsyntax-only", "-x", "c", "-", input=BEGINS.format("kilnmace.h"))

    def check_header_in_cpp(self):
        """By itself, and with each of its calls."""
        compiler = tool_or_skip("g++", "c++")
        for header in ("kilnmace.h", "kilnmace_file.h"):
            compiled(compiler, *CPP, "-fsyntax-only", "-x", "c++", "-", input=BEGINS.format(header))
        for name in ASKING_PROGRAMS:
            compiled(compiler, *CPP, "-fsyntax-only", "-x", "c++", ASKING / f"{name}.c")

    def check_asked(self, command, printed):
        ran = subprocess.run([str(word) for word in command], stdout=subprocess.PIPE, stderr=subprocess.STDOUT, text=True, timeout=SECONDS)
        self.assertEqual(ran.returncode, 0, ran.stdout)
        self.assertRegex(ran.stdout, printed)

    def asking(self, name):
        """The program with this name, and its words."""
        folder = [self.folder] if name == "files" else []
        return [built_of_c(ASKING / f"{name}.c"), CROSSING, SAMPLE, *folder]

    def check_asking(self, name):
        self.check_asked(self.asking(name), r"\A\Z")

    def check_watched(self, command, printed):
        """No byte is read that was not written, and no memory is lost."""
        self.check_asked([tool_or_skip("valgrind"), "--quiet", "--error-exitcode=9", "--leak-check=full", "--errors-for-leak-kinds=definite", *command], printed)

    def check_asking_under_valgrind(self, name):
        self.check_watched(self.asking(name), r"\A\Z")

    def check_many_under_valgrind(self):
        self.check_watched([built_of_c(ASKING / "many.c"), CROSSING, self.image, EVENTS], r"\Afired \d+ flushed \d+ saved \d+ trimmed \d+\n\Z")


CONTROLLERS = {"": Embedding.in_rattle, "_in_c": Embedding.in_c, "_in_rust": Embedding.in_rust}
OF_EACH = [
    Embedding.check_reports,
    Embedding.check_lines,
    Embedding.check_refusals,
    Embedding.check_in_use,
    Embedding.check_output,
    Embedding.check_kills,
    Embedding.check_a_kill_while_it_makes_its_image,
    Embedding.check_an_image_that_is_taken_away,
    Embedding.check_a_start_after_each_sync,
]
OF_THE_INTERFACE = [
    Embedding.check_header_in_c,
    Embedding.check_header_without_a_system,
    Embedding.check_header_in_cpp,
    Embedding.check_many_under_valgrind,
]


def checks():
    """Each check by its name."""
    found = {}
    for behind, controller in CONTROLLERS.items():
        for check in OF_EACH:
            found[f"{check.__name__}{behind}"] = lambda self, controller=controller, check=check: self.check_controller(controller, check)
    for name in ASKING_PROGRAMS:
        found[f"check_{name}"] = lambda self, name=name: self.check_asking(name)
        found[f"check_{name}_under_valgrind"] = lambda self, name=name: self.check_asking_under_valgrind(name)
    found |= {check.__name__: check for check in OF_THE_INTERFACE}
    return {f"embedding/{name.removeprefix('check_')}": check for name, check in found.items()}


def suite(program, words):
    """The tests whose name has one of the words in it; all, where there is no word."""
    return sample.suite(Embedding, program, checks(), words)
