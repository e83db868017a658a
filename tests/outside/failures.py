"""Disks, files and outputs that fail: each call that the program makes on one of them fails in turn, and the answer is the one of docs/COMMANDS.md.

The run is that of tests/sample.py. Behind each one that failed the image has to stand for what was fired up to some place, no earlier than what was
acknowledged; `recover` has to say so, and the run has to go on from there.
"""

import errno
import itertools
import os
import signal
import unittest

import calls
import sample
from calls import Fails, FailsHalfway, Killed, LetGo, Takes
from damaged import TAKEN
from reference import Image
from sample import EVENTS, FORMATTED, LEFT, PLANT, SCRIPT, STATES, OnImage, answer, end, fired_behind, image_of, standing, text, told, told_before

NOT_FORMATTED = "image: refusal 1 NotFormatted\n"
# The place of the boot, before all events.
BOOT = -1
BOOT_SYNCS = 2
WITH_DEVICE = [BOOT] + [place for place, (_, _, syncs) in enumerate(EVENTS) if syncs]
OF_DEVICE = {"pread64", "pwrite64"}
# A line for each stop of the run under each tear.
EXPLORE = "explore plant script --ring 8 --list"
OF_A_DISK, OF_AN_OUTPUT = (errno.EIO, errno.ENOSPC), (errno.EIO, errno.ENOSPC, errno.EPIPE, errno.EAGAIN)


def reason(error):
    """What is told of a device that failed, if more is to be told: what the system calls it."""
    return f"  the device failed: {os.strerror(error)} (os error {error})\n"


def in_hand(lines):
    """The atoms whose hands are not empty behind these answers."""
    hands = set()
    for line in lines:
        if line.startswith("asked "):
            hands.add(line.split()[1])
        if line.startswith("stored "):
            hands.remove(line.split()[1])
    return hands


def answer_at(place):
    """The status, the standard output and the standard error of the run if the device fails at the event at this place."""
    if place == BOOT:
        return 3, "", "image: refusal 8 Disk\n"
    lines = [answer for _, answer, _ in EVENTS[:place]]
    hands, refusal, rest = in_hand(lines), "refused 10 Disk", []
    for event, _, _ in EVENTS[place:]:
        word, _, atom = event.partition(" ")
        if word == "put" and atom not in hands:
            rest.append(f"nothing {atom}")
        else:
            rest.append(refusal)
            refusal = "refused 11 Broken"
    return 3, text([*lines, *rest, *end(*told(lines))]), ""


def written_out():
    """What a run hands to its output at once, with how many firings are acknowledged then: what waits when an event is to ask the device, and at the end."""
    parts, lines, acked = [], [], 0
    for event, line, _ in EVENTS:
        if event.split()[0] in ("flush", "put", "save", "trim"):
            parts += [(text(lines), acked)] if lines else []
            acked = max(acked, told([line])[1])
            lines = []
        lines.append(line)
    last = [line for _, line, _ in EVENTS]
    return [*parts, (text([*lines, *end(*told(last))]), acked)]


def among(numbers, fails, names, files=("image",)):
    """Of the calls of these names on the files those with these numbers, from 0, fail. Behind them the program is let go, which takes less time."""
    counted = itertools.count()

    def decide(call):
        if call.file not in files or call.name not in names:
            return None
        number = next(counted)
        if number in numbers:
            return fails
        return LetGo(lambda process: None) if number > numbers[-1] else None

    return decide


def sweep(length, fails, names, files=("image",)):
    """Each of so many calls fails in one run."""
    return [among([number], fails(number), names, files) for number in range(length)]


def by_turns(kind, errors=OF_A_DISK):
    """Failures of this kind, by one error after the other."""
    return lambda number: kind(errors[number % len(errors)])


class Failures(OnImage):
    """Each sweep is a test."""

    def watched(self, words, decide=lambda call: None, given=b""):
        return calls.watched(self.command(words), decide, given, cwd=self.folder)

    def run_with(self, decide=lambda call: None, words="run plant image script"):
        """The run from a freshly formatted image."""
        self.image.write_bytes(FORMATTED)
        return self.watched(words, decide)

    def count(self, ran, names, files=("image",)):
        return len([call for call in ran.calls if call.file in files and call.name in names])

    def expect_image(self, fired, acked, base):
        """The image stands for what was fired up to a place that is not before what was acknowledged, and the run goes on from there."""
        found = Image(self.plant, self.image.read_bytes())
        self.assertTrue(acked <= found.last <= fired, f"{acked} acknowledged, {found.last} in the image, {fired} fired")
        self.assertTrue(base <= found.base <= found.last + 1, f"base {base} told, {found.base} in the image")
        self.assertEqual(self.ran("recover plant image"), (0, text(end(found.last, found.last, found.base)), ""))
        n, m = STATES[found.last]
        number = found.last + 1
        on = [f"{number} send A.t/0 B.u/0", f"flushed {number}", f"state A [s] n={n + 1}", f"state B [s] m={n}", f"front {number} {number} {found.base}"]
        self.assertEqual(self.ran("run plant image -", b"fire 1\nflush\n"), (0, text(on), ""))

    def expect_failed(self, place):
        """The image behind a run whose device failed at this place."""
        self.expect_image(*told_before(max(place, 0)))

    def check_each_sync_of_a_run(self):
        whole = self.run_with()
        self.assertEqual(whole.answer, answer())
        self.assertEqual(self.image.read_bytes(), LEFT)
        places = BOOT_SYNCS * [BOOT] + [place for place, (_, _, syncs) in enumerate(EVENTS) for _ in range(syncs)]
        self.assertEqual(len([call for call in whole.calls if call.name == "fdatasync"]), len(places), "syncs")
        for place, decide in zip(places, sweep(len(places), by_turns(Fails), {"fdatasync"})):
            self.assertEqual(self.run_with(decide).answer, answer_at(place))
            self.expect_failed(place)

    def check_the_reason_of_a_sync_that_failed(self):
        """It is told with `--explain`: below the advice if the image is not booted, by itself behind a run, and below the line of a strict one."""
        advice = "  the disk failed: see to it, and give the command again\n"
        places = BOOT_SYNCS * [BOOT] + [place for place, (_, _, syncs) in enumerate(EVENTS) for _ in range(syncs)]
        for number, place in enumerate(places):
            error = OF_A_DISK[number % len(OF_A_DISK)]
            status, printed, told = answer_at(place)
            ran = self.run_with(among([number], Fails(error), {"fdatasync"}), "run plant image script --explain")
            self.assertEqual(ran.answer, (status, printed, told + (advice if place == BOOT else "") + reason(error)))
        (self.folder / "script").write_bytes(b"fire 0\nflush\nfire 0\n")
        for error in OF_A_DISK:
            fails = among([BOOT_SYNCS], Fails(error), {"fdatasync"})
            ran = self.run_with(fails, "run plant image script --strict --explain")
            lines = ["1 tick A.t/0", "refused 10 Disk", "state A [s] n=1", "state B [s] m=0", "front 1 0 1"]
            self.assertEqual(ran.answer, (3, text(lines), "error: script:2: refused 10 Disk\n" + reason(error)))
            self.assertEqual(self.run_with(among([0], Fails(error), {"fdatasync"}), "recover plant image --explain").answer, (3, "", "image: refusal 8 Disk\n" + advice + reason(error)))

    def check_a_served_plant_whose_device_fails(self):
        """The answer to the event is the last one, and no line is read behind it."""
        for error, more in itertools.product(OF_A_DISK, ("", " --explain")):
            self.image.write_bytes(FORMATTED)
            ran = self.watched(f"serve plant image{more}", among([BOOT_SYNCS], Fails(error), {"fdatasync"}), b"fire 0\nflush\nfire 0\nfront\n")
            lines = ["state A [s] n=0", "state B [s] m=0", "front 0 0 1", "end", "1 tick A.t/0", "end", "refused 10 Disk", "end"]
            self.assertEqual(ran.answer, (3, text(lines), reason(error) if more else ""))

    def check_each_thread_of_a_worker(self):
        """A thread that can't be made ends the run by workers before any event; while the image boots the program does without it."""
        (self.folder / "script").write_bytes(b"fire 0\nfire 0\nfire 0\n")
        words, made, of_threads = "run plant image script --workers 3", {"clone"}, {"<thread>"}
        whole = self.run_with(words=words)
        self.assertEqual(whole.answer, (0, "state A [s] n=3\nstate B [s] m=0\nfront 3 0 1\nby 3\n", ""))
        count = self.count(whole, made, of_threads)
        self.assertGreaterEqual(count, 3)
        for number, decide in enumerate(sweep(count, lambda number: Fails(errno.EAGAIN), made, of_threads)):
            of_a_worker = number >= count - 3
            self.assertEqual(self.run_with(decide, words).answer, (3, "", "memory\n") if of_a_worker else whole.answer, number)
            if of_a_worker:
                self.assertEqual(self.image.read_bytes(), FORMATTED, number)

    def check_each_read_and_write_of_a_run(self):
        """They fail halfway. Each belongs to the boot or to an event that asks the device, one after the other."""
        whole = self.run_with()
        places = {answer_at(place): place for place in WITH_DEVICE}
        found = []
        for decide in sweep(self.count(whole, OF_DEVICE), by_turns(FailsHalfway), OF_DEVICE):
            ran = self.run_with(decide)
            self.assertIn(ran.answer, places)
            found.append(places[ran.answer])
            self.expect_failed(found[-1])
        self.assertEqual(sorted(found), found)
        self.assertEqual(sorted(set(found)), WITH_DEVICE)

    def check_each_call_that_opens_an_image(self):
        failures = {
            "openat": [errno.EACCES, errno.EROFS, errno.EMFILE, errno.ENFILE, errno.ELOOP, errno.ENOMEM, errno.EIO, errno.EPERM, errno.ETXTBSY],
            "flock": [errno.ENOLCK, errno.EIO, errno.EOPNOTSUPP],
            "fstat": [errno.EIO, errno.ENOMEM],
        }
        for name, errors in failures.items():
            for error in errors:
                ran = self.run_with(among([0], Fails(error), {name}))
                self.assertEqual(ran.answer, (3, "", "file image\n"), (name, errno.errorcode[error]))
                self.assertEqual(self.image.read_bytes(), FORMATTED)
        # A stop may have left a name that is not on the disk yet.
        for error in OF_A_DISK:
            ran = self.run_with(among([0], Fails(error), {"fsync"}, ["."]))
            self.assertEqual(ran.answer, (3, "", "file image\n"), errno.errorcode[error])
            self.assertEqual(self.image.read_bytes(), FORMATTED)
        ran = self.run_with(among([0], Fails(errno.EWOULDBLOCK), {"flock"}))
        self.assertEqual(ran.answer, (3, "", "file image in use\n"))

    def check_each_call_that_a_signal_interrupts(self):
        """It is made again."""
        whole = self.run_with()
        names = {"openat", "flock", "fsync", "fdatasync", *OF_DEVICE}
        for decide in sweep(self.count(whole, names), lambda _: Fails(errno.EINTR), names):
            self.assertEqual(self.run_with(decide).answer, answer())
            self.assertEqual(self.image.read_bytes(), LEFT)

    def check_calls_that_do_a_part(self):
        """The rest is asked for again, of the texts, of the image and of the output."""
        names = {"read", "write", *OF_DEVICE}
        for count in (1, 100):
            ran = self.run_with(lambda call: Takes(count) if call.name in names and call.file != "<error>" else None)
            self.assertEqual(ran.answer, answer())
            self.assertEqual(self.image.read_bytes(), LEFT)

    def check_a_device_that_takes_nothing(self):
        whole = self.run_with()
        places = {answer_at(place): place for place in WITH_DEVICE}
        for decide in sweep(self.count(whole, OF_DEVICE), lambda _: Takes(0), OF_DEVICE)[::5]:
            ran = self.run_with(decide)
            self.assertIn(ran.answer, places)
            self.expect_failed(places[ran.answer])

    def check_each_write_of_the_output(self):
        """It fails, and each one behind it. Events up to the one that is told there were asked for, and none behind it."""
        whole = self.run_with()
        parts = written_out()
        self.assertEqual([call.data.decode() for call in whole.calls if call.file == "<output>" and call.name == "write"], [part for part, _ in parts])
        fails = by_turns(Fails, OF_AN_OUTPUT)
        for number, (_, acked) in enumerate(parts):
            ran = self.run_with(among(range(number, len(parts) + 1), fails(number), {"write"}, ["<output>"]))
            self.assertEqual(ran.answer, (3, "".join(part for part, _ in parts[:number]), ""))
            self.assertEqual(Image(self.plant, self.image.read_bytes()).last, acked)

    def check_a_kill_before_each_call_of_a_run(self):
        whole = self.run_with()
        names, files = {"fsync", "fdatasync", "write", "close", *OF_DEVICE}, ("image", "<output>")
        for decide in sweep(self.count(whole, names, files), lambda _: Killed(signal.SIGKILL), names, files):
            ran = self.run_with(decide)
            self.assertEqual((ran.status, ran.told), (-signal.SIGKILL, ""))
            self.assertTrue(answer()[1].startswith(ran.printed))
            lines = ran.printed.splitlines()
            _, acked, base = told(lines)
            self.expect_image(fired_behind(lines), acked, base)

    def check_a_careful_start(self):
        """From an image in doubt it writes and syncs nothing, and from another it goes on as any start."""
        changes, printed, _ = TAKEN["record_behind_an_empty_cell"]
        doubted = image_of(changes)
        self.image.write_bytes(doubted)
        ran = self.watched("recover --careful plant image")
        self.assertEqual((ran.status, ran.printed), (1, ""))
        self.assertTrue(ran.told.endswith("image: doubted, and not started from: --careful\n"), ran.told)
        self.assertEqual(self.count(ran, {"pwrite64", "fdatasync", "fsync"}), 0)
        self.assertEqual(self.image.read_bytes(), doubted)
        self.image.write_bytes(image_of({}))
        self.assertEqual(self.watched("recover --careful plant image").answer, (0, standing(4, 3), ""))

    def check_recover(self):
        """Whatever fails, the image stands for the same, and a recover that nothing fails in says so."""
        changes, printed, emptied = TAKEN["record_behind_an_empty_cell"]
        self.assertTrue(emptied)
        data = image_of(changes)
        self.image.write_bytes(data)
        notes = self.notes("recover plant image")
        whole = self.watched("recover plant image")
        self.assertEqual(whole.answer, (0, printed, notes))
        wanted = {name: (3, "", "file image\n") for name in ("openat", "flock", "fstat", "fsync")}
        wanted |= {name: (3, "", told + "image: refusal 8 Disk\n") for name, told in (("pread64", ""), ("pwrite64", notes), ("fdatasync", notes))}
        made = [call.name for call in whole.calls if call.file == "image" and call.name in wanted]
        for number, name in enumerate(made):
            self.image.write_bytes(data)
            fails = FailsHalfway if name in OF_DEVICE else Fails
            self.assertEqual(self.watched("recover plant image", among([number], fails(errno.EIO), wanted)).answer, wanted[name])
            self.assertEqual(Image(self.plant, self.image.read_bytes()).printed(), printed)
            self.assertEqual(self.ran("recover plant image"), (0, printed, ""))

    def check_format_of_a_new_image(self):
        """Nothing stays of a file that could not be filled, formatted or named, under either name."""
        whole = self.watched("format plant image --ring 8")
        self.assertEqual(whole.answer, (0, "formatted 15\n", ""))
        names, files = {"openat", "flock", "fsync", "fdatasync", "link", *OF_DEVICE}, ("image", "image.kilnmace-unfinished", ".")
        made = [call.name for call in whole.calls if call.file in files and call.name in names]
        # What is asked of the device comes between what makes the file and what names it.
        of_device = range(made.index("pread64"), len(made) - made[::-1].index("fdatasync"))
        self.assertEqual(made[of_device.stop :], ["link", "openat", "fsync"])
        for number, decide in enumerate(sweep(len(made), by_turns(Fails), names, files)):
            self.image.unlink(missing_ok=True)
            told = "image: refusal 8 Disk\n" if number in of_device else "file image\n"
            self.assertEqual(self.watched("format plant image --ring 8", decide).answer, (3, "", told), (made[number], number))
            self.assertEqual([file.name for file in self.folder.iterdir() if file.name.startswith("image")], [], (made[number], number))

    def check_format_of_an_old_image(self):
        """It stands for what it stood for, then for nothing, and then for the first states."""
        old, new = image_of({}), standing(0, 0, number=0)
        self.image.write_bytes(old)
        whole = self.watched("format plant image --ring 8")
        self.assertEqual(whole.answer, (0, "formatted 15\n", ""))
        self.assertEqual(self.standing_in(self.image.read_bytes()), new)
        names = {"fdatasync", *OF_DEVICE}
        ways = [(by_turns(FailsHalfway), (3, "", "image: refusal 8 Disk\n")), (lambda _: Killed(signal.SIGKILL), (-signal.SIGKILL, "", ""))]
        for fails, wanted in ways:
            found = []
            for decide in sweep(self.count(whole, names), fails, names):
                self.image.write_bytes(old)
                self.assertEqual(self.watched("format plant image --ring 8", decide).answer, wanted)
                found.append([standing(4, 3), NOT_FORMATTED, new].index(self.standing_in(self.image.read_bytes())))
            self.assertEqual(sorted(found), found)
            # At the last sync all is written, and a read gives it.
            self.assertEqual(set(found), {0, 1, 2})

    def check_texts(self):
        """A plant and a script that can't be opened, or that fail while they are read."""
        (self.folder / "plant").write_bytes(PLANT.read_bytes() + 9000 * b" ")
        (self.folder / "script").write_bytes(SCRIPT + 9000 * b" ")
        for file in ("plant", "script"):
            for name, number, error in itertools.product(("openat", "read"), range(4), (errno.EIO, errno.EISDIR, errno.ENOMEM)):
                if name == "read" or number == 0:
                    ran = self.run_with(among([number], Fails(error), {name}, [file]))
                    self.assertEqual(ran.answer, (3, "", f"file {file}\n"), (name, number, error))
                    self.assertEqual(self.image.read_bytes(), FORMATTED)
        for words in ("check -", "trace - 0", "choices -", "why -", "draw -", "format - new", "recover - image", "explore - script"):
            ran = self.watched(words, among([0], Fails(errno.EIO), {"read"}, ["<input>"]), PLANT.read_bytes())
            self.assertEqual(ran.answer, (3, "", "file -\n"), words)

    def check_texts_of_an_exploration(self):
        """They are the only files that it opens."""
        (self.folder / "plant").write_bytes(PLANT.read_bytes() + 9000 * b" ")
        (self.folder / "script").write_bytes(SCRIPT + 9000 * b" ")
        self.image.write_bytes(LEFT)
        whole = self.watched(EXPLORE)
        self.assertEqual((whole.status, whole.told), (0, ""))
        self.assertEqual([call.file for call in whole.calls if call.name == "openat"], ["plant", "script"])
        for file in ("plant", "script"):
            for name in ("openat", "read"):
                for decide in sweep(self.count(whole, {name}, [file]), by_turns(Fails, (errno.EIO, errno.EISDIR, errno.ENOMEM)), {name}, [file]):
                    self.assertEqual(self.watched(EXPLORE, decide).answer, (3, "", f"file {file}\n"), name)
        ran = self.watched(EXPLORE, lambda call: Takes(100) if call.name in ("read", "write") else None)
        self.assertEqual(ran.answer, whole.answer)
        self.assertEqual(self.image.read_bytes(), LEFT)

    def check_output_of_an_exploration(self):
        """Each write fails, and each one behind it: what is told by then are the lines of the first trials."""
        whole = self.watched(EXPLORE)
        parts = [call.data.decode() for call in whole.calls if call.file == "<output>" and call.name == "write"]
        self.assertEqual("".join(parts), whole.printed)
        self.assertGreater(len(parts), 1)
        for number in range(len(parts)):
            fails = by_turns(Fails, OF_AN_OUTPUT)(number)
            ran = self.watched(EXPLORE, among(range(number, len(parts) + 1), fails, {"write"}, ["<output>"]))
            self.assertEqual(ran.answer, (3, "".join(parts[:number]), ""))


def suite(program, words):
    reason = calls.why_not()
    checks = {method.removeprefix("check_"): getattr(Failures, method) for method in dir(Failures) if method.startswith("check_")}
    return sample.suite(Failures, program, {f"failures/{name}": unittest.skipIf(reason, reason)(check) for name, check in checks.items()}, words)
