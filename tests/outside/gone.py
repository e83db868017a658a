"""An image that is taken away from under a running program: unlinked, moved, replaced or cut.

What is written to such a file no later start finds. So from then on nothing is acknowledged: the next sync fails as that of a failed device does, and the standard error says why.
What has the path then is left as it is. A file that has another name beside, or is led to by a link, is the same file still.
"""

import shutil
import unittest

import calls
import sample
from failures import BOOT, BOOT_SYNCS, answer_at
from sample import EVENTS, FORMATTED, LEFT, PLANT, OnImage, answer
from service import Served

DISK, WHY = ["refused 10 Disk"], "file image is another file now\n"


def replace(image, data):
    """Another file gets the name."""
    other = image.with_name("other")
    other.write_bytes(data)
    other.rename(image)


def cut(image, size):
    with open(image, "r+b") as file:
        file.truncate(size)


def lead(image, to):
    image.rename(image.with_name("moved"))
    image.symlink_to(to)


# What is done to the image, by a name.
TAKEN_AWAY = {
    "unlinked": lambda image: image.unlink(),
    "moved away": lambda image: image.rename(image.with_name("moved")),
    "moved with a folder in its place": lambda image: (image.rename(image.with_name("moved")), image.mkdir()),
    "replaced by another image": lambda image: replace(image, LEFT),
    "replaced by its copy": lambda image: replace(image, image.read_bytes()),
    "replaced by a link to a copy": lambda image: (shutil.copy(image, image.with_name("copy")), lead(image, "copy")),
    "replaced by a link to nothing": lambda image: lead(image, "nowhere"),
    "cut by a byte": lambda image: cut(image, image.stat().st_size - 1),
    "emptied": lambda image: cut(image, 0),
    "extended": lambda image: cut(image, image.stat().st_size + 1),
}
# These leave the file a name.
STILL_NAMED = {"moved away", "moved with a folder in its place", "replaced by a link to a copy", "replaced by a link to nothing"}
# These leave it where it is.
KEPT = {
    "linked": lambda image: image.with_name("linked").hardlink_to(image),
    "moved away and back": lambda image: image.rename(image.with_name("moved")).rename(image),
    "replaced by a link to itself": lambda image: lead(image, "moved"),
    "without rights": lambda image: image.chmod(0),
}
# The syncs of a run: of the boot, and of each event by its place.
PLACES = BOOT_SYNCS * [BOOT] + [place for place, (_, _, syncs) in enumerate(EVENTS) for _ in range(syncs)]


def before_sync(number, act):
    """The test acts between the sync with this number and the one before, or the read of the image."""
    left = [number + 1]

    def decide(call):
        if left[0] == 0:
            left[0] = -1
            act()
        elif call.file == "image" and call.name in ("pread64", "fdatasync"):
            left[0] -= 1

    return decide


class Gone(OnImage):
    """Each way to drive a plant is a test."""

    def restore(self):
        """The image, freshly formatted, and no other file."""
        for file in self.folder.iterdir():
            if file.name not in ("plant", "script", "nothing"):
                file.rmdir() if file.is_dir() and not file.is_symlink() else file.unlink()
        self.image.write_bytes(FORMATTED)

    def bytes_there(self):
        """What has the path, and what it holds."""
        return self.image.read_bytes() if self.image.is_file() else self.image.exists()

    def served(self, change=lambda image: None):
        """A plant that is served, once this was done to its image, and has acknowledged one firing."""
        self.restore()
        change(self.image)
        served = Served(self.program, PLANT, self.image)
        served.answer()
        self.assertEqual([served.ask("fire 0"), served.ask("flush")], [["1 tick A.t/0"], ["flushed 1"]])
        return served

    def check_a_served_plant(self):
        """Whatever event asks the device first, it is refused, and is the last one."""
        wrong = []
        for name, take_away in TAKEN_AWAY.items():
            # A served plant saves and trims by one event.
            for events, refused in ((["flush"], DISK), (["save"], [*DISK, "refused 11 Broken"]), (["ask A", "put A"], DISK)):
                served = self.served()
                take_away(self.image)
                left = self.bytes_there()
                if events == ["flush"]:
                    self.assertEqual(served.ask("fire 0"), ["2 tick A.t/0"])
                *first, last = [served.ask(event) for event in events]
                if last != refused:
                    served.kill()
                    wrong.append(f"{name}, {events}: {last}")
                    continue
                printed, told = served.running.communicate(timeout=60)
                self.assertEqual((served.running.returncode, printed, told), (3, "", WHY.replace("image", str(self.image), 1)), name)
                self.assertTrue(self.bytes_there() == left, f"{name}: what has the path is another")
        self.assertEqual(len(wrong), 0, wrong[:1])

    def run_without(self, words, number, take_away):
        """The image is taken away before this sync of a run. What has its path then is left as it is."""
        self.restore()
        left = []

        def act():
            take_away(self.image)
            left.append(self.bytes_there())

        ran = calls.watched(self.command(words), before_sync(number, act), cwd=self.folder)
        self.assertTrue([self.bytes_there()] == left, "what has the path is another")
        return ran.answer

    def check_a_run(self):
        """It is taken away between two syncs, or before the first: the later one fails."""
        wrong = []
        for name, take_away in TAKEN_AWAY.items():
            for number, place in enumerate(PLACES):
                found = self.run_without("run plant image script", number, take_away)
                status, printed, told = answer_at(place)
                if found != (status, printed, told + WHY):
                    wrong.append(f"{name}, {number}: {found}")
        self.assertEqual(len(wrong), 0, wrong[:1])

    def check_a_run_by_workers(self):
        """It is taken away after the boot. The last lines tell that nothing is acknowledged. A file that still has a name is another one for the path only once the threads have ended."""
        (self.folder / "script").write_bytes(b"fire 0\nflush\nfire 1\nflush\n")
        failed, ended = "state A [s] n=1\nstate B [s] m=0\nfront 1 0 1\nby 1\n", "state A [s] n=2\nstate B [s] m=1\nfront 2 2 1\nby 2\n"
        for name, take_away in TAKEN_AWAY.items():
            found = self.run_without("run plant image script --workers 1", BOOT_SYNCS, take_away)
            self.assertEqual(found, (3, ended if name in STILL_NAMED else failed, WHY), name)

    def check_what_is_told(self):
        """It is told below the line of a strict run, and before what `--explain` adds."""
        status, _, told = self.run_without("run plant image script --strict --explain", BOOT_SYNCS, TAKEN_AWAY["unlinked"])
        *lines, last = told.splitlines(keepends=True)
        self.assertEqual((status, lines), (3, ["error: script:3: refused 10 Disk\n", WHY]))
        self.assertTrue(last.startswith("  the device failed: "), last)

    def check_other_commands(self):
        """A start to tell where the plant stands, or its text, is refused. So is the formatting of a file that is there."""
        for words in ("recover plant image", "restate plant image"):
            for number in range(BOOT_SYNCS):
                found = self.run_without(words, number, TAKEN_AWAY["replaced by its copy"])
                self.assertEqual(found, (3, "", "image: refusal 8 Disk\n" + WHY), (words, number))
        status, printed, told = self.run_without("format plant image --ring 8", 0, TAKEN_AWAY["replaced by its copy"])
        self.assertEqual((status, printed, told.splitlines()[0]), (3, "", "image: refusal 8 Disk"))

    def check_a_file_that_stays(self):
        """Nothing is refused, and all is there."""
        for name, change in KEPT.items():
            served = self.served()
            change(self.image)
            self.assertEqual([served.ask("fire 1"), served.ask("flush")], [["2 send A.t/0 B.u/0"], ["flushed 2"]], name)
            served.write("quit")
            self.assertEqual(served.running.communicate(timeout=60), ("front 2 2 1\nend\n", ""))
            self.image.chmod(0o600)
            self.assertEqual(self.ran("recover plant image"), (0, "state A [s] n=2\nstate B [s] m=1\nfront 2 2 1\n", ""), name)

    def check_a_link_from_the_start(self):
        """An image by a link is the file that it leads to, until it leads to another."""
        self.restore()
        lead(self.image, "moved")
        self.assertEqual(self.ran("run plant image script"), answer())
        self.assertTrue((self.folder / "moved").read_bytes() == LEFT)
        served = self.served(lambda image: lead(image, "moved"))
        replace(self.folder / "moved", LEFT)
        self.assertEqual([served.ask("fire 1"), served.ask("flush")], [["2 send A.t/0 B.u/0"], DISK])
        self.assertEqual(served.running.communicate(timeout=60), ("", WHY.replace("image", str(self.image), 1)))
        self.assertTrue((self.folder / "moved").read_bytes() == LEFT)


def suite(program, words):
    reason = calls.why_not()
    checks = {method.removeprefix("check_"): getattr(Gone, method) for method in dir(Gone) if method.startswith("check_")}
    return sample.suite(Gone, program, {f"gone/{name}": unittest.skipIf(reason, reason)(check) for name, check in checks.items()}, words)
