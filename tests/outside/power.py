"""Losses of power: what a disk may hold at any moment of a run, worked out from the calls that the program makes on its image.

The calls are watched, none fails. The program writes whole blocks, also where it changed one byte of them. As crates/file_disk supposes of a file, a
byte that a write since the last sync changed may then be the old one, the new one or another; all others are as that sync left them, also those
that were written as they were. So for each moment between two calls images are made by several patterns, and each has to
stand for what was fired up to some place, no earlier than what the output told as flushed. The second reader of images says what it stands for, and
`recover` has to say the same of one in some of them, and none is in a doubt that no stop leaves. So it is shown that the program asks its file for what its proofs ask of a device.
"""

import random
import unittest

import calls
import sample
from damaged import TAKEN
from folders import FIXTURES
from inspection import Inspection
from reference import CELL, OPEN, Image
from sample import FORMATTED, OnImage, end, fired_behind, image_of, standing, text, told
from stops import state_behind

# The program writes whole blocks of so many bytes.
BLOCK = 512
# An image of the first layout that an earlier version of the program made, behind five firings.
FIRST_IMAGE = FIXTURES / "first_layout_trimmed.image"

LIFETIMES = 4
PERIODS = 8
# Of how many events a script of a period is made, from and to; and of how many in a long life, by whose end there are so many firings.
SCRIPT, LONG_SCRIPT = (5, 40), (2000, 2500)
FIRED_IN_A_LONG_LIFE = 800
# One of so many images is also given to the program.
SHOWN = 4


class Disk:
    """What a disk holds: the bytes that a read gives, those of the last sync, and the writes since."""

    def __init__(self, data):
        self.read = bytearray(data)
        self.synced = bytes(data)
        self.writes = []

    def take(self, call):
        if call.name == "pwrite64":
            assert call.place % BLOCK == 0, f"a write from within a block: {call.place}"
            data = call.data[: call.answer]
            self.read[call.place : call.place + len(data)] = data
            self.writes.append((call.place, data))
        else:
            self.synced = bytes(self.read)
            self.writes = []

    def pending(self):
        """The bytes that a write changed. One that was written as it is on the disk stays as it is."""
        return sorted({place for start, data in self.writes for place, byte in enumerate(data, start) if byte != self.synced[place]})

    def blocks(self):
        """The blocks of each write."""
        return [[(start + place, data[place : place + BLOCK]) for place in range(0, len(data), BLOCK)] for start, data in self.writes]


def all_old(disk, _):
    return disk.synced


def all_new(disk, _):
    return bytes(disk.read)


def with_bytes(disk, byte):
    """The bytes of the last sync, but for each pending one another."""
    left = bytearray(disk.synced)
    for place in disk.pending():
        left[place] = byte(place)
    return bytes(left)


def all_open(disk, _):
    return with_bytes(disk, lambda place: OPEN)


def any_bytes(disk, chosen):
    return with_bytes(disk, lambda place: chosen.choice([disk.synced[place], disk.read[place], chosen.randrange(256)]))


def new_gates(disk, _):
    """The gates as they were written, over bodies that were not."""
    return with_bytes(disk, lambda place: disk.read[place] if place % CELL == 0 else disk.synced[place])


def new_bodies(disk, chosen):
    """The bodies as they were written, under gates that may be open or not."""
    return with_bytes(disk, lambda place: chosen.choice([0, OPEN]) if place % CELL == 0 else disk.read[place])


def with_blocks(disk, blocks):
    """The bytes of the last sync, with these blocks over them, one after the other."""
    left = bytearray(disk.synced)
    for place, data in blocks:
        left[place : place + len(data)] = data
    return bytes(left)


def new_fronts(disk, _):
    """Of each write the first half of its blocks is there."""
    return with_blocks(disk, [block for blocks in disk.blocks() for block in blocks[: len(blocks) // 2]])


def some_blocks(disk, chosen):
    """Each block of each write is there or not, in no order."""
    written = [block for blocks in disk.blocks() for block in blocks]
    return with_blocks(disk, chosen.sample(written, chosen.randrange(len(written) + 1)))


PATTERNS = [all_old, all_new, all_open, new_gates, new_bodies, new_fronts, *3 * [some_blocks, any_bytes]]


def moments(data, made):
    """Before each of the calls and behind the last: what the disk holds, and what was handed to the output by then."""
    disk, printed = Disk(data), ""
    for call in made:
        if call.file == "<output>" and call.name == "write":
            yield disk, printed
            printed += call.data[: call.answer].decode()
        elif call.file == "image" and call.name in ("pwrite64", "fsync", "fdatasync"):
            yield disk, printed
            disk.take(call)
    yield disk, printed


def events(chosen, length):
    """Mostly firings, with flushes, saves of one atom and of all, and trims between them."""
    lines = []
    for _ in range(chosen.randrange(*length)):
        kind = chosen.choice(["fire"] * 5 + ["flush", "store", "store at once", "save", "trim"])
        atom = chosen.choice("AB")
        lines += {"fire": [f"fire {chosen.randrange(9)}"], "store": [f"ask {atom}", "flush", f"put {atom}"], "store at once": [f"ask {atom}", f"put {atom}"]}.get(kind, [kind])
    return "".join(f"{line}\n" for line in lines).encode()


class Power(OnImage):
    """Each run is a test."""

    def watched(self, words, data, given=b""):
        """The calls of a command on an image, which ends well."""
        self.image.write_bytes(data)
        notes = self.notes(words)
        ran = calls.watched(self.command(words), given=given, cwd=self.folder)
        self.assertEqual((ran.status, ran.told), (0, notes))
        return ran

    def expect_shown(self, data):
        """The program says of the image what the second reader says."""
        self.image.write_bytes(data)
        self.assertEqual(self.ran("inspect image plant"), Inspection(self.plant, data).answer())
        _, printed, line = self.ran("recover plant image")
        self.assertEqual(printed + line, self.standing_in(data))

    def expect_undoubted(self, data):
        """What a loss of power leaves is in no doubt, but for open cells, if it boots."""
        doubts = [line for line in Inspection(self.plant, data).lines() if line.startswith("doubt: ") and "open cell" not in line]
        if not self.standing_in(data).startswith("image: "):
            self.assertEqual(doubts, [])

    def left(self, data, ran, name):
        """The images that a loss of power may leave at each moment, with what was told by then."""
        chosen = random.Random(name)
        for disk, printed in moments(data, ran.calls):
            for pattern in PATTERNS if disk.writes else [all_new]:
                found = pattern(disk, chosen)
                self.expect_undoubted(found)
                if chosen.randrange(SHOWN) == 0:
                    self.expect_shown(found)
                yield found, printed

    def check_run(self):
        ran = self.watched("run plant image script", FORMATTED)
        seen = set()
        for data, printed in self.left(FORMATTED, ran, "run"):
            lines = printed.splitlines()
            _, acked, base = told(lines)
            fired = fired_behind(lines)
            found = Image(self.plant, data)
            seen.add(found.last)
            self.assertTrue(acked <= found.last <= fired, f"{acked} flushed, {found.last} in the image, {fired} fired")
            self.assertTrue(base <= found.base <= found.last + 1)
            self.assertEqual(found.printed(), text(end(found.last, found.last, found.base)))
        self.assertEqual(seen, {0, 1, 2, 3, 4, 5})

    def check_recover(self):
        """The image stands for the same all the time."""
        changes, printed, _ = TAKEN["record_gone_in_the_middle"]
        ran = self.watched("recover plant image", image_of(changes))
        self.assertTrue(any(call.name == "pwrite64" for call in ran.calls), "nothing was emptied")
        for data, _ in self.left(image_of(changes), ran, "recover"):
            self.assertEqual(self.standing_in(data), printed)

    def check_format(self):
        """The image stands for what it stood for, then for nothing, and at last for the first states."""
        answers = [standing(4, 3), "image: refusal 1 NotFormatted\n", standing(0, 0, number=0)]
        ran = self.watched("format plant image --ring 8", image_of({}))
        seen = set()
        for data, printed in self.left(image_of({}), ran, "format"):
            self.assertIn(self.standing_in(data), answers[2:] if printed else answers)
            seen.add(self.standing_in(data))
        self.assertEqual(seen, set(answers))

    def check_migrate(self):
        """The new image stands for what it stood for, then for nothing, and at last for what the old one stands for, which is only read."""
        old = self.folder / "old"
        old.write_bytes(FIRST_IMAGE.read_bytes())
        answers = [standing(4, 3), "image: refusal 1 NotFormatted\n", standing(5, 4, number=5, base=6)]
        ran = self.watched("migrate plant old image --ring 8", image_of({}))
        self.assertEqual(ran.printed, "migrated 5\n")
        self.assertTrue(any(call.file == "old" for call in ran.calls))
        self.assertFalse([call for call in ran.calls if call.file == "old" and "write" in call.name])
        self.assertEqual(old.read_bytes(), FIRST_IMAGE.read_bytes())
        seen = set()
        for data, printed in self.left(image_of({}), ran, "migrate"):
            self.assertIn(self.standing_in(data), answers[2:] if printed else answers)
            seen.add(self.standing_in(data))
        self.assertEqual(seen, set(answers))

    def expect_lifetime(self, name, length):
        """Period follows period, each begins with what a loss of power left of the one before. It gives what was fired and kept by its end."""
        chosen = random.Random(name)
        data, history = FORMATTED, []
        for _ in range(PERIODS):
            ran = self.watched("run plant image -", data, events(chosen, length))
            fired = history + [line for line in ran.printed.splitlines() if line[:1].isdigit()]
            self.assertEqual([line.split()[0] for line in fired], [str(place + 1) for place in range(len(fired))])
            disk, printed = self.moment(chosen, data, ran)
            data = chosen.choice(PATTERNS)(disk, chosen)
            self.expect_undoubted(data)
            self.expect_shown(data)
            found = Image(self.plant, data)
            acked = max((int(line.split()[1]) for line in printed.splitlines() if line.startswith("flushed ")), default=len(history))
            self.assertTrue(acked <= found.last <= len(fired), f"{acked} flushed, {found.last} in the image, {len(fired)} fired")
            history = fired[: found.last]
            self.assertEqual(found.printed(), text([*state_behind(history), f"front {found.last} {found.last} {found.base}"]))
        return history

    def check_long_life(self):
        """The ring of eight records is used a hundred times and more."""
        self.assertGreater(len(self.expect_lifetime("long life", LONG_SCRIPT)), FIRED_IN_A_LONG_LIFE)

    def moment(self, chosen, data, ran):
        """The disk at a moment of the run, most often at one with writes pending."""
        at = chosen.choice([place for place, (disk, _) in enumerate(moments(data, ran.calls)) if disk.writes or chosen.randrange(8) == 0] or [0])
        return next((disk, printed) for place, (disk, printed) in enumerate(moments(data, ran.calls)) if place == at)


def suite(program, words):
    reason = calls.why_not()
    checks = {
        "power/run": Power.check_run,
        "power/recover": Power.check_recover,
        "power/format": Power.check_format,
        "power/migrate": Power.check_migrate,
        "power/long_life": Power.check_long_life,
    }
    checks |= {f"power/lifetime_{number}": lambda self, number=number: self.expect_lifetime(f"lifetime {number}", SCRIPT) for number in range(LIFETIMES)}
    return sample.suite(Power, program, {name: unittest.skipIf(reason, reason)(check) for name, check in checks.items()}, words)
