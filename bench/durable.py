#!/usr/bin/env python3
"""Measures a durable plant beside another engine that keeps the same images, and beside the bare calls of the system. It prints tables in Markdown.

    bench/durable.py DURABLE_BENCH OTHER PLANTS FOLDER [--rounds K] [--flushes N] [--plants NAME,..] [--only images|steps|boots]

    images   runs over rings that are used again and again: whether both engines leave the same cells
    steps    acknowledged steps a second, at 1, 8 and 64 steps a flush
    boots    how long a boot of a full ring takes, and a read of its file

DURABLE_BENCH and OTHER are programs. OTHER is called by the words `durable` and `boot` of bench/README.md, as DURABLE_BENCH is, and with `--coalesce` too. PLANTS is a
folder of plants, NAME.plant each: sample, railway, broadcast and limits, if `--plants` says no others. FOLDER is where the images are made: on a disk, or in memory.

Both get pages of 2 MB, if the system has them to give. A figure is the median of K rounds (5). In a round all contenders run in turn, each on an image that it formats anew, by N flushes (1,000), and each round begins with
another of them. Behind each run the images are compared too. The status is 1 if some cells differ, and 0 if none do.
"""

import os
import re
import statistics
import subprocess
import sys
import tempfile
import time
from pathlib import Path

sys.path.insert(0, str(Path(__file__).resolve().parent.parent / "tests"))

import folders
from reference import CELL, OPEN, FirstImage

SEED, RING = 7, 4096
# Both programs are told to ask for pages of 2 MB, as ./bip_run tells the program on an image.
PAGES = {"GLIBC_TUNABLES": "glibc.malloc.hugetlb=1"}
BATCHES = (1, 8, 64)
OURS, OTHER, COALESCED = "ours", "other", "other, `--coalesce`"
# The bare calls of the system, over cells of today's layout and over those of the first.
BARE, FIRST_BARE = "bare calls", "bare calls, cells of 512"
BARE_CELL = {BARE: CELL, FIRST_BARE: FirstImage.bytes_of_cell}
# So many steps and so many of them a flush, over a ring of so many: where a ring is used again, and where the last flush is a short one.
SHORT = [(1000, 8, 8), (1000, 1, 8), (999, 7, 64), (5000, 64, 100), (20000, 64, RING), (RING, 8, RING), (RING + 1, 1, RING)]


class Bench:
    """The programs, the plants, and the folder in which images are made."""

    def __init__(self, ours, other, plants, folder, options):
        self.ours, self.other = ours, other
        self.plants = {name: Path(plants) / f"{name}.plant" for name in options.plants}
        self.folder = Path(folder)
        self.options = options
        self.differing = 0

    def image(self, who):
        return self.folder / f"bench-{'ours' if who == OURS else 'other'}.image"

    def command(self, who, *words):
        more = ["--coalesce"] if who == COALESCED else []
        return [self.ours if who == OURS else self.other, *map(str, words), *more]

    def durable(self, who, plant, steps, batch, ring=RING):
        """What a run on a new image prints, and what the image then holds."""
        words = ["durable", plant, self.image(who), steps, batch, "--seed", SEED, "--ring", ring]
        printed = printed_by(self.command(who, *words))
        if int(printed["acked"]) != steps:
            raise SystemExit(f"{who} {plant}: only {printed['acked']} of {steps} steps")
        return printed, cells_of(self.image(who))

    def compare(self, name, words, ours, other):
        """Tells in which cells two images differ."""
        found = [place for place in range(max(len(ours), len(other))) if ours[place : place + 1] != other[place : place + 1]]
        if found:
            self.differing += 1
            print(f"{name} {words}: {len(found)} cells differ, the first is {named(found[0], ours)}", flush=True)

    def clear(self):
        for who in (OURS, OTHER):
            self.image(who).unlink(missing_ok=True)


def printed_by(command):
    """The numbers of the line that a program prints, by the words before them."""
    ran = subprocess.run(command, capture_output=True, text=True, timeout=600, env={**os.environ, **PAGES})
    if ran.returncode:
        raise SystemExit(f"{' '.join(command)}: status {ran.returncode} {ran.stderr.strip()[:200]}")
    return dict(re.findall(r"(\w+) ([0-9a-f.]+)", ran.stdout))


def cells_of(image):
    """The body of each full cell, and nothing for an empty one, of an image of either layout. Bodies are as long as those of today's, and the version of the
    identity is left out: the two layouts differ in these alone."""
    data = image.read_bytes()
    size = FirstImage.bytes_of_cell if data[5:7] == FirstImage.version.to_bytes(2, "big") else CELL
    cells = [data[place : place + size] for place in range(0, len(data), size)]
    bodies = [cell[1:].ljust(CELL - 1, b"\0") if cell[0] == OPEN else None for cell in cells]
    bodies[0] = bodies[0] and bodies[0][:4] + bodies[0][6:]
    return bodies


def named(place, cells):
    """What a cell is for."""
    atoms = int.from_bytes(cells[0][4:6], "big") if cells[0] else 0
    if place < 3:
        return ("the identity", "base cell 1", "base cell 2")[place]
    if place < 3 + 2 * atoms:
        return f"slot {(place - 3) % 2} of atom {(place - 3) // 2}"
    return f"record cell {place - 3 - 2 * atoms}"


def built_bare(folder):
    """The program that makes the bare calls: bench/bare.c."""
    program = Path(folder) / "bare"
    subprocess.run(["gcc", "-O2", "-o", program, Path(__file__).resolve().parent / "bare.c"], check=True)
    return program


def bare_rate(bare, folder, cell, batch, flushes):
    """Steps a second if a flush is only its two writes and its two syncs, over cells of so many bytes."""
    path = folder / "bench-bare.image"
    ran = subprocess.run([bare, path, str(cell), str(batch), str(flushes), str(RING)], capture_output=True, text=True, timeout=600)
    if ran.returncode:
        raise SystemExit(ran.stderr.strip()[:200])
    path.unlink()
    return batch * flushes / (1e-6 * float(ran.stdout.split()[1]))


def in_turn(contenders, round):
    """The contenders, of whom another one begins in each round."""
    first = round % len(contenders)
    return contenders[first:] + contenders[:first]


def measure_steps(bench):
    """Acknowledged steps a second of all contenders."""
    print("| Plant | Steps a flush | Ours, steps/s | Other | Other, `--coalesce` | Bare calls | Bare, cells of 512 | Ours to other | to `--coalesce` | to bare | `--coalesce` to its bare | Bare to `--coalesce` |")
    print("|---|" + "---:|" * 11)
    with tempfile.TemporaryDirectory() as room:
        bare = built_bare(room)
        for name in bench.plants:
            for batch in BATCHES:
                measure_batch(bench, bare, name, batch)


def measure_batch(bench, bare, name, batch):
    """The same of one plant, at so many steps a flush."""
    flushes = bench.options.flushes
    rates = {who: [] for who in (OURS, OTHER, COALESCED, BARE, FIRST_BARE)}
    for round in range(bench.options.rounds):
        left = {}
        for who in in_turn(list(rates), round):
            if who in BARE_CELL:
                rates[who].append(bare_rate(bare, bench.folder, BARE_CELL[who], batch, flushes))
            else:
                printed, left[who] = bench.durable(who, bench.plants[name], batch * flushes, batch)
                rates[who].append(float(printed["acked"]) / float(printed["seconds"]))
        for who in (OTHER, COALESCED):
            bench.compare(name, f"{batch * flushes} steps, {batch} a flush, {who}", left[OURS], left[who])
    rate = {who: statistics.median(found) for who, found in rates.items()}
    pairs = ((OURS, OTHER), (OURS, COALESCED), (OURS, BARE), (COALESCED, FIRST_BARE), (BARE, COALESCED))
    ratios = " | ".join(f"{rate[who] / rate[beside]:.2f}" for who, beside in pairs)
    print(f"| {name} | {batch} | " + " | ".join(f"{rate[who]:,.0f}" for who in rates) + f" | {ratios} |", flush=True)


def read_seconds(path):
    """How long it takes to read a file whole, with its room."""
    begun = time.perf_counter()
    file = os.open(path, os.O_RDONLY)
    room = bytearray(os.fstat(file).st_size)
    os.readv(file, [room])
    os.close(file)
    return time.perf_counter() - begun


def measure_boots(bench):
    """Boots of a full ring, and reads of the same file by this program. The file is still in the memory of the system."""
    print("| Plant | Ours, boot, ms | read, ms | boot to read | Other, boot, ms | read, ms | boot to read | Ours to other |")
    print("|---|---:|---:|---:|---:|---:|---:|---:|")
    for name, plant in bench.plants.items():
        left = {}
        for who in (OURS, OTHER):
            _, left[who] = bench.durable(who, plant, RING, BATCHES[-1])
        bench.compare(name, "full ring", left[OURS], left[OTHER])
        times = {who: ([], []) for who in (OURS, OTHER)}
        for round in range(bench.options.rounds):
            for who in in_turn(list(times), round):
                printed = printed_by(bench.command(who, "boot", plant, bench.image(who)))
                if int(printed["records"]) != RING:
                    raise SystemExit(f"{who} {plant}: {printed['records']} records")
                times[who][0].append(float(printed["seconds"]))
                times[who][1].append(read_seconds(bench.image(who)))
        found = {who: [statistics.median(each) for each in pair] for who, pair in times.items()}
        row = " | ".join(f"{1e3 * boot:.2f} | {1e3 * read:.2f} | {boot / read:.1f}" for boot, read in found.values())
        print(f"| {name} | {row} | {found[OURS][0] / found[OTHER][0]:.2f} |", flush=True)


def compare_images(bench):
    """What runs leave over rings that are used again and again, and with a short last flush."""
    for name, plant in bench.plants.items():
        for steps, batch, ring in SHORT:
            ours, cells = bench.durable(OURS, plant, steps, batch, ring)
            for who in (OTHER, COALESCED):
                other, others = bench.durable(who, plant, steps, batch, ring)
                words = f"{steps} steps, {batch} a flush, ring {ring}, {who}"
                bench.compare(name, words, cells, others)
                for word in ("saves", "trims"):
                    if ours[word] != other[word]:
                        bench.differing += 1
                        print(f"{name} {words}: {word} {ours[word]} and {other[word]}")
        print(f"{name}: {len(SHORT)} runs compared", flush=True)


TASKS = {"images": compare_images, "steps": measure_steps, "boots": measure_boots}


class Options:
    """What the words behind the others say."""

    def __init__(self, words):
        self.rounds, self.flushes, self.plants, self.only = 5, 1000, ["sample", "railway", "broadcast", "limits"], list(TASKS)
        for name, value in zip(words[::2], words[1::2]):
            if name in ("--rounds", "--flushes"):
                setattr(self, name[2:], int(value))
            elif name in ("--plants", "--only"):
                setattr(self, name[2:], value.split(","))
            else:
                raise SystemExit(__doc__)


def main(words):
    if len(words) < 4 or len(words) % 2:
        raise SystemExit(__doc__)
    bench = Bench(*words[:4], Options(words[4:]))
    try:
        for name in bench.options.only:
            TASKS[name](bench)
            print()
    finally:
        bench.clear()
    return 1 if bench.differing else 0


if __name__ == "__main__":
    sys.exit(main(sys.argv[1:]))
