#!/usr/bin/env python3
"""Measures what a durable plant does between its syncs with cold caches, beside another engine that keeps the same images. It prints a table in Markdown.

    bench/cold.py DURABLE_BENCH OTHER PLANT.. [--rounds K] [--flushes N] [--batch B] [--kib M]

DURABLE_BENCH and OTHER are as for bench/durable.py; OTHER is called with `--coalesce`. The image is in memory (/dev/shm). Each sync is one of bench/cold.c, which is built here by
`gcc`: it asks no disk, and drives out of the near caches what the program had there, by a walk over M KiB of memory (2,048). So the figures have no disk's noise in them. Another row has
no such walk. Both get pages of 2 MB, if the system has them to give. On each plant, in each of K rounds (15), both make N flushes (500) of B steps (8) in turn. A figure is
the time of a flush without its syncs: the median of the rounds.
"""

import argparse
import os
import re
import statistics
import subprocess
import tempfile
from pathlib import Path

from durable import PAGES, RING, SEED

HERE = Path(__file__).resolve().parent


def built(folder):
    """The library whose sync asks no disk."""
    library = Path(folder) / "cold.so"
    subprocess.run(["gcc", "-O2", "-shared", "-fPIC", HERE / "cold.c", "-o", library], check=True)
    return library


def flush_time(library, kib, command, flushes):
    """How long a flush takes without its syncs, in microseconds. The first fifth of them is not counted, and not the last one."""
    ends = {"COLD_FROM": str(2 * flushes // 5), "COLD_TO": str(2 * flushes - 2)}
    setting = {**os.environ, **PAGES, **ends, "LD_PRELOAD": str(library), "COLD_KIB": str(kib)}
    told = subprocess.run([str(word) for word in command], env=setting, capture_output=True, text=True, check=True).stderr
    return float(re.search(r"cold us_a_flush ([\d.]+)", told)[1])


def measure(library, kib, plant, folder, options):
    """The times of both, in each round."""
    image = Path(folder) / "image"
    words = ["durable", plant, image, options.batch * options.flushes, options.batch, "--seed", SEED, "--ring", RING]
    sides = [[options.ours, *words], [options.other, *words, "--coalesce"]]
    times = ([], [])
    for round in range(options.rounds):
        for side in (0, 1) if round % 2 else (1, 0):
            image.unlink(missing_ok=True)
            times[side].append(flush_time(library, kib, sides[side], options.flushes))
    return times


def main():
    words = argparse.ArgumentParser(usage=__doc__)
    words.add_argument("ours")
    words.add_argument("other")
    words.add_argument("plants", nargs="+")
    words.add_argument("--rounds", type=int, default=15)
    words.add_argument("--flushes", type=int, default=500)
    words.add_argument("--batch", type=int, default=8)
    words.add_argument("--kib", type=int, default=2048)
    options = words.parse_args()
    print("| Plant | Walk, KiB | Ours, µs a flush | Other, `--coalesce` | Least, ours | Least, other |\n|---|---:|---:|---:|---:|---:|")
    with tempfile.TemporaryDirectory(dir="/dev/shm") as folder:
        library = built(folder)
        for plant in options.plants:
            for kib in (0, options.kib):
                ours, other = measure(library, kib, plant, folder, options)
                row = [statistics.median(ours), statistics.median(other), min(ours), min(other)]
                print(f"| {Path(plant).stem} | {kib:,} | " + " | ".join(f"{time:.1f}" for time in row) + " |", flush=True)


if __name__ == "__main__":
    main()
