#!/usr/bin/env python3
"""Measures a firing by the engine's C interface beside the same call in Rattle. It prints a table in Markdown.

    bench/embedding.py DURABLE_BENCH PLANT.. [--rounds K] [--steps N]

DURABLE_BENCH is the program of bench/README.md, built by `cd crates/durable_bench && rt run`. The C side is bench/embedding.c, which is built here by `gcc` over the
library of crates/kilnmace_c (`./prove kilnmace_c`). Its image is in memory (/dev/shm); only the firing is timed. On each plant, in each of K rounds (9), N choices (640,000) are
fired by the same random picks, first in Rattle and then in C. A figure is the median of the rounds.
"""

import argparse
import statistics
import subprocess
import sys
import tempfile
from pathlib import Path

HERE = Path(__file__).resolve().parent
sys.path[:0] = [str(HERE.parent / "tests" / "programs"), str(HERE.parent / "tests")]

import folders
from embedding import C, library


def built(folder):
    """The program in C."""
    linked = library()
    if not linked:
        raise SystemExit("crates/kilnmace_c/out/libkilnmace_c.a is not built, or the kit is not there")
    program = Path(folder) / "embedding"
    subprocess.run(["gcc", *C, "-O2", HERE / "embedding.c", *linked, "-o", program], check=True)
    return program


def rate(name, *command):
    """The number behind this word in the line that a program prints."""
    printed = subprocess.run([str(word) for word in command], stdout=subprocess.PIPE, text=True, check=True).stdout.split()
    return int(printed[printed.index(name) + 1])


def measure(ours, program, folder, plant, options):
    """The rates of both, in each round."""
    rates = []
    for _ in range(options.rounds):
        image = Path(folder) / "image"
        image.unlink(missing_ok=True)
        rates.append((rate("alone_per_s", ours, "fire", plant, options.steps), rate("in_c_per_s", program, plant, image, options.steps)))
    return rates


def main():
    words = argparse.ArgumentParser(usage=__doc__)
    words.add_argument("ours")
    words.add_argument("plants", nargs="+")
    words.add_argument("--rounds", type=int, default=9)
    words.add_argument("--steps", type=int, default=640_000)
    options = words.parse_args()
    print("| Plant | Rattle, ns a firing | C, ns a firing | C, to Rattle | Least and greatest |\n|---|---:|---:|---:|---:|")
    with tempfile.TemporaryDirectory(dir="/dev/shm") as folder:
        program = built(folder)
        for plant in options.plants:
            rates = measure(options.ours, program, folder, plant, options)
            ratios = [rattle / c for rattle, c in rates]
            rattle, c = (statistics.median(1e9 / both[side] for both in rates) for side in (0, 1))
            print(f"| {Path(plant).stem} | {rattle:.0f} | {c:.0f} | {statistics.median(ratios):.2f} | {min(ratios):.2f} to {max(ratios):.2f} |", flush=True)


if __name__ == "__main__":
    main()
