#!/usr/bin/env python3
"""Measures a durable plant behind a pipe. `./bip_run` should be proved first (`./prove`): it is what runs.

    python3 bench/driving.py times PLANT LINES     the time from a line to its answer, of `serve` and of `step`: median, 99th part
    python3 bench/driving.py syncs PLANT MOVES     how many syncs MOVES random moves take, flushed each 8, by ring and by policy

`times` keeps the image in memory (/dev/shm), so no time is one of a disk. `syncs` counts the calls of the system by `strace`.
"""

import random
import re
import statistics
import subprocess
import sys
import tempfile
import time
from pathlib import Path

PROGRAM = Path(__file__).resolve().parent.parent / "bip_run"
ROOM = re.compile(r"ring (\d+) live (\d+) free (\d+) tail (\d+) held (.*)")
# So many moves make a flush, and so few free places make a save.
BATCH, LEAST_FREE = 8, 16


class Served:
    """A program that answers each line by some lines and a line `end`."""

    def __init__(self, words):
        self.running = subprocess.Popen([str(word) for word in words], stdin=subprocess.PIPE, stdout=subprocess.PIPE)
        self.read()

    def read(self):
        lines = []
        while (line := self.running.stdout.readline()) != b"end\n":
            if not line:
                raise SystemExit("the plant has ended")
            lines.append(line.decode().rstrip("\n"))
        return lines

    def ask(self, line):
        self.running.stdin.write(line.encode() + b"\n")
        self.running.stdin.flush()
        return self.read()

    def close(self):
        self.running.stdin.close()
        self.running.stdout.read()
        self.running.wait()


def formatted(folder, plant, ring):
    image = Path(folder) / "image"
    image.unlink(missing_ok=True)
    subprocess.run([PROGRAM, "format", plant, image, "--ring", str(ring)], check=True, stdout=subprocess.DEVNULL)
    return image


def show(name, seconds):
    seconds.sort()
    print(f"{name}: median {1e6 * statistics.median(seconds):.1f} us, 99th part {1e6 * seconds[len(seconds) * 99 // 100]:.1f} us, {len(seconds)} lines", flush=True)


def timed(ask, lines):
    seconds = []
    for line in lines:
        begun = time.perf_counter()
        ask(line)
        seconds.append(time.perf_counter() - begun)
    return seconds


def times(plant, count):
    """Each kind of line in turn, so that the machine's own speed is the same for all."""
    with tempfile.TemporaryDirectory(dir="/dev/shm") as folder:
        served = Served([PROGRAM, "serve", plant, formatted(folder, plant, 4096)])
        found = {name: [] for name in ("fire 0", "choices", "flush")}
        for number in range(count):
            for name in ("fire 0", "choices"):
                found[name] += timed(served.ask, [name])
            if number % BATCH == BATCH - 1:
                found["flush"] += timed(served.ask, ["flush"])
            if number % 4000 == 3999:
                served.ask("save")
        served.close()
        for name, seconds in found.items():
            show(f"serve, {name}", seconds)
    stepped = subprocess.Popen([PROGRAM, "step", plant], stdin=subprocess.PIPE, stdout=subprocess.PIPE)

    def step(line):
        # `step` has no line `end`: an unknown word is answered by one line, and ends what is read.
        stepped.stdin.write(line.encode() + b"\n?\n")
        stepped.stdin.flush()
        while b"'?'" not in (answer := stepped.stdout.readline()):
            if not answer:
                raise SystemExit("step has ended")

    step("choices")
    show("step, 0", timed(step, ["0"] * count))
    stepped.stdin.close()
    stepped.stdout.read()


def save_all(plant):
    plant.ask("save")


def save_by_need(plant):
    """Saves the atoms that keep the base, until there is room again."""
    for _ in range(64):
        free, held = ROOM.fullmatch(plant.ask("room")[0]).group(3, 5)
        if int(free) >= 2 * LEAST_FREE or held == "-":
            return
        for atom in held.split():
            plant.ask(f"ask {atom}")
            plant.ask(f"put {atom}")
        plant.ask("trim")


def syncs(plant, moves):
    for ring, name, save in ((64, "all that is behind", save_all), (64, "by need", save_by_need), (1024, "all that is behind", save_all), (4096, "all that is behind", save_all)):
        chosen = random.Random(7)
        with tempfile.TemporaryDirectory(dir="/dev/shm") as folder:
            image, calls = formatted(folder, plant, ring), Path(folder) / "calls"
            served = Served(["strace", "-f", "-c", "-e", "trace=fdatasync,fsync", "-o", calls, PROGRAM, "serve", plant, image])
            for number in range(moves):
                served.ask(f"fire {chosen.randrange(1000)}")
                if number % BATCH == BATCH - 1:
                    served.ask("flush")
                    if int(ROOM.fullmatch(served.ask("room")[0])[3]) < LEAST_FREE:
                        save(served)
            fired = served.ask("front")[0]
            served.close()
            counted = sum(int(line.split()[3]) for line in calls.read_text().splitlines() if line.split()[-1:] in (["fdatasync"], ["fsync"]))
        print(f"ring {ring}, {name}: {counted} syncs, {fired}", flush=True)


if __name__ == "__main__":
    if len(sys.argv) != 4 or sys.argv[1] not in ("times", "syncs"):
        raise SystemExit(__doc__)
    (times if sys.argv[1] == "times" else syncs)(sys.argv[2], int(sys.argv[3]))
