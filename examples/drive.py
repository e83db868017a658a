#!/usr/bin/env python3
"""Drives the level crossing of examples/crossing.plant by `bip_run serve`, from a program of one's own.

    python3 examples/drive.py IMAGE [MOVES] [--seed N]

IMAGE is the file of the durable plant. Where none is there, one is made. The driver plays the world outside: trains come at random. It asks which choices the
plant has, picks one, fires it by its name, flushes, and only then moves the real device, here a line on the standard output. So a device never moves for a choice that a
power cut could take back. Kill it at any moment and start it again: it goes on where the last acknowledged move left the crossing.
"""

import argparse
import fcntl
import random
import subprocess
import sys
import time
from pathlib import Path

HERE = Path(__file__).resolve().parent
PROGRAM = HERE.parent / "bip_run"
PLANT = HERE / "crossing.plant"
RING = 64
# So many records have to be free at least: with fewer, states are saved and records dropped.
LEAST_FREE = 8
# A driver that was killed may leave a program that has not ended yet. It is waited for, so many seconds.
PATIENCE = 5


class Refused(Exception):
    """The plant refused what was asked of it."""


class Plant:
    """A durable plant behind a pipe."""

    def __init__(self, plant, image):
        self.serving = subprocess.Popen([PROGRAM, "serve", plant, image], stdin=subprocess.PIPE, stdout=subprocess.PIPE, text=True)
        self.stands = self.answer()

    def answer(self):
        """The lines of one answer, up to its `end`."""
        lines = []
        for line in self.serving.stdout:
            if line == "end\n":
                return lines
            lines.append(line.rstrip("\n"))
        status = self.serving.wait()
        print(f"the plant has ended, with status {status}", file=sys.stderr)
        raise SystemExit(status or 3)

    def say(self, line):
        """Writes one line, and gives the lines of the answer."""
        self.serving.stdin.write(line + "\n")
        self.serving.stdin.flush()
        return self.answer()

    def ask(self, line):
        """Asks for one thing that the plant may not refuse, and gives the lines of the answer."""
        lines = self.say(line)
        if lines and lines[0].startswith(("refused", "mistake")):
            raise Refused(lines[0])
        return lines

    def choices(self):
        """What can be fired now, each choice by its name: its connector and its moves."""
        lines = self.ask("choices")
        return [] if lines == ["stuck"] else [line.split(" ", 1)[1] for line in lines if not line.startswith("more")]

    def make_room(self):
        """Saves states and drops records where few are free."""
        words = self.ask("room")[0].split()
        if int(words[words.index("free") + 1]) < LEAST_FREE:
            # Where nothing can be dropped yet, the plant says so, and that is no mistake.
            self.say("save")

    def fire(self, choice):
        """Fires this choice and no other, and gives its number once it is acknowledged."""
        number = int(self.ask(f"fire {choice}")[0].split()[0])
        self.ask("flush")
        return number

    def close(self):
        self.ask("flush")
        self.serving.stdin.write("quit\n")
        self.serving.stdin.close()
        return self.serving.wait()


def make_image(image):
    """Makes the image where none is. A stop leaves no part of it: it is there whole, or it is made anew."""
    latest = time.monotonic() + PATIENCE
    while not image.exists():
        made = subprocess.run([PROGRAM, "format", PLANT, image, "--ring", str(RING), "--new"], stdout=subprocess.DEVNULL)
        if made.returncode:
            # As long as it is made it has this name.
            is_made_now = Path(f"{image}.kilnmace-unfinished").exists() and time.monotonic() < latest
            if not is_made_now and not image.exists():
                raise SystemExit(made.returncode)
            time.sleep(0.1)


def wait_for(image):
    """Waits until no program has the image open."""
    latest = time.monotonic() + PATIENCE
    with open(image, "rb") as file:
        while time.monotonic() < latest:
            try:
                return fcntl.flock(file, fcntl.LOCK_SH | fcntl.LOCK_NB)
            except BlockingIOError:
                time.sleep(0.1)


def start(image):
    """The plant. A driver that was killed may leave a program that begins only now: so one that is in use is tried again."""
    for is_last in (False, True):
        wait_for(image)
        try:
            return Plant(PLANT, image)
        except SystemExit as ended:
            if ended.code != 3 or is_last:
                raise


def main():
    words = argparse.ArgumentParser(description="Drives the level crossing.")
    words.add_argument("image", type=Path)
    words.add_argument("moves", type=int, nargs="?", default=20)
    words.add_argument("--seed", type=int, default=1)
    asked = words.parse_args()
    make_image(asked.image)
    world = random.Random(asked.seed)
    plant = start(asked.image)
    print(*plant.stands, sep="\n", flush=True)
    for _ in range(asked.moves):
        plant.make_room()
        choice = world.choice(plant.choices())
        number = plant.fire(choice)
        # The move is acknowledged: no power cut takes it back. Here the real device is moved.
        print(number, choice, flush=True)
    return plant.close()


if __name__ == "__main__":
    sys.exit(main())
