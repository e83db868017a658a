#!/usr/bin/env python3
"""Copies the image of a plant that is being served, as fast as it can, and says where a start from each copy stands.

    bench/copies.py BIP_IMAGE RING SECONDS

The sample is served: random moves, flushed by threes, with a save now and then. A start refuses a copy, stands where the plant has been, or stands where it never was.
"""

import collections
import random
import shutil
import subprocess
import sys
import tempfile
import threading
import time
from pathlib import Path

PLANT = Path(__file__).resolve().parent.parent / "examples" / "sample.plant"
SEED, MOVES, ROUNDS_A_SAVE = 7, 3, 2


def drive(program, image, states, ended):
    """Serves the plant until the time is over, and notes what `recover` would print of its states after each move."""
    with subprocess.Popen([program, "serve", PLANT, image], stdin=subprocess.PIPE, stdout=subprocess.DEVNULL, text=True) as served:
        picks, n, m = random.Random(SEED), 0, 0
        for number in range(1 << 40):
            if ended.is_set():
                break
            for _ in range(MOVES):
                pick = picks.randrange(2)
                n, m = n + 1, n if pick else m
                states.append(f"state A [s] n={n}\nstate B [s] m={m}\n")
                served.stdin.write(f"fire {pick}\n")
            served.stdin.write("flush\nsave\n" if number % ROUNDS_A_SAVE == 0 else "flush\n")
            served.stdin.flush()
        served.stdin.close()


def judged(program, copy, states):
    ran = subprocess.run([program, "recover", PLANT, copy], capture_output=True, text=True)
    if ran.returncode:
        return "refused"
    state, front = ran.stdout.split("front ")
    return "where it was" if states[int(front.split()[0])] == state else "where it never was"


def main(program, ring, seconds):
    program = Path(program).resolve()
    states, ended, copies = ["state A [s] n=0\nstate B [s] m=0\n"], threading.Event(), []
    with tempfile.TemporaryDirectory(dir="/dev/shm") as name:
        folder = Path(name)
        image = folder / "image"
        subprocess.run([program, "format", PLANT, image, "--ring", ring], check=True, capture_output=True)
        driver = threading.Thread(target=drive, args=(program, image, states, ended))
        driver.start()
        latest = time.monotonic() + float(seconds)
        while time.monotonic() < latest:
            copies.append(folder / str(len(copies)))
            shutil.copyfile(image, copies[-1])
        ended.set()
        driver.join()
        found = collections.Counter(judged(program, copy, states) for copy in copies)
    print(f"ring {ring}, {len(copies)} copies: " + ", ".join(f"{count} {kind}" for kind, count in found.most_common()))


if __name__ == "__main__":
    if len(sys.argv) != 4:
        sys.exit(__doc__)
    main(*sys.argv[1:])
