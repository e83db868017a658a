#!/usr/bin/env python3
"""Flips each bit of images of the sample, one at a time, and says what a start and a look make of each, by the second readers of tests/.

    bench/decay.py BIP_IMAGE      the program makes the images, and judges a thousand of the flipped ones beside the readers

A start refuses the image, stands where it did, goes back to an earlier state of the run, or stands where the plant never was. Of those that are not refused
and do not stand where they did, a look may have a doubt.
"""

import collections
import random
import subprocess
import sys
import tempfile
from pathlib import Path

sys.path.append(str(Path(__file__).resolve().parent.parent / "tests"))
import folders  # noqa: F401 (it makes the readers importable)
from inspection import Inspection
from reference import Image, Refused, read_plant

PLANT = folders.ROOT / "examples" / "sample.plant"
COMPARED, SEED = 1000, 7
# Each run with its ring: nothing saved; B saved after its firing; both saved and trimmed again and again.
RUNS = {
    "nothing saved": (8, "fire 0\nfire 1\nfire 0\nflush\n"),
    "one atom saved": (8, "fire 0\nfire 0\nfire 1\nask B\nflush\nput B\nfire 0\nfire 1\nflush\n"),
    "saved and trimmed": (8, "fire 0\nfire 1\nflush\nsave\ntrim\nfire 0\nfire 1\nfire 0\nflush\nask A\nput A\ntrim\nfire 1\nfire 0\nflush\n"),
}
REFUSED, AS_BEFORE, BACK, NEVER = "refused", "as before", "an earlier state", "where it never was"


def states_of(script):
    """What a start prints after each number of fired moves, but for its last line: `fire 0` is tick, and `fire 1` is send."""
    n = m = 0
    states = [(n, m)]
    for line in script.splitlines():
        if line.startswith("fire"):
            n, m = n + 1, n if line == "fire 1" else m
            states.append((n, m))
    return [f"state A [s] n={n}\nstate B [s] m={m}\n" for n, m in states]


def judged(plant, data, states, last):
    """What a start makes of an image of a run with these states."""
    try:
        image = Image(plant, data)
    except Refused:
        return REFUSED
    state = image.printed().rsplit("front", 1)[0]
    if image.last == last and state == states[last]:
        return AS_BEFORE
    return BACK if image.last < last and state == states[image.last] else NEVER


def is_doubted(plant, data):
    return any(line.startswith("doubt: ") for line in Inspection(plant, data).notes())


def flipped(data, bit):
    changed = bytearray(data)
    changed[bit // 8] ^= 1 << bit % 8
    return bytes(changed)


def compare(program, folder, plant, images):
    """The program answers as the readers do."""
    for data in images:
        (folder / "flipped").write_bytes(data)
        ran = subprocess.run([program, "recover", PLANT, folder / "flipped"], capture_output=True, text=True)
        try:
            wanted = Image(plant, data).printed(), 0
        except Refused:
            wanted = "", 1
        if (ran.stdout, ran.returncode) != wanted:
            sys.exit(f"the program answers {ran.stdout!r} with {ran.returncode}, and the reader {wanted!r}")


def main(program):
    plant = read_plant(PLANT.read_bytes())
    found, doubted, images = collections.Counter(), collections.Counter(), []
    with tempfile.TemporaryDirectory() as name:
        folder = Path(name)
        for run, (ring, script) in RUNS.items():
            image = folder / run.replace(" ", "_")
            subprocess.run([program, "format", PLANT, image, "--ring", str(ring)], check=True, capture_output=True)
            subprocess.run([program, "run", PLANT, image, "-"], input=script, text=True, check=True, capture_output=True)
            data, states = image.read_bytes(), states_of(script)
            for bit in range(8 * len(data)):
                changed = flipped(data, bit)
                kind = judged(plant, changed, states, len(states) - 1)
                found[kind] += 1
                if kind in (BACK, NEVER):
                    doubted[kind] += is_doubted(plant, changed)
                images += [changed] if kind != AS_BEFORE else []
        compare(program, folder, plant, random.Random(SEED).sample(images, COMPARED))
    print(f"{found.total()} images: " + ", ".join(f"{kind} {found[kind]}" for kind in (REFUSED, AS_BEFORE, BACK, NEVER)))
    print("in doubt: " + ", ".join(f"{kind} {doubted[kind]}" for kind in (BACK, NEVER)))


if __name__ == "__main__":
    if len(sys.argv) != 2:
        sys.exit(__doc__)
    main(sys.argv[1])
