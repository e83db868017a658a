#!/usr/bin/env python3
"""Finds by halving how much stack each command needs, in KiB, and prints a table in Markdown.

    bench/stack.py BIP_RUN BIP_IMAGE PLANT..      for each plant a row

A command that gets enough answers as it does with much more. One start of a program differs from the next by up to 8 KiB, so the greatest of some is printed.
`migrate` needs an image of the first layout, which the tests have of the sample alone.
"""

import resource
import subprocess
import sys
import tempfile
from pathlib import Path

ROOT = Path(__file__).resolve().parent.parent
SAMPLE = ROOT / "examples" / "sample.plant"
OLD = ROOT / "tests" / "fixtures" / "first_layout_run.image"
AMPLE, STARTS = 4096, 3
SCRIPT = "fire 0\nflush\nsave\ntrim\n"
# Workers take events in any order, and of these the end is the same.
FIRES = "fire 0\n" * 4
# Each command with its words, by names of files, and its standard input.
OF_PLANT = {
    "check": ("check plant", ""),
    "trace": ("trace plant 0 1 0 1", ""),
    "choices": ("choices plant", ""),
    "draw": ("draw plant", ""),
    "why": ("why plant", ""),
    "step": ("step plant", "0\nchoices\nwhy\nback\n"),
}
OF_IMAGE = {
    "format": ("format plant new --ring 8", ""),
    "recover": ("recover plant image", ""),
    "run": ("run plant image script", ""),
    "run --workers": ("run plant image fires --workers 4", ""),
    "serve": ("serve plant image", "choices\nfire 0\nflush\nsave\nwhy\n"),
    "inspect": ("inspect image plant --records --states", ""),
    "backup": ("backup image copy", ""),
    "restate": ("restate plant image", ""),
    "explore": ("explore plant script --ring 8", ""),
    "migrate": ("migrate plant old new --ring 16", ""),
}


def answer(program, words, given, folder, kibibytes):
    """What the program does with so much stack, beginning from the same files."""
    for made in ("new", "copy"):
        (folder / made).unlink(missing_ok=True)
    (folder / "image").write_bytes((folder / "formatted").read_bytes())
    limit = lambda: resource.setrlimit(resource.RLIMIT_STACK, (kibibytes * 1024, kibibytes * 1024))
    ran = subprocess.run([program, *words.split()], input=given, text=True, capture_output=True, cwd=folder, preexec_fn=limit)
    return ran.returncode, ran.stdout, ran.stderr


def least(program, words, given, folder):
    """The least stack, to within 1 KiB, with which the program answers as with ample stack; none if it refuses the command then, too."""
    wanted = answer(program, words, given, folder, AMPLE)
    if wanted[0] != 0:
        return None
    low, high = 16, AMPLE
    while high - low > 1:
        middle = (low + high) // 2
        if all(answer(program, words, given, folder, middle) == wanted for _ in range(STARTS)):
            high = middle
        else:
            low = middle
    return high


def main(bip_run, bip_image, *plants):
    commands = [(name, Path(bip_run).resolve(), *what) for name, what in OF_PLANT.items()]
    commands += [(name, Path(bip_image).resolve(), *what) for name, what in OF_IMAGE.items()]
    print("| Plant | " + " | ".join(f"`{name}`" for name, *_ in commands) + " |")
    print("|---" + "|---:" * len(commands) + "|")
    for plant in plants:
        with tempfile.TemporaryDirectory() as name:
            folder = Path(name)
            (folder / "plant").write_bytes(Path(plant).read_bytes())
            (folder / "script").write_text(SCRIPT)
            (folder / "fires").write_text(FIRES)
            if Path(plant).resolve() == SAMPLE:
                (folder / "old").write_bytes(OLD.read_bytes())
            subprocess.run([Path(bip_image).resolve(), "format", "plant", "formatted", "--ring", "8"], cwd=folder, check=True, capture_output=True)
            found = [least(program, words, given, folder) for _, program, words, given in commands]
        print(f"| {Path(plant).stem} | " + " | ".join("-" if it is None else str(it) for it in found) + " |", flush=True)


if __name__ == "__main__":
    if len(sys.argv) < 4:
        sys.exit(__doc__)
    main(*sys.argv[1:])
