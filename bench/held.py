#!/usr/bin/env python3
"""Counts the bytes that a system holds: those that `bip_bench read` has asked of the allocator and not given back when it prints.

    bench/held.py BIP_BENCH PLANT..      a table in Markdown

valgrind shows each call of the allocator and of the system. Bytes that the allocator needs for itself are not among them.
"""

import re
import shutil
import subprocess
import sys
from pathlib import Path

SHOWN = ["--tool=memcheck", "--leak-check=no", "--trace-malloc=yes", "--trace-syscalls=yes"]
# What the program asks for, in the place of what block if of one; what it gives back; what it opens; that it prints.
CALL = re.compile(r"alloc\((?:(0x\w+),)?(\d+)\) = (0x\w+)|free\((0x\w+)\)|sys_openat \( \d+, 0x\w+\((.*?)\), |sys_write \( (1),")


def held(program, plant):
    """How many bytes in how many blocks are kept behind the opening of the text until the line is printed."""
    ran = subprocess.run(["valgrind", *SHOWN, program, "read", plant], capture_output=True, text=True)
    if ran.returncode != 0:
        raise SystemExit(f"{program} read {plant}: {ran.stdout.strip()} {ran.stderr.strip()[-300:]}")
    blocks, is_open = {}, False
    for old, size, new, freed, opened, prints in CALL.findall(ran.stderr):
        blocks.pop(old or freed, None)
        if opened == plant:
            is_open = True
        elif new and is_open:
            blocks[new] = int(size)
        elif prints:
            break
    return sum(blocks.values()), len(blocks)


def main(words):
    if len(words) < 2:
        raise SystemExit(__doc__)
    if not shutil.which("valgrind"):
        raise SystemExit("valgrind, which shows the calls, is not there")
    print("| Plant | Bytes | Blocks |\n|---|---:|---:|")
    for plant in words[1:]:
        size, count = held(str(Path(words[0]).resolve()), plant)
        print(f"| {Path(plant).stem} | {size:,} | {count:,} |", flush=True)


if __name__ == "__main__":
    main(sys.argv[1:])
