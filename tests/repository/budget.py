#!/usr/bin/env python3
"""Runs the gate's command, hands on what it prints, and writes what each crate cost the prover.

    budget.py FILE COMMAND..     FILE gets the table, and the longest chain of proofs

Of each crate the processor minutes of four kinds of work, told by the words of the prover's processes:

    proof   the crate is proved, and of a program also built
    seed    it is proved once more, since its must-fail edits begin with what that leaves
    edits   these are tried
    tests   it is proved with its tests

A chain is crates each of which waits for the one before. A process that ends between two looks is counted as it was at the last look.

What an earlier gate on this machine passed is not done again. The last line adds what costs.txt says of it, so that it says what this gate takes from nothing. That file has
the table that a gate printed; put there that of a newer one from nothing.
"""

import os
import re
import subprocess
import sys
import threading
import time
from collections import defaultdict
from pathlib import Path

# How many seconds lie between two looks at the processes.
PAUSE = 1.0
TICKS = os.sysconf("SC_CLK_TCK")
KINDS = ("proof", "seed", "edits", "tests")
CRATES = Path(__file__).resolve().parent.parent.parent / "crates.txt"
COSTS = Path(__file__).resolve().parent / "costs.txt"


def work_of(words):
    """The crate that a process of the prover works on, and the kind of its work; None of any other process."""
    if not words or os.path.basename(words[0]) != "rattle" or "--crate-name" not in words[:-1]:
        return None
    kept = words[words.index("--incremental") + 1] if "--incremental" in words[:-1] else ""
    if "--test" in words:
        kind = "tests"
    elif os.path.basename(kept) == "seed":
        kind = "seed"
    else:
        kind = "edits" if words[1] == "check" and "-o" not in words else "proof"
    return words[words.index("--crate-name") + 1], kind


def every_process():
    """Each process of this machine: its number, with its folder and its fields behind the name in brackets."""
    found = {}
    for folder in Path("/proc").iterdir():
        try:
            if folder.name.isdigit():
                found[int(folder.name)] = folder, (folder / "stat").read_text().rsplit(")", 1)[1].split()
        except OSError:
            continue
    return found


def below(top, found):
    """The processes that `top` began, and that those began: another prover on the machine is none of them."""
    begun = defaultdict(list)
    for number, (_, fields) in found.items():
        begun[int(fields[1])].append(number)
    ahead = [top]
    while ahead:
        number = ahead.pop()
        yield number
        ahead += begun[number]


def processes(top):
    """Each process of the prover below `top` with its start, its work and the processor seconds that it has had."""
    found = every_process()
    for number in below(top, found):
        try:
            folder, fields = found[number]
            work = work_of((folder / "cmdline").read_bytes().decode(errors="replace").split("\0"))
        except (KeyError, OSError):
            continue
        if work:
            # The times are the 14th and 15th field of the whole line, the start the 22nd.
            yield (number, fields[19]), work, (int(fields[11]) + int(fields[12])) / TICKS


def uses_of_crates():
    """Each crate, with those that it uses."""
    return {line[1]: line[2].split() for line in re.finditer(r"^(\w+).*?:(.*)$", CRATES.read_text(), re.M)}


def known_costs(text):
    """The processor minutes of each crate and kind that a table has."""
    rows = re.findall(r"^(?:gate: )?(\w+) +((?:(?:[\d.]+|-) +){4})[\d.]+$", text, re.M)
    return {(crate, kind): float(minutes) for crate, row in rows for kind, minutes in zip(KINDS, row.split()) if minutes != "-"}


def from_nothing(taken, known, crates):
    """How many processor minutes a gate takes from nothing that took these, by crate and kind, and found the rest kept: the rest as it is known, by the speed of this machine;
    and of how many crates nothing is known."""
    both = [work for work in taken if work in known and taken[work] > 0.05]
    speed = sum(taken[work] for work in both) / sum(known[work] for work in both) if both else 1.0
    rest = sum(minutes for work, minutes in known.items() if work not in taken and work[0] in crates)
    unknown = sum(1 for crate in crates if not any((crate, kind) in taken or (crate, kind) in known for kind in KINDS))
    return sum(taken.values()) + speed * rest, unknown


class Watch:
    """What the prover's processes below one process were seen to take."""

    def __init__(self, top):
        self.top = top
        self.taken, self.clock, self.ended = {}, {}, threading.Event()

    def look(self):
        while not self.ended.wait(PAUSE):
            now = time.monotonic()
            for process, work, seconds in processes(self.top):
                self.taken[process] = work, seconds
                self.clock[work] = self.clock.get(work, (now - PAUSE, 0))[0], now

    def minutes(self):
        """The processor minutes of each crate, by kind."""
        minutes = defaultdict(lambda: dict.fromkeys(KINDS, 0.0))
        for (crate, kind), seconds in self.taken.values():
            minutes[crate][kind] += seconds / 60
        return minutes

    def longest_chain(self):
        """The minutes by the clock of the longest chain of proofs, and its crates."""
        chains = {}
        uses = uses_of_crates()

        def chain(crate):
            if crate not in chains:
                began, ended = self.clock.get((crate, "proof"), (0, 0))
                most, below = max((chain(it) for it in uses[crate] if it in uses), default=(0, ()))
                chains[crate] = most + (ended - began) / 60, (*below, crate)
            return chains[crate]

        return max((chain(it) for it in uses), default=(0, ()))

    def table(self):
        """The lines of the table, the dearest crate first."""
        minutes = self.minutes()
        rows = sorted(minutes.items(), key=lambda row: -sum(row[1].values()))
        every = {kind: sum(row[kind] for row in minutes.values()) for kind in KINDS}
        yield f"{'processor minutes':20}" + "".join(f"{kind:>8}" for kind in (*KINDS, "sum"))
        for name, row in [*rows, ("all crates", every)]:
            yield f"{name:20}" + "".join(f"{row[kind]:8.1f}" if row[kind] else f"{'-':>8}" for kind in KINDS) + f"{sum(row.values()):8.1f}"
        length, crates = self.longest_chain()
        if length:
            yield f"the longest chain of proofs: {length:.1f} minutes by the clock: {' '.join(crates)}"
        taken = {(crate, kind): row[kind] for crate, row in minutes.items() for kind in KINDS if row[kind]}
        whole, unknown = from_nothing(taken, known_costs(COSTS.read_text()), uses_of_crates())
        lacking = f", without {unknown} crates that costs.txt does not have" if unknown else ""
        yield f"from nothing the provers take {whole:.0f} processor minutes{lacking}; they took {sum(taken.values()):.0f} now"


def main(file, *command):
    run = subprocess.Popen(command, env={**os.environ, "PYTHONUNBUFFERED": "1"})
    watch = Watch(run.pid)
    watcher = threading.Thread(target=watch.look)
    watcher.start()
    try:
        status = run.wait()
    finally:
        watch.ended.set()
        watcher.join()
    Path(file).write_text("".join(f"{line}\n" for line in watch.table()))
    return status


if __name__ == "__main__":
    sys.exit(main(*sys.argv[1:]))
