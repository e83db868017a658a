#!/usr/bin/env python3
"""Counts the instructions of a step by valgrind's tool callgrind, as plants grow and while atoms are away, and times each command at the limits.
It prints tables in Markdown.

    bench/growing.py grow BIP_BENCH              the plants below, in each of which one thing grows
    bench/growing.py step BIP_BENCH PLANT..      these plants
    bench/growing.py away DURABLE_BENCH PLANT..  these plants with all atoms there, and with atoms away half of the time
    bench/growing.py plant SERIES SIZE           prints the text of one of the plants that grow
    bench/growing.py limits BIP_RUN BIP_IMAGE    the seconds of each command of the two programs over the texts of bench/at_limits.py

A figure is how many instructions a run of 3,000 steps takes more than one of 1,000, divided by 2,000. A run with fewer steps is refused.
"""

import re
import shutil
import subprocess
import sys
from pathlib import Path

import at_limits

FEW, MANY, SEED = 1000, 3000, 7

# An atom has a token, has none, or is asleep for good. It gives its token away with a number, or takes one. Asleep it offers nothing.
HOLDER = """atom A{0}
place on{1}
place off{2}
place asleep{3}
var n {0}
port give n
port take n
trans give from on to off
trans take from off to on do n := + n 1
"""


def holders(count, awake=lambda atom: True):
    """So many atoms. Of those that are awake the even ones have a token at first."""
    text = ""
    for atom in range(count):
        first = (0 if atom % 2 == 0 else 1) if awake(atom) else 2
        text += HOLDER.format(atom, *(" init" if place == first else "" for place in range(3)))
    return text


def passings(count, atoms):
    """So many connectors, each of which passes a token from one of so many atoms to another: first to the next atom, then to the third one on, and so on."""
    text = ""
    for number in range(count):
        giver = number % atoms
        taker = (giver + 1 + 2 * (number // atoms)) % atoms
        text += f"connector pass{number} A{giver}.give A{taker}.take\nmove A{taker}.n := A{giver}.n\n"
    return text


def broadcasts(leaves):
    """Four connectors of so many leaves: of eight atoms some give or some take, and so do eight other ones. Any leaf may begin."""
    text = ""
    for number, (port, first) in enumerate((("give", 0), ("take", 0), ("give", 8), ("take", 8))):
        text += f"connector some{number} " + " ".join(f"A{first + leaf}.{port}'" for leaf in range(leaves)) + "\n"
    return text


def gatherings(count):
    """So many connectors of 16 leaves, all of which move at once. So they never move, since the last atom is asleep."""
    return "".join(f"connector all{number} " + " ".join(f"A{atom}.give" for atom in (*range(15), 16)) + "\n" for number in range(count))


def ranks(count):
    """So many rules over 64 connectors: each puts one of the first half below one of the second half."""
    return "".join(f"prio pass{rule % 32} < pass{32 + (rule + rule // 32) % 32}\n" for rule in range(count))


def by_leaves(count):
    """How many leaves four connectors have, if so many interactions are theirs and each leaf is a trigger."""
    return (count // 4 + 1).bit_length() - 1


INTERACTIONS = tuple(4 * (2**leaves - 1) for leaves in range(3, 9))
# Of each series what grows, the sizes, and the plant of a size.
SERIES = {
    "atoms": ((8, 16, 32, 64), lambda size: holders(size) + passings(8, 8)),
    "connectors": ((8, 16, 32, 64), lambda size: holders(64) + passings(size, size)),
    "meetings": ((16, 32, 64), lambda size: holders(16) + passings(size, 16)),
    "interactions": (INTERACTIONS, lambda size: holders(16, lambda atom: atom % 8 < 3) + broadcasts(by_leaves(size))),
    "choices": (INTERACTIONS, lambda size: holders(16) + broadcasts(by_leaves(size))),
    "rules": ((8, 16, 32, 64, 128, 256, 512, 1024), lambda size: holders(16) + passings(64, 16) + ranks(size)),
    "wide": ((0, 1, 2, 4), lambda size: holders(17, lambda atom: atom < 16) + broadcasts(8) + gatherings(size)),
}


def counted(words, text, steps):
    """How many instructions a run of so many steps takes. The plant is the standard input."""
    words = [str(steps) if word == "STEPS" else word for word in words]
    ran = subprocess.run(["valgrind", "--tool=callgrind", "--callgrind-out-file=/dev/null", *words], input=text, capture_output=True, text=True)
    found = re.search(r"Collected : (\d+)", ran.stderr)
    if ran.returncode != 0 or not found or not ran.stdout.startswith(f"steps {steps} "):
        raise SystemExit(f"{' '.join(words)}: {ran.stdout.strip()} {ran.stderr.strip()[-300:]}")
    return int(found[1])


def of_a_step(words, text):
    return (counted(words, text, MANY) - counted(words, text, FEW)) / (MANY - FEW)


def simulated(program, text):
    return of_a_step([program, "-", "STEPS", str(SEED)], text)


def print_growth(program):
    print("| What grows | Sizes | Instructions a step | Last to first |\n|---|---|---|---:|")
    for name, (sizes, plant) in SERIES.items():
        found = [simulated(program, plant(size)) for size in sizes]
        figures = ", ".join(f"{one:,.0f}" for one in found)
        print(f"| {name} | {', '.join(f'{size:,}' for size in sizes)} | {figures} | {found[-1] / found[0]:.2f} |", flush=True)


def print_steps(program, plants):
    print("| Plant | Instructions a step |\n|---|---:|")
    for path in plants:
        print(f"| {Path(path).stem} | {simulated(program, Path(path).read_text()):,.0f} |", flush=True)


def print_away(program, plants):
    print("| Plant | All there | Away | Away, to all there |\n|---|---:|---:|---:|")
    for path in plants:
        there, away = (of_a_step([program, word, "-", "STEPS"], Path(path).read_text()) for word in ("there", "away"))
        print(f"| {Path(path).stem} | {there:,.0f} | {away:,.0f} | {away / there:.2f} |", flush=True)


def print_limits(programs):
    """Each command over each text: a line as it is timed, and then the text that takes each command the most time."""
    slowest = {}
    for command, name, seconds in at_limits.timed(*programs):
        print(f"{seconds:7.2f} {command}: {name}", file=sys.stderr, flush=True)
        slowest[command] = max(slowest.get(command, (0, "")), (seconds, name))
    print("| Command | Seconds | Over |\n|---|---:|---|")
    for command, (seconds, name) in slowest.items():
        print(f"| `{command}` | {seconds:.2f} | {name} |")


def main(words):
    if len(words) == 3 and words[0] == "limits" and all(Path(word).is_file() for word in words[1:]):
        print_limits([str(Path(word).resolve()) for word in words[1:]])
        return
    if len(words) == 3 and words[0] == "plant" and words[1] in SERIES and words[2] in map(str, SERIES[words[1]][0]):
        print(SERIES[words[1]][1](int(words[2])), end="")
        return
    if len(words) < 2 or not Path(words[1]).is_file():
        raise SystemExit(__doc__)
    if not shutil.which("valgrind"):
        raise SystemExit("valgrind, which counts the instructions, is not there")
    program = str(Path(words[1]).resolve())
    if words[0] == "grow" and len(words) == 2:
        print_growth(program)
    elif words[0] == "step" and len(words) > 2:
        print_steps(program, words[2:])
    elif words[0] == "away" and len(words) > 2:
        print_away(program, words[2:])
    else:
        raise SystemExit(__doc__)


if __name__ == "__main__":
    main(sys.argv[1:])
