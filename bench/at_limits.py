"""Texts at the limits of docs/PLANT_TEXT.md, and how much time each command takes over them. bench/growing.py prints it.

The time is that of the processor, so that it says something on a machine with other work too. A command that takes longer than PATIENCE is ended.
"""

import itertools
import os
import subprocess
import tempfile
from pathlib import Path

BYTES, ATOMS, PLACES, VARIABLES, PORTS, TRANSITIONS, CONNECTORS, LEAVES, RULES, INTERACTIONS = 2**20, 64, 64, 16, 32, 128, 64, 16, 1024, 1024
PATIENCE = 120
MOVER = "atom A{0}\nplace p init\nport t\ntrans t from p to p\n"


def filled(begin, lines):
    """A text of the largest size: a beginning, and then as many of the lines as it has room for."""
    parts, size = [begin], len(begin)
    for line in lines:
        size += len(line) + 1
        if size > BYTES:
            return "".join(parts)
        parts.append(line + "\n")
    return "".join(parts)


def movers(count):
    """So many atoms with a transition each that can always be taken."""
    return "".join(MOVER.format(atom) for atom in range(count))


def sum_of(leaf, words=63):
    """An expression of so many words: a sum."""
    return " ".join(["+"] * (words // 2) + [leaf(number) for number in range(words // 2 + 1)])


def chain(rules, after="", downwards=False):
    """A chain of so many rules over as many interactions and one more, from the first up or from the last down. What follows a rule is `after`."""
    text, names = movers(5) + "atom C\nplace on init\nplace off\nport t\ntrans t from on to off\n", []
    for number in range(CONNECTORS):
        masks = 31 if rules + 1 - len(names) >= 31 else 1
        text += f"connector k{number} " + " ".join(f"A{leaf}.t'" for leaf in range(5 if masks == 31 else 1)) + "\n"
        names += [f"k{number}:{mask + 1}" for mask in range(masks)]
        if len(names) > rules:
            break
    written = [f"prio {low} < {high}{after}\n" for low, high in itertools.pairwise(names)]
    return text + "".join(reversed(written) if downwards else written)


def one_connector():
    """A connector with 1,023 interactions, each below the larger ones, and one that is above all."""
    leaves = " ".join(f"A{atom}.t'" for atom in range(10))
    return movers(10) + f"connector all {leaves}\nconnector top A0.t\nmaximal all\nprio all < top\n"


def two_connectors():
    """Two connectors with 511 interactions each, and 1,024 rules that put one below the other, each by another place."""
    text = ""
    for atom in range(ATOMS):
        text += f"atom A{atom}\n" + "".join(f"place p{place}{' init' if place == 0 else ''}\n" for place in range(16)) + "port t\ntrans t from p0 to p0\n"
    for number in range(2):
        text += f"connector c{number} " + " ".join(f"A{9 * number + leaf}.t'" for leaf in range(9)) + "\n"
    return text + "".join(f"prio c0 < c1 when A{rule % ATOMS} at p{rule // ATOMS}\n" for rule in range(RULES))


def pairs():
    """64 connectors of 15 interactions, and a rule for each of 1,024 pairs of them."""
    text = movers(ATOMS) + "".join(f"connector c{one} " + " ".join(f"A{(one + leaf) % ATOMS}.t'" for leaf in range(4)) + "\n" for one in range(CONNECTORS))
    return text + "".join(f"prio c{low} < c{high}\n" for low, high in itertools.islice(itertools.combinations(range(CONNECTORS), 2), RULES))


def wide():
    """All atoms with all their places, variables, ports and transitions, and 64 connectors of 16 leaves."""
    text = ""
    for atom in range(ATOMS):
        text += f"atom A{atom}\n" + "".join(f"place p{place}{' init' if place == 0 else ''}\n" for place in range(PLACES))
        text += "".join(f"var v{number} 0\n" for number in range(VARIABLES)) + "".join(f"port t{port} v0 v1 v2 v3\n" for port in range(PORTS))
        text += "".join(f"trans t{number % PORTS} from p{number % PLACES} to p{(7 * number + 1) % PLACES}\n" for number in range(TRANSITIONS))
    return text + joined(lambda number: f"t{number % PORTS}")


def joined(port, of_connector=lambda number: ""):
    """64 connectors of 16 leaves, and of each what is written of it."""
    return "".join(
        f"connector c{number} " + " ".join(f"A{(number + leaf) % ATOMS}.{port(number)}" for leaf in range(LEAVES)) + "\n" + of_connector(number)
        for number in range(CONNECTORS)
    )


def updates():
    """Transitions with a guard and 11 updates of 63 words each, as many as a text has room for."""
    text = ""
    for atom in range(ATOMS):
        text += f"atom A{atom}\nplace p init\n" + "".join(f"var v{number} 0\n" for number in range(VARIABLES)) + "port t\n"
        guard = sum_of(lambda number: f"v{number % VARIABLES}")
        changes = " ; ".join(f"v{one} := " + sum_of(lambda number, one=one: f"v{(number + one) % VARIABLES}") for one in range(11))
        text += 7 * f"trans t from p to p when {guard} do {changes}\n"
    return text + "".join(f"connector c{number} A{number}.t\n" for number in range(CONNECTORS))


def transfers():
    """64 connectors of 16 leaves with 8 guard clauses and 24 transfers of 63 words each."""
    text = "".join(MOVER.format(atom).replace("port t", "var v 1\nport t v") for atom in range(ATOMS))

    def of_connector(number):
        value = sum_of(lambda leaf: f"A{(number + leaf % LEAVES) % ATOMS}.v")
        return 8 * f"guard {value}\n" + "".join(f"move A{(number + one % LEAVES) % ATOMS}.v := {value}\n" for one in range(24))

    return text + joined(lambda number: "t", of_connector)


def long_names():
    """Many parts whose names differ in little, and then lines that name another."""
    text = ""
    for atom in range(ATOMS):
        text += f"atom Atom_with_a_long_name_{atom:02}\n" + "".join(f"place place_with_a_long_name_{place:02}\n" for place in range(PLACES))
        text += "".join(f"port port_with_a_long_name_{port:02}\n" for port in range(PORTS))
    return text


FIRST = "atom A\nplace s init\nport t\ntrans t from s to s\nconnector c A.t\n"
# The texts that are plants, and those that are none.
PLANTS = {
    "1,023 rules in a chain": lambda: chain(1023),
    "1,023 rules with `when`, from the first up": lambda: chain(1023, " when C at on"),
    "1,023 rules with `when`, from the last down": lambda: chain(1023, " when C at on", True),
    "1,023 interactions of one connector, below another": one_connector,
    "1,024 rules with `when` over two connectors": two_connectors,
    "1,024 rules over pairs of 64 connectors": pairs,
    "64 atoms with all their parts, 64 connectors of 16 leaves": wide,
    "updates of 63 words": updates,
    "transfers of 63 words": transfers,
    "a comment of a megabyte": lambda: FIRST + "#" * (BYTES - len(FIRST) - 1) + "\n",
    "empty lines of a megabyte": lambda: FIRST + "\n" * (BYTES - len(FIRST)),
}
NO_PLANTS = {
    "a cycle of 1,024 rules with `when`": lambda: chain(1023, " when C at on") + "prio k33:1 < k0:1 when C at on\n",
    "a megabyte of lines with an unknown word": lambda: filled("", itertools.repeat("x")),
    "a megabyte of lines with a wrong name": lambda: filled("", itertools.repeat("atom 9")),
    "a word of a megabyte": lambda: "atom " + "x" * (BYTES - 6) + "\n",
    "a line of half a million words": lambda: "atom A\nplace s init\nport t\ntrans t from" + " s" * (BYTES // 2 - 30) + "\n",
    "a megabyte of lines with a place that is unknown": lambda: filled(long_names(), itertools.repeat("trans port_with_a_long_name_00 from place_with_a_long_namX_00 to place_with_a_long_namX_01")),
}
FIRE = "fire 0\n" * 60 + "flush\nsave\n"
# The words of each command of the two programs over a plant, with what it reads. Of an image the commands stand in their order.
OF_A_PLANT = {
    "check": ("check PLANT", ""),
    "check --warn": ("check --warn PLANT", ""),
    "choices": ("choices PLANT", ""),
    "why": ("why PLANT", ""),
    "trace --random 1000 --states": ("trace PLANT --random 1000 --states", ""),
    "trace --random 1000 --summary": ("trace PLANT --random 1000 --summary", ""),
    "draw": ("draw PLANT", ""),
    "draw --after 0": ("draw PLANT --after 0", ""),
    "step, 10 times `why`": ("step PLANT", "why\n" * 10 + "quit\n"),
    "step, 1,000 picks": ("step PLANT", "0\n" * 1000 + "quit\n"),
}
OF_AN_IMAGE = {
    "format --ring 4096": ("format PLANT IMAGE --ring 4096", ""),
    "run, 1 MB of events": ("run PLANT IMAGE -", FIRE * 2400),
    "serve, 10 times `why`": ("serve PLANT IMAGE", "why\n" * 10 + "quit\n"),
    "serve, 1,000 times `choices`": ("serve PLANT IMAGE", "choices\n" * 1000 + "quit\n"),
    "recover": ("recover PLANT IMAGE", ""),
    "inspect --records --states": ("inspect --records --states IMAGE PLANT", ""),
    "backup": ("backup IMAGE COPY", ""),
    "restate": ("restate PLANT IMAGE", ""),
    "explore, 100 events": ("explore PLANT -", ("fire 0\n" * 9 + "flush\n") * 10),
}
OF_NO_PLANT = {
    "check --explain": ("check --explain PLANT", ""),
    "check --all": ("check --all PLANT", ""),
}


def seconds_of(words, read):
    """How much time a command takes of the processor, or PATIENCE."""
    before = os.times()
    try:
        subprocess.run(words, input=read, text=True, stdout=subprocess.DEVNULL, stderr=subprocess.DEVNULL, timeout=PATIENCE)
    except subprocess.TimeoutExpired:
        return PATIENCE
    after = os.times()
    return after.children_user + after.children_system - before.children_user - before.children_system


def timed(bip_run, bip_image):
    """Each command over each text, with its seconds."""
    with tempfile.TemporaryDirectory(prefix="limits-") as room:
        paths = {word: str(Path(room) / word.lower()) for word in ("PLANT", "IMAGE", "COPY")}
        for texts, programs in ((PLANTS, ((bip_run, OF_A_PLANT), (bip_image, OF_AN_IMAGE))), (NO_PLANTS, ((bip_run, OF_NO_PLANT),))):
            for name, text in texts.items():
                for path in paths.values():
                    Path(path).unlink(missing_ok=True)
                Path(paths["PLANT"]).write_text(text())
                for program, commands in programs:
                    for command, (words, read) in commands.items():
                        yield command, name, seconds_of([program, *(paths.get(word, word) for word in words.split())], read)
