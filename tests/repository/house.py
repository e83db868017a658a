#!/usr/bin/env python3
"""The house: which crate may use which, what a crate hands to others, and that each front page names each room.

`docs/ARCHITECTURE.md` and `crates.txt` tell where things stand. These tests keep true what they tell.
"""

import re
import unittest

import sample
from folders import ROOT

CRATES = ROOT / "crates"
# The houses in the order of crates.txt, and which houses each may use besides itself.
USES = {
    "Engine": set(),
    "Store": {"Engine"},
    "Text": {"Engine"},
    "Views": {"Engine", "Text", "Store"},
    "Program": {"Engine", "Store", "Text", "Views"},
    "Callers": {"Engine", "Store", "Text", "Views"},
    "Tests": {"Engine", "Store", "Text", "Views"},
}
# In a house that may use the store, the crates that do.
OF_THE_STORE = {"Views": {"script_lines"}}


def houses():
    """Each crate's house, and the crates of the repository that it stands on."""
    house, found = None, {}
    for line in (ROOT / "crates.txt").read_text().splitlines():
        heading = re.match(r"# (\w+)(?: and \w+)?: ", line)
        if heading:
            house = heading[1]
        elif ":" in line and not line.startswith("#"):
            name, below = line.split(":", 1)
            found[name.split()[0]] = (house, below.split())
    return {name: (house, [it for it in below if it in found]) for name, (house, below) in found.items()}


def files_of(crate, *endings):
    """The crate's own files with one of these endings."""
    return [
        it
        for it in sorted((CRATES / crate).rglob("*"))
        if it.suffix in endings and "out" not in it.relative_to(CRATES / crate).parts
    ]


def lemma_modules(crate):
    """The crate's lemma modules by name, and whether each is public."""
    node = CRATES / crate / "proofs" / "Lib.antt"
    lines = node.read_text().splitlines() if node.exists() else []
    found = (re.fullmatch(r"(pub )?mod ([A-Z]\w*)", line.strip()) for line in lines)
    return {it[2]: bool(it[1]) for it in found if it}


def cited_lemmas(names):
    """Which lemma modules of which crate files of other crates cite: pairs of a crate and a module."""
    cited = set()
    for citing in names:
        for file in files_of(citing, ".rt", ".antt"):
            for crate, module in re.findall(r"Rattle\.(\w+)\.proofs\.([A-Z]\w*)", file.read_text()):
                if crate != citing and crate in names:
                    cited.add((crate, module))
    return cited


# What the next change of the crate mends: each change of it proves forty crates again. A module that its front page does not name yet, and a lemma module that
# is public before another crate cites it.
NOT_NAMED_YET = {"plant_model": {"inputs"}}
NOT_CITED_YET = {"plant_model": {"InputRows"}}


class House(unittest.TestCase):
    """None of these tests runs the program."""

    program = None

    def check_rooms(self):
        """Each crate stands in a house, and uses no house that it may not."""
        rooms = houses()
        self.assertEqual(sorted(rooms), sorted(it.name for it in CRATES.iterdir() if it.is_dir()))
        self.assertEqual(list(dict.fromkeys(house for house, _ in rooms.values())), list(USES))
        for name, (house, below) in rooms.items():
            for other in below:
                used = rooms[other][0]
                self.assertIn(used, USES[house] | {house}, f"{name} uses {other}")
                if used == "Store" and house in OF_THE_STORE:
                    self.assertIn(name, OF_THE_STORE[house], f"{name} uses {other}")

    def check_lemmas(self):
        """A lemma module is public if and only if another crate cites it."""
        names = set(houses())
        cited = cited_lemmas(names)
        for crate in sorted(names):
            public = {it for it, is_public in lemma_modules(crate).items() if is_public}
            wanted = {module for other, module in cited if other == crate} & set(lemma_modules(crate))
            self.assertEqual(public - wanted, NOT_CITED_YET.get(crate, set()), crate)
            self.assertLessEqual(wanted, public, crate)

    def check_front_comments(self):
        """Each file of a crate begins with what it has."""
        for crate in sorted(houses()):
            for file in files_of(crate, ".rt"):
                self.assertTrue(file.read_text().startswith("//! "), file.relative_to(ROOT))

    def check_front_pages(self):
        """Each front page names each module of its crate."""
        for crate in sorted(houses()):
            root = CRATES / crate / "src" / "lib.rt"
            text = (root if root.exists() else root.with_name("main.rt")).read_text()
            page = "\n".join(line for line in text.splitlines() if line.startswith("//!"))
            modules = re.findall(r"^(?:pub |pub\(crate\) )?mod (?!tests;)(\w+);", text, re.M)
            unnamed = {module for module in modules if f"`{module}`" not in page}
            self.assertEqual(unnamed, NOT_NAMED_YET.get(crate, set()), f"the front page of {crate}")


def suite(program, words):
    checks = {
        "house/rooms": House.check_rooms,
        "house/lemma_modules": House.check_lemmas,
        "house/front_comments": House.check_front_comments,
        "house/front_pages": House.check_front_pages,
    }
    return sample.suite(House, program, checks, words)
