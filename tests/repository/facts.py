"""Facts that the repository states about itself, counted: a document that gives another number fails, and so does one that no longer says it as the list below has it."""

import re
import subprocess
import unittest

import budget
import edits
import house
import sample
from folders import ROOT

NUMBERS = ["no", "one", "two", "three", "four", "five", "six", "seven", "eight", "nine", "ten", "eleven", "twelve"]


def crates():
    return len(house.houses())


def houses():
    return len(house.USES)


def crates_below(name):
    """How many crates of the repository a crate stands on, directly or by others."""
    uses, seen, ahead = house.houses(), set(), [name]
    while ahead:
        ahead += set(uses[ahead.pop()][1]) - seen
        seen |= set(ahead)
    return len(seen)


def edits_of_each_gate():
    return sum(len(edits.edits_of(crate)) for crate in edits.WITH_EDITS)


def edits_of_a_deep_gate():
    return sum(len(edits.deep_edits_of(crate)) for crate in edits.WITH_EDITS)


# Each sentence that states a number, with how to count it. Where the lines of a document end is no matter.
STATED = {
    "crates.txt": [(r"They stand in (\w+) houses", houses)],
    "README.md": [
        (r"`\./test` tries (\w+) such edits", edits_of_each_gate),
        (r"`\./test --deep` (\w+) more", edits_of_a_deep_gate),
    ],
    "docs/ARCHITECTURE.md": [(r"The (\w+) crates are in", crates), (r"The \w+ crates are in (\w+) houses", houses)],
    "docs/DECISIONS.md": [
        (r"`bip_run` does the tasks on a plant alone, and depends on (\w+) crates", lambda: crates_below("bip_run")),
        (r"`bip_image` does the tasks on an image, and depends on (\w+)\.", lambda: crates_below("bip_image")),
    ],
    "docs/DEVELOPING.md": [(r"at most (\w+) in all", lambda: edits.MOST_EDITS)],
}
MOST_LINES = 700
# The files that may name a path in tests/.
NAMING = ["*.md", "docs/*.md", "examples/*.md", "bench/*.*", "test", "prove", "bip_run", "tools/*", "tests/**/*.py", "tests/**/*.md", "tests/**/*.c"]


def number_in(word):
    return NUMBERS.index(word) if word in NUMBERS else int(word)


class Facts(unittest.TestCase):
    program = None

    def check_stated(self, document):
        text = " ".join((ROOT / document).read_text().split())
        for form, count in STATED[document]:
            found = re.findall(form, text)
            self.assertTrue(found, f"{document} no longer says: {form}")
            for word in found:
                self.assertEqual(number_in(word), count(), f"{document}: {form}")

    def check_themes(self):
        """No theme of the cases is longer than a reader takes in."""
        for theme in sorted((ROOT / "tests" / "cases").glob("*.t")):
            self.assertLessEqual(theme.read_text().count("\n"), MOST_LINES, theme.name)

    def check_paths(self):
        """Each path in tests/ that a document or a script names is there."""
        files = [file for form in NAMING for file in ROOT.glob(form) if file.is_file()]
        named = {path.rstrip("/.") for file in files for path in re.findall(r"(?<![\w/])tests/[\w/.]+", file.read_text())}
        self.assertEqual(sorted(path for path in named if not (ROOT / path).exists()), [])

    def check_fixtures(self):
        """Each file beside the cases is named by one of them, or by a test."""
        files = [*(ROOT / "tests" / "cases").glob("*.t"), *(ROOT / "tests").glob("**/*.py")]
        texts = "\n".join(file.read_text() for file in files)
        self.assertEqual([it.name for it in sorted((ROOT / "tests" / "fixtures").iterdir()) if it.name not in texts], [])

    def check_trusted_base(self):
        """The definitions that the restart theorem rests on are as many as the page says, for its law alone and with the calls that meet its premises."""
        page = (ROOT / "docs" / "PROMISES.md").read_text()
        law, with_calls = re.findall(r"`(\d+ definitions, \d+ lines, \d+ files)`", page)
        command = re.search(r"^tools/trusted (.*?)\n```", page, re.M | re.S)[1].replace("\\\n", " ").split()
        for functions, stated in (([], law), (command, with_calls)):
            counted = subprocess.run([ROOT / "tools" / "trusted", "--count", *functions], stdout=subprocess.PIPE, text=True, check=True).stdout
            self.assertEqual(counted.strip(), stated)

    def check_cost_of_a_gate(self):
        """What a gate takes from nothing is what it took, and what is known of the rest by the speed of its machine."""
        table = "processor minutes      proof    seed   edits   tests     sum\na                        2.0     1.5     1.0       -     4.5\nb                        3.0       -       -     0.5     3.5\n"
        known = budget.known_costs(table)
        self.assertEqual(known, {("a", "proof"): 2.0, ("a", "seed"): 1.5, ("a", "edits"): 1.0, ("b", "proof"): 3.0, ("b", "tests"): 0.5})
        self.assertEqual(budget.from_nothing({("a", "proof"): 4.0}, known, {"a", "b", "c"}), (16.0, 1))
        self.assertEqual(budget.from_nothing({}, known, {"a"}), (4.5, 0))

    def check_version_of_the_kit(self):
        """The program's version names the logic that proved it: kits of one logic differ in their tools alone."""
        kit = subprocess.run(["rt", "version"], stdout=subprocess.PIPE, text=True, check=True).stdout
        words = ["--version"]
        told = subprocess.run([str(self.program(words)), *words], capture_output=True, text=True)
        self.assertEqual((told.returncode, told.stderr), (0, ""))
        self.assertIn(re.search(r"logic \S+", kit)[0], told.stdout)


def suite(program, words):
    checks = {f"facts/stated_in_{document}": lambda self, document=document: self.check_stated(document) for document in STATED}
    checks |= {"facts/themes": Facts.check_themes, "facts/paths": Facts.check_paths, "facts/fixtures": Facts.check_fixtures, "facts/cost_of_a_gate": Facts.check_cost_of_a_gate, "facts/trusted_base": Facts.check_trusted_base, "facts/version_of_the_kit": Facts.check_version_of_the_kit}
    return sample.suite(Facts, program, checks, words)
