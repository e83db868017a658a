"""Plant texts that were changed at random: `check` answers each as docs/PLANT_TEXT.md and docs/COMMANDS.md say, and never crashes.

The texts are those of examples/ and of the cases. Words are exchanged, dropped, doubled and taken from other lines, lines are moved, bytes
are changed. Which fault a text has, or what it counts, is worked out here, by a third reader of plant texts that was written from docs/PLANT_TEXT.md
and not from the program.
"""

import concurrent.futures
import itertools
import os
import random
import re
import subprocess
import unittest

from folders import ROOT
from reference import OPERATORS, masks_of, read_tree
from transcripts import every_case

ROUNDS = 20
TEXTS_A_ROUND = 1000

RESERVED = {"from", "to", "when", "do", "init", "at", "min", "max"}
NAMES = {1: "NotAscii", 3: "UnknownWord", 4: "Misplaced", 5: "BadName", 6: "Twice", 7: "UnknownName", 8: "BadExpr", 9: "BadNumber", 10: "Shape", 13: "Limit", 14: "NoAtom"}
OF_ATOMS = {"place": 64, "var": 16, "port": 32, "trans": 128}
OF_CONNECTORS = {"guard": 8, "move": 32}


class Fault(Exception):
    """The number of a fault, and its name where that is not the number's own."""

    def __init__(self, number, name=None):
        super().__init__(f"{number} {name or NAMES[number]}")


def is_name(word):
    return re.fullmatch(r"[A-Za-z][A-Za-z0-9_]{0,31}", word) is not None and word not in RESERVED


def require(holds, number):
    if not holds:
        raise Fault(number)


def check_bytes(word):
    """Each byte may be in a text. A word is kept as text with one character for each byte."""
    require(all(" " <= byte <= "~" or byte == "\t" for byte in word), 1)


class Words:
    """The words of a line that are left."""

    def __init__(self, words):
        self.left = list(words)

    def next(self):
        """The next word, which must be there."""
        require(self.left, 10)
        check_bytes(self.left[0])
        return self.left.pop(0)

    def take(self, word):
        require(self.next() == word, 10)

    def leads(self, word):
        return self.left[:1] == [word]

    def end(self):
        if self.left:
            check_bytes(self.left[0])
            raise Fault(10)

    def new_name(self, names):
        name = self.next()
        require(is_name(name), 5)
        require(name not in names, 6)
        return name

    def expression(self, is_variable):
        """One expression, of 64 words at most."""
        wanted, count = 1, 0
        while wanted:
            require(self.left, 8)
            require(count < 64, 13)
            word, count, wanted = self.next(), count + 1, wanted - 1
            if word == "!":
                wanted += 1
            elif word in OPERATORS:
                wanted += 2
            elif re.fullmatch(r"-?[0-9]+", word):
                check_int(word)
            elif not is_variable(word):
                raise Fault(7 if all(map(is_name, word.split("."))) and word.count(".") < 2 else 8)


def check_int(word):
    require(re.fullmatch(r"-?[0-9]{1,19}", word), 9)
    require(-(1 << 63) <= int(word) < 1 << 63, 9)


class Atom:
    def __init__(self, name):
        self.name = name
        self.parts = {kind: [] for kind in OF_ATOMS}
        self.exports = {}

    def read_place(self, words):
        name = words.new_name(self.parts["place"])
        if words.left:
            words.take("init")
        words.end()
        return name

    def read_var(self, words):
        name = words.new_name(self.parts["var"])
        check_int(words.next())
        words.end()
        return name

    def read_port(self, words):
        name, exports = words.new_name(self.parts["port"]), []
        while words.left:
            require(len(exports) < 4, 13)
            variable = words.next()
            require(variable in self.parts["var"], 7)
            require(variable not in exports, 6)
            exports.append(variable)
        self.exports[name] = exports
        return name

    def read_places(self, words, keyword):
        words.take(keyword)
        found = []
        while words.left and words.left[0] not in ("to", "when", "do"):
            place = words.next()
            require(place in self.parts["place"], 7)
            require(place not in found, 6)
            found.append(place)
        require(found, 10)

    def read_trans(self, words):
        require(words.next() in self.parts["port"], 7)
        self.read_places(words, "from")
        self.read_places(words, "to")
        variables = self.parts["var"].__contains__
        if words.leads("when"):
            words.next()
            words.expression(variables)
        if words.leads("do"):
            count = 0
            while count == 0 or words.leads(";"):
                require(count < 16, 13)
                words.next()
                require(words.next() in self.parts["var"], 7)
                words.take(":=")
                words.expression(variables)
                count += 1
        words.end()
        return "trans"


class Connector:
    def __init__(self, name, leaves, masks):
        self.name = name
        self.leaves = leaves
        self.masks = masks
        self.parts = {kind: [] for kind in OF_CONNECTORS}


class Reader:
    """What was read so far."""

    def __init__(self):
        self.atoms = []
        self.connectors = []
        self.rules = []

    def read_line(self, line):
        words = re.findall(r"[^ \t]+", line.decode("latin-1"))
        if not words or words[0].startswith("#"):
            return check_bytes("".join(words))
        words = Words(words)
        kind = words.next()
        if kind in OF_ATOMS:
            self.read_part(self.atoms, OF_ATOMS[kind], kind, lambda: getattr(self.atoms[-1], f"read_{kind}")(words))
        elif kind in OF_CONNECTORS:
            self.read_part(self.connectors, OF_CONNECTORS[kind], kind, lambda: getattr(self, f"read_{kind}")(words))
        elif kind in ("atom", "connector", "prio", "maximal"):
            getattr(self, f"read_{kind}")(words)
        else:
            raise Fault(3)

    def read_part(self, owners, most, kind, read):
        require(owners, 4)
        require(len(owners[-1].parts[kind]) < most, 13)
        owners[-1].parts[kind].append(read())

    def read_atom(self, words):
        require(len(self.atoms) < 64, 13)
        name = words.new_name([atom.name for atom in self.atoms])
        words.end()
        self.atoms.append(Atom(name))

    def port_of(self, word):
        """The atom and the port that a word of a tree names."""
        bare = word[:-1] if word.endswith("'") else word
        parts = bare.split(".")
        require(len(parts) == 2 and all(parts), 10)
        atom = next((atom for atom in self.atoms if atom.name == parts[0]), None)
        require(atom is not None and parts[1] in atom.parts["port"], 7)
        return atom.name, parts[1]

    def read_connector(self, words):
        require(len(self.connectors) < 64, 13)
        name = words.new_name([connector.name for connector in self.connectors])
        require(words.left, 10)
        level, deepest, leaves, before, empty = 0, 0, [], "", False
        for word in words.left:
            check_bytes(word)
            if word == "[":
                level += 1
            elif word in ("]", "]'"):
                require(level, 10)
                level -= 1
                empty = empty or before == "["
            else:
                leaves.append(self.port_of(word))
            before, deepest = word, max(deepest, level)
        require(level == 0, 10)
        for broken, fault in [
            (len(leaves) > 16, "TooManyLeaves"),
            (deepest > 7, "TooDeep"),
            (len({atom for atom, _ in leaves}) < len(leaves), "SameAtom"),
            (empty, "Empty"),
        ]:
            if broken:
                raise Fault(11, fault)
        masks = masks_of(read_tree(words.left)[1])
        require(len(masks) + sum(len(other.masks) for other in self.connectors) <= 1024, 13)
        self.connectors.append(Connector(name, leaves, masks))

    def is_export(self, word):
        """A word names a variable that a leaf of the latest connector exports."""
        parts = word.split(".")
        ports = dict(self.connectors[-1].leaves)
        atoms = {atom.name: atom for atom in self.atoms}
        return len(parts) == 2 and parts[0] in ports and parts[1] in atoms[parts[0]].exports[ports[parts[0]]]

    def read_guard(self, words):
        words.expression(self.is_export)
        words.end()
        return "guard"

    def read_move(self, words):
        target = words.next()
        require(self.is_export(target), 7)
        require(target not in self.connectors[-1].parts["move"], 6)
        words.take(":=")
        words.expression(self.is_export)
        words.end()
        return target

    def read_side(self, words):
        """The interactions of a side, each by its connector and its mask."""
        word = words.next()
        name, colon, mask = word.partition(":")
        is_mask = colon and name and mask and ":" not in mask
        connector = next((other for other in self.connectors if other.name == (name if is_mask else word)), None)
        require(connector is not None, 7)
        if not is_mask:
            return [(connector.name, each) for each in connector.masks]
        require(re.fullmatch(r"[0-9]+", mask) and int(mask) < 1 << 64, 9)
        require(int(mask) in connector.masks, 7)
        return [(connector.name, int(mask))]

    def read_prio(self, words):
        require(len(self.rules) < 1024, 13)
        lower = self.read_side(words)
        words.take("<")
        higher = self.read_side(words)
        if words.left:
            self.read_condition(words)
        self.rules.append((tuple(lower), tuple(higher)))

    def read_condition(self, words):
        """A place of an atom. Whether a rule counts in a state is no matter of the text: all are judged as if they did."""
        words.take("when")
        name = words.next()
        atom = next((atom for atom in self.atoms if atom.name == name), None)
        require(atom is not None, 7)
        words.take("at")
        require(words.next() in atom.parts["place"], 7)
        words.end()

    def read_maximal(self, words):
        require(len(self.rules) < 1024, 13)
        name = words.next()
        connector = next((other for other in self.connectors if other.name == name), None)
        require(connector is not None, 7)
        words.end()
        self.rules.append(name)

    def pairs(self, rule):
        """Which interaction a rule puts below which: all of two sides, or those of a connector that is maximal."""
        if isinstance(rule, tuple):
            return itertools.product(*rule)
        masks = next(connector.masks for connector in self.connectors if connector.name == rule)
        return [((rule, one), (rule, other)) for one in masks for other in masks if one != other and one & other == one]

    def interactions(self):
        return [(connector.name, mask) for connector in self.connectors for mask in sorted(connector.masks)]

    def check_whole(self):
        require(self.atoms, 14)
        numbers = {each: number for number, each in enumerate(self.interactions())}
        above = {number: set() for number in numbers.values()}
        for rule in set(self.rules):
            for one, other in self.pairs(rule):
                above[numbers[one]].add(numbers[other])
        number = least_on_a_circle(above)
        if number is not None:
            raise Fault(12, f"Cycle({number})")


def least_on_a_circle(above):
    """The least number that is above itself by a chain, if there is one."""
    below = {number: [] for number in above}
    for number, others in above.items():
        for other in others:
            below[other].append(number)
    # Whatever has nothing left above it is dropped. What stays has a circle somewhere above it.
    left, waiting = {number: len(others) for number, others in above.items()}, [number for number, others in above.items() if not others]
    while waiting:
        number = waiting.pop()
        del left[number]
        for other in below[number]:
            left[other] -= 1
            if left[other] == 0:
                waiting.append(other)
    return next((number for number in sorted(left) if is_above(above, number, number)), None)


def is_above(above, higher, lower):
    """A chain of steps, one at least, leads up from one number to the other."""
    seen, waiting = set(), [lower]
    while waiting:
        for other in above[waiting.pop()] - seen:
            seen.add(other)
            waiting.append(other)
    return higher in seen


def expected(text):
    """The status, the standard output and the standard error of `check`."""
    reader, number = Reader(), 0
    lines = text.split(b"\n")
    lines, last = [line.removesuffix(b"\r") for line in lines[:-1]], lines[-1]
    try:
        for number, line in enumerate([*lines, *([last] if last else [])], 1):
            reader.read_line(line)
        number = 0
        reader.check_whole()
    except Fault as fault:
        return 1, "", f"plant line {number}: fault {fault}\n"
    counts = [len(reader.atoms), len(reader.connectors), len(reader.interactions()), len(reader.rules)]
    return 0, "atoms {} connectors {} interactions {} rules {}\n".format(*counts), ""


def change_word(chosen, words, others):
    """A word is dropped, doubled, taken from another line, put elsewhere, or changed in one character."""
    if not words:
        return list(others)
    words, at = list(words), chosen.randrange(len(words))
    kind = chosen.randrange(6)
    if kind == 0:
        del words[at]
    elif kind == 1:
        words.insert(at, words[at])
    elif kind == 2 and others:
        words[at] = chosen.choice(others)
    elif kind == 3:
        words.insert(chosen.randrange(len(words)), words.pop(at))
    elif kind == 4:
        words[at] = chosen.choice(["from", "to", "when", "at", "do", ";", ":=", "<", "[", "]", "]'", "!", "+", "-", "&&", "x", "A.x", "a.b.c", "c:1", "c::1", ":", "12x", "-0", "99999999999999999999", "9223372036854775808", "#", "n" * 33])
    else:
        place = chosen.randrange(len(words[at]))
        words[at] = words[at][:place] + chosen.choice("aA0_.:'-+<[];#") + words[at][place + chosen.randrange(2) :]
    return words


def places_of(text):
    """Each place that the text declares, with the atom before it."""
    found, atom = [], "x"
    for words in map(str.split, text.decode("latin-1").split("\n")):
        if words[:1] == ["atom"]:
            atom = "".join(words[1:2])
        elif words[:1] == ["place"]:
            found.append((atom, "".join(words[1:2])))
    return found or [("x", "x")]


def rule_with_a_condition(chosen, text):
    """A rule over names that the text declares. The place of every fourth is perhaps that of another atom, and every second has a word changed."""
    connectors = re.findall(r"^[ \t]*connector[ \t]+([^ \t\r\n]+)", text.decode("latin-1"), re.M) or ["x"]
    places = places_of(text)
    atom, place = chosen.choice(places)
    if not chosen.randrange(4):
        place = chosen.choice(places)[1]
    words = ["prio", chosen.choice(connectors), "<", chosen.choice(connectors), "when", atom, "at", place]
    return " ".join(change_word(chosen, words, words) if chosen.randrange(2) else words).encode("latin-1")


def changed(chosen, text):
    """The text after one to three changes."""
    lines = text.split(b"\n")
    for _ in range(chosen.randint(1, 3)):
        at, other = chosen.randrange(len(lines)), chosen.randrange(len(lines))
        kind = chosen.randrange(11)
        if kind < 6:
            words = change_word(chosen, lines[at].decode("latin-1").split(), lines[other].decode("latin-1").split())
            lines[at] = chosen.choice([" ", " ", "\t", "  "]).join(words).encode("latin-1")
        elif kind == 6:
            lines.insert(other, lines.pop(at))
        elif kind == 7:
            lines.insert(other, lines[at])
        elif kind == 8:
            del lines[at]
            lines = lines or [b""]
        elif kind == 9:
            lines.insert(chosen.choice([other, len(lines)]), rule_with_a_condition(chosen, text))
        else:
            place = chosen.randrange(len(lines[at]) + 1)
            lines[at] = lines[at][:place] + bytes([chosen.randrange(256)]) + lines[at][place + chosen.randrange(2) :]
    return (chosen.choice([b"\n", b"\n", b"\r\n"])).join(lines)


def plant_texts():
    """The texts of plants in examples/ and in the cases, but the longest."""
    examples = [path.read_bytes() for path in sorted((ROOT / "examples").glob("*.plant"))]
    in_cases = [text.data for case in every_case() for name, text in case.files.items() if name == "plant" or name.endswith(".plant")]
    return [text for text in examples + in_cases if len(text) < 20000]


class Texts(unittest.TestCase):
    """A thousand texts are changed in each round."""

    program = None

    def ran(self, text):
        words = ["check", "-"]
        ran = subprocess.run([str(self.program(words)), *words], input=text, capture_output=True, timeout=60)
        return ran.returncode, ran.stdout.decode(), ran.stderr.decode()

    def check_round(self, number):
        texts = plant_texts()

        def check(count):
            chosen = random.Random(number * TEXTS_A_ROUND + count)
            text = changed(chosen, chosen.choice(texts))
            found, wanted = self.ran(text), expected(text)
            return None if found == wanted else (count, found, wanted, text)

        with concurrent.futures.ThreadPoolExecutor(os.cpu_count()) as threads:
            wrong = [each for each in threads.map(check, range(TEXTS_A_ROUND)) if each]
        self.assertEqual(wrong, [])


def suite(program, words):
    """The rounds whose name has one of the words in it; all, if there is no word."""
    Texts.program = staticmethod(program)
    tests = unittest.TestSuite()
    for number in range(ROUNDS):
        name = f"texts/{number}"
        if not words or any(word in name for word in words):
            setattr(Texts, f"test {name}", lambda self, number=number: self.check_round(number))
            tests.addTest(Texts(f"test {name}"))
    return tests
