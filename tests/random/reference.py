"""A second reader of plant texts and images, written from docs/PLANT_TEXT.md and docs/IMAGE.md and not from the program, for tests that compare the two.

It reads texts without a fault alone. Of a plant it knows what a boot needs: what a state of an atom offers, what firing a transition makes of it,
and which atoms and ports an interaction of a connector has.
"""

import hashlib
import itertools
from dataclasses import dataclass, field

CELL = 1024
OPEN = 0xA5
GREATEST = (1 << 63) - 1
# A state is copied no more than so many interactions after the last one that is acknowledged.
MOST_AHEAD = 64

OPERATORS = {
    "+": lambda a, b: wrapped(a + b),
    "-": lambda a, b: wrapped(a - b),
    "*": lambda a, b: wrapped(a * b),
    "min": min,
    "max": max,
    "<": lambda a, b: int(a < b),
    "<=": lambda a, b: int(a <= b),
    "==": lambda a, b: int(a == b),
    "!=": lambda a, b: int(a != b),
    "&&": lambda a, b: int(a != 0 and b != 0),
    "||": lambda a, b: int(a != 0 or b != 0),
}


def wrapped(value):
    """The value within 64 bits in two's complement."""
    return (value + (1 << 63)) % (1 << 64) - (1 << 63)


def value_of(words, values):
    """The value of an expression in prefix form, over variables by their names."""
    left = iter(words)

    def operand():
        word = next(left)
        if word == "!":
            return int(operand() == 0)
        if word in OPERATORS:
            return OPERATORS[word](operand(), operand())
        return values[word] if word in values else int(word)

    return operand()


@dataclass
class Transition:
    port: int
    sources: list
    targets: list
    guard: list
    updates: list


@dataclass
class State:
    marked: set
    values: list


@dataclass
class Atom:
    name: str
    places: list = field(default_factory=list)
    marked: set = field(default_factory=set)
    variables: list = field(default_factory=list)
    first: list = field(default_factory=list)
    ports: list = field(default_factory=list)
    exports: list = field(default_factory=list)
    transitions: list = field(default_factory=list)

    def initial(self):
        return State(set(self.marked), list(self.first))

    def named(self, values):
        return dict(zip(self.variables, values))

    def offers(self, state, number):
        """The sources are marked, no other target is, and the guard is not 0."""
        made = self.transitions[number]
        blocked = any(target in state.marked for target in made.targets if target not in made.sources)
        ready = all(source in state.marked for source in made.sources)
        return ready and not blocked and value_of(made.guard, self.named(state.values)) != 0

    def fire(self, state, number, delivered):
        """The delivered values first, by the places of the port's variables; then the updates in order; then the marking."""
        made = self.transitions[number]
        for place, value in delivered.items():
            state.values[self.exports[made.port][place]] = value
        for variable, words in made.updates:
            state.values[variable] = value_of(words, self.named(state.values))
        state.marked = (state.marked - set(made.sources)) | set(made.targets)

    def line(self, state):
        places = " ".join(name for number, name in enumerate(self.places) if number in state.marked)
        values = "".join(f" {name}={value}" for name, value in zip(self.variables, state.values))
        return f"state {self.name} [{places}]{values}\n"


@dataclass
class Connector:
    name: str
    leaves: list
    interactions: set


@dataclass
class Plant:
    digest: bytes
    atoms: list
    connectors: list


def read_tree(words):
    """The leaves of a tree as words, and its children: each a leaf's number or a list of children, and whether it is a trigger."""
    leaves, open_lists = [], [[]]
    for word in words:
        if word == "[":
            open_lists.append([])
        elif word in ("]", "]'"):
            inner = open_lists.pop()
            open_lists[-1].append((inner, word == "]'"))
        else:
            open_lists[-1].append((len(leaves), word.endswith("'")))
            leaves.append(word.rstrip("'"))
    return leaves, open_lists[0]


def masks_of(children):
    """The interactions of children: without a trigger all take part, with triggers at least one of them does, and each other may."""
    parts = [[1 << child] if isinstance(child, int) else sorted(masks_of(child)) for child, _ in children]
    triggers = [trigger for _, trigger in children]
    found = set()
    for chosen in itertools.product(*[[None, *masks] for masks in parts]):
        here = [mask is not None for mask in chosen]
        if any(one and other for one, other in zip(here, triggers)) if any(triggers) else all(here):
            found.add(sum(mask for mask in chosen if mask is not None))
    return found


def read_transition(atom, words):
    port, rest = words[0], words[1:]
    to = rest.index("to")
    ends = [rest.index(word) for word in ("when", "do") if word in rest] or [len(rest)]
    when = rest.index("when") if "when" in rest else None
    do = rest.index("do") if "do" in rest else len(rest)
    guard = rest[when + 1 : do] if when is not None else ["1"]
    updates = [list(group) for is_end, group in itertools.groupby(rest[do + 1 :], lambda word: word == ";") if not is_end]
    return Transition(
        atom.ports.index(port),
        [atom.places.index(word) for word in rest[1:to]],
        [atom.places.index(word) for word in rest[to + 1 : min(ends)]],
        guard,
        [(atom.variables.index(words[0]), words[2:]) for words in updates],
    )


def read_plant(text):
    """The plant of a text without a fault."""
    plant = Plant(hashlib.sha256(text).digest(), [], [])
    for line in text.decode().splitlines():
        kind, *words = line.split() or ["#"]
        if kind == "atom":
            plant.atoms.append(Atom(words[0]))
        elif kind == "place":
            if words[1:]:
                plant.atoms[-1].marked.add(len(plant.atoms[-1].places))
            plant.atoms[-1].places.append(words[0])
        elif kind == "var":
            plant.atoms[-1].variables.append(words[0])
            plant.atoms[-1].first.append(int(words[1]))
        elif kind == "port":
            plant.atoms[-1].ports.append(words[0])
            plant.atoms[-1].exports.append([plant.atoms[-1].variables.index(word) for word in words[1:]])
        elif kind == "trans":
            plant.atoms[-1].transitions.append(read_transition(plant.atoms[-1], words))
        elif kind == "connector":
            names = [atom.name for atom in plant.atoms]
            leaves, children = read_tree(words[1:])
            parts = [leaf.split(".") for leaf in leaves]
            ports = [(names.index(atom), plant.atoms[names.index(atom)].ports.index(port)) for atom, port in parts]
            plant.connectors.append(Connector(words[0], ports, masks_of(children)))
    return plant


class Body:
    """The fields of a body, read one after the other."""

    def __init__(self, body):
        self.body = body
        self.at = 0

    def number(self, length, signed=False):
        self.at += length
        return int.from_bytes(self.body[self.at - length : self.at], "big", signed=signed)

    def ends(self):
        return not any(self.body[self.at :])


def base_in(body):
    fields = Body(body)
    number = fields.number(8)
    return number if 1 <= number <= GREATEST + 1 and fields.ends() else None


def identity_in(body):
    """How many atoms, how long the ring, and the digest."""
    fields = Body(body)
    fields.number(6)
    atoms, ring = fields.number(2), fields.number(4)
    digest = body[12:44]
    fields.at = 44
    return (atoms, ring, digest) if 1 <= atoms <= 64 and 8 <= ring <= 4096 and fields.ends() else None


def saved_in(body):
    """The atom, its count, the record after which it was copied, its marking and its values."""
    fields = Body(body)
    atom, count, at, marking, many = fields.number(2), fields.number(8), fields.number(8), fields.number(8), fields.number(1)
    if atom > 63 or count > GREATEST or not count <= at <= GREATEST or many > 16:
        return None
    values = [fields.number(8, signed=True) for _ in range(many)]
    return (atom, count, at, marking, values) if fields.ends() else None


def entry_in(fields, number):
    """An entry of a record: the atom, the transition, the participation number, and the delivered values by their places."""
    atom, transition, participation = fields.number(2), fields.number(2), fields.number(8)
    delivered, mask = fields.number(1), fields.number(1)
    if atom > 63 or transition > 127 or not 1 <= participation <= number or mask > 15 or delivered != bin(mask).count("1"):
        return None
    return atom, transition, participation, {place: fields.number(8, signed=True) for place in range(4) if mask >> place & 1}


def record_in(body, most_entries):
    """The number, the connector and the entries."""
    fields = Body(body)
    number, connector, many = fields.number(8), fields.number(2), fields.number(1)
    if not 1 <= number <= GREATEST or connector > 63 or not 1 <= many <= most_entries:
        return None
    entries = [entry_in(fields, number) for _ in range(many)]
    if None in entries or any(one[0] >= other[0] for one, other in zip(entries, entries[1:])):
        return None
    return (number, connector, entries) if fields.ends() else None


def fits(plant, record):
    """A record is one of the plant's: an interaction of its connector, by transitions of its ports, with values of their exports alone."""
    _, connector, entries = record
    if connector >= len(plant.connectors):
        return False
    leaves = plant.connectors[connector].leaves
    mask = 0
    for atom, transition, _, delivered in entries:
        leaf = next((number for number, (other, _) in enumerate(leaves) if other == atom), None)
        if leaf is None or transition >= len(plant.atoms[atom].transitions):
            return False
        port = leaves[leaf][1]
        if plant.atoms[atom].transitions[transition].port != port or any(place >= len(plant.atoms[atom].exports[port]) for place in delivered):
            return False
        mask |= 1 << leaf
    return mask in plant.connectors[connector].interactions


def spelled(number, length):
    return (number % (1 << 8 * length)).to_bytes(length, "big")


class Refused(Exception):
    """An image is refused: the number and the name of the refusal."""


class Image:
    """An image, read in the order in which a boot reads it."""

    bytes_of_cell, version, most_entries = CELL, 2, 16

    def __init__(self, plant, data):
        self.plant = plant
        self.data = data
        self.ring = self.read_identity()
        self.base = self.read_base()
        self.newest = self.read_slots()
        self.records = self.read_records()
        self.last = self.base + len(self.records) - 1
        self.states = self.replay()

    def body(self, cell):
        """The body of a full cell, and nothing of an empty one."""
        start = cell * self.bytes_of_cell
        return self.data[start + 1 : start + self.bytes_of_cell] if self.data[start] == OPEN else None

    def read_identity(self):
        if len(self.data) < self.bytes_of_cell:
            raise Refused("4 WrongSize")
        body = self.body(0)
        if body is None or body[:4] != b"BIPF":
            raise Refused("1 NotFormatted")
        if body[4:6] != spelled(self.version, 2):
            raise Refused("2 OtherVersion")
        identity = identity_in(body)
        if identity is None:
            raise Refused("5 Damaged(0)")
        atoms, ring, digest = identity
        if atoms != len(self.plant.atoms) or digest != self.plant.digest:
            raise Refused("3 OtherSystem")
        if len(self.data) != self.bytes_of_cell * (3 + 2 * atoms + ring):
            raise Refused("4 WrongSize")
        return ring

    def read_base(self):
        found = []
        for cell in (1, 2):
            body = self.body(cell)
            if body is not None:
                number = base_in(body)
                if number is None:
                    raise Refused(f"5 Damaged({cell})")
                found.append(number)
        if not found:
            raise Refused("5 Damaged(1)")
        return max(found)

    def read_slots(self):
        return [self.read_newest(number, atom) for number, atom in enumerate(self.plant.atoms)]

    def read_newest(self, number, atom):
        found = []
        for cell in (3 + 2 * number, 4 + 2 * number):
            body = self.body(cell)
            if body is not None:
                saved = saved_in(body)
                if saved is None or saved[0] != number or len(saved[4]) != len(atom.variables) or saved[3] >> len(atom.places):
                    raise Refused(f"5 Damaged({cell})")
                found.append(saved)
        if not found:
            raise Refused(f"5 Damaged({3 + 2 * number})")
        return max(found, key=lambda saved: saved[1])

    def cell_of(self, number):
        return 3 + 2 * len(self.plant.atoms) + number % self.ring

    def read_records(self):
        records = []
        for number in range(self.base, self.base + self.ring):
            body = self.body(self.cell_of(number))
            if body is None:
                break
            record = record_in(body, self.most_entries)
            if record is None:
                raise Refused(f"5 Damaged({self.cell_of(number)})")
            if record[0] != number:
                break
            if not fits(self.plant, record):
                raise Refused(f"5 Damaged({self.cell_of(number)})")
            records.append(record)
        return records

    def replay(self):
        replayed = [self.replay_atom(number, atom) for number, atom in enumerate(self.plant.atoms)]
        self.counts = [count for _, count in replayed]
        for number, count in enumerate(self.counts):
            if count > self.most_firings(number) or self.newest[number][2] > self.last + MOST_AHEAD:
                raise Refused(f"6 Gap({number})")
        return [state for state, _ in replayed]

    def most_firings(self, number):
        """How often the atom can have taken part: as its last record says, or once in each record before the base."""
        firings = [participation for _, _, entries in self.records for other, _, participation, _ in entries if other == number]
        return firings[-1] if firings else self.base - 1

    def replay_atom(self, number, atom):
        _, saved, _, marking, values = self.newest[number]
        state, count = State({place for place in range(len(atom.places)) if marking >> place & 1}, list(values)), saved
        for record, _, entries in self.records:
            for other, transition, participation, delivered in entries:
                if other != number or participation <= saved:
                    continue
                if participation != count + 1:
                    raise Refused(f"6 Gap({number})")
                if not atom.offers(state, transition):
                    raise Refused(f"7 NotEnabled({record}, {number})")
                atom.fire(state, transition, delivered)
                count += 1
        return state, count

    def printed(self):
        """What `recover` prints."""
        states = "".join(atom.line(state) for atom, state in zip(self.plant.atoms, self.states))
        return f"{states}front {self.last} {self.last} {self.base}\n"

    def cleaned(self):
        """The image after a boot: each full record cell that is not live is emptied."""
        data = bytearray(self.data)
        live = {self.cell_of(record[0]) for record in self.records}
        first = 3 + 2 * len(self.plant.atoms)
        for cell in range(first, first + self.ring):
            if cell not in live and data[cell * CELL] == OPEN:
                data[cell * CELL] = 0
        return bytes(data)


class FirstImage(Image):
    """An image of the first layout, as `migrate` reads it."""

    bytes_of_cell, version, most_entries = 512, 1, 8

    def migrated(self, ring):
        """The image that it is brought over to, with room for so many records, in a file that was not there."""
        data = bytearray(CELL * (3 + 2 * len(self.plant.atoms) + ring))
        bodies = {0: b"BIPF" + spelled(2, 2) + spelled(len(self.plant.atoms), 2) + spelled(ring, 4) + self.plant.digest, 1: spelled(self.last + 1, 8)}
        for number, (state, count) in enumerate(zip(self.states, self.counts)):
            marking = sum(1 << place for place in state.marked)
            values = b"".join(spelled(value, 8) for value in state.values)
            bodies[3 + 2 * number] = spelled(number, 2) + spelled(count, 8) + spelled(self.last, 8) + spelled(marking, 8) + spelled(len(state.values), 1) + values
        for cell, body in bodies.items():
            data[cell * CELL : cell * CELL + 1 + len(body)] = bytes([OPEN]) + body
        return bytes(data)
