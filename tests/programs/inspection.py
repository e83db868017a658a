"""What `inspect` prints of an image, worked out by a second reader from docs/COMMANDS.md and docs/IMAGE.md: of each image of tests/outside/damaged.py, and of a thousand that were changed at random.

No call of it writes: the file is as it was behind each one.
"""

import concurrent.futures
import os
import random
import unittest
from pathlib import Path

import damaged
import images
import sample
from folders import folder_in_memory
from reference import CELL, Image, Refused, base_in, identity_in, record_in, saved_in, spelled
from sample import OnImage

VERSION, MOST_ENTRIES = 2, 16
CHANGED = 1000


class Inspection:
    """What the cells hold, whether or not something is wrong with them; by a plant's names, if there is one."""

    def __init__(self, plant, data):
        self.plant = plant
        self.data = data
        self.identity = self.read_identity()
        held = len(plant.atoms) if plant else 0
        self.atoms, self.ring, self.digest = self.identity or (held, 0, None)
        own = plant and (self.identity is None or (self.atoms, self.digest) == (held, plant.digest))
        self.names = plant if own else None
        self.base = max((it for it in map(self.read_base, (1, 2)) if it), default=None)
        self.first = self.base or 1
        self.saved = [self.newest(atom) for atom in range(self.atoms)]
        self.records = self.read_records()
        self.last = self.first + len(self.records) - 1

    def body(self, cell):
        """The body of a full cell; None of an empty one, and of one that the device does not have whole."""
        place = cell * CELL
        whole = place + CELL <= len(self.data)
        return self.data[place + 1 : place + CELL] if whole and self.data[place] == 0xA5 else None

    def read_identity(self):
        body = self.body(0)
        return identity_in(body) if body and body[:4] == b"BIPF" and body[4:6] == spelled(VERSION, 2) else None

    def read_base(self, cell):
        body = self.body(cell)
        return body and base_in(body)

    def slot(self, atom, slot):
        """The count, the number of the record, the marking and the values, if the slot holds a state of the atom."""
        body = self.body(3 + 2 * atom + slot)
        saved = body and saved_in(body)
        return saved[1:] if saved and saved[0] == atom else None

    def newest(self, atom):
        return max((it for it in (self.slot(atom, 0), self.slot(atom, 1)) if it), key=lambda saved: saved[0], default=None)

    def cell_of(self, number):
        return 3 + 2 * self.atoms + number % self.ring

    def read_records(self):
        records = []
        for number in range(self.first, self.first + self.ring):
            body = self.body(self.cell_of(number))
            record = body and record_in(body, MOST_ENTRIES)
            if not record or record[0] != number:
                break
            records.append(record)
        return records

    def count(self, atom):
        return self.saved[atom][0] if self.saved[atom] else 0

    def is_held(self, atom, record):
        """The record has a firing of the atom that comes after its newest saved state."""
        return any(one == atom and participation > self.count(atom) for one, _, participation, _ in record[2])

    def name(self, atom):
        return self.names.atoms[atom].name if self.names else str(atom)

    def atom_line(self, atom):
        held = [record[0] for record in self.records if self.is_held(atom, record)]
        saved = "{} at {}".format(*self.saved[atom]) if self.saved[atom] else "- at -"
        return f"atom {self.name(atom)} saved {saved} behind {len(held)} holds {held[0] if held else '-'}"

    def held_line(self):
        keepers = [atom for atom in range(self.atoms) if self.records and self.is_held(atom, self.records[0])]
        return " ".join(["held", *map(self.name, keepers)])

    def record_line(self, record):
        number, connector, entries = record
        if not self.names:
            return " ".join([f"{number} {connector}", *(f"{atom}/{transition}" for atom, transition, _, _ in entries)])
        moves = []
        for atom, transition, _, _ in entries:
            owner = self.names.atoms[atom]
            moves.append(f"{owner.name}.{owner.ports[owner.transitions[transition].port]}/{transition}")
        return " ".join([f"{number} {self.names.connectors[connector].name}", *moves])

    def slot_lines(self):
        for atom in range(self.atoms):
            for slot in (0, 1):
                if saved := self.slot(atom, slot):
                    count, at, marking, values = saved
                    state = " ".join([f"marking {marking}", *map(str, values)])
                    if self.names:
                        owner = self.names.atoms[atom]
                        places = " ".join(name for number, name in enumerate(owner.places) if marking >> number & 1)
                        state = " ".join([f"state {owner.name} [{places}]", *(f"{name}={value}" for name, value in zip(owner.variables, values))])
                    yield f"slot {slot} of atom {self.name(atom)} saved {count} at {at}: {state}"

    def open_lines(self):
        """The full cells that are not live. One with a record that a trim dropped is no doubt."""
        for number in range(self.last + 1, self.first + self.ring):
            body = self.body(self.cell_of(number))
            if body is not None:
                record = record_in(body, MOST_ENTRIES)
                dropped = record and record[0] < self.first
                yield f"{'' if dropped else 'doubt: '}open cell {self.cell_of(number)} holds {f'record {record[0]}' if record else 'no record'}"

    def notes(self):
        """What a start reports about the image before it boots: the full cells that it empties, and each doubt."""
        yield from self.open_lines()
        yield from self.missing_lines()

    def missing_lines(self):
        took_part = sum(self.count(atom) + sum(self.is_held(atom, record) for record in self.records) for atom in range(self.atoms))
        if self.last > took_part:
            yield f"doubt: {self.last - took_part} more interactions than the atoms took part in"

    def place_of_cell(self, cell):
        if cell < 3:
            return ["identity", "first base", "second base"][cell]
        if cell < 3 + 2 * self.atoms:
            return f"slot {(cell - 3) % 2} of atom {self.name((cell - 3) // 2)}"
        return f"record {next(number for number in range(self.first, self.first + self.ring) if self.cell_of(number) == cell)}"

    def refusal_line(self, refusal):
        """A refusal as a boot tells it, with where in the image that is."""
        numbers = [int(word) for word in refusal.partition("(")[2].rstrip(")").split(", ") if word]
        place = {
            "1": lambda: "identity",
            "2": lambda: "identity",
            "3": lambda: "identity",
            "4": lambda: "size",
            "5": lambda: self.place_of_cell(*numbers),
            "6": lambda: f"atom {self.name(*numbers)}",
            "7": lambda: f"record {numbers[0]}, atom {self.name(numbers[1])}",
        }[refusal[0]]()
        return f"refusal {refusal}: {place}"

    def refusal_of_any_plant(self):
        """What is wrong whatever the plant."""
        body = self.body(0)
        if len(self.data) < CELL:
            return "4 WrongSize"
        if body is None or body[:4] != b"BIPF":
            return "1 NotFormatted"
        if body[4:6] != spelled(VERSION, 2):
            return "2 OtherVersion"
        if not self.identity:
            return "5 Damaged(0)"
        if len(self.data) != CELL * (3 + 2 * self.atoms + self.ring):
            return "4 WrongSize"
        wrong = next((cell for cell in self.cells_to_judge() if self.is_damaged(cell)), None)
        return None if wrong is None else f"5 Damaged({wrong})"

    def cells_to_judge(self):
        """The cells in the order in which a boot looks at them, up to the first record cell that ends the records."""
        yield from range(1, 3 + 2 * self.atoms)
        for number in range(self.first, self.first + self.ring):
            body = self.body(self.cell_of(number))
            if body is None:
                return
            yield self.cell_of(number)
            if record_in(body, MOST_ENTRIES)[0] != number:
                return

    def is_damaged(self, cell):
        """The cell holds what may not stand there; or it is the second of two, both are empty, and the first is told."""
        body = self.body(cell)
        if cell < 3 + 2 * self.atoms:
            first = cell if cell < 3 and cell == 1 or cell >= 3 and cell % 2 else cell - 1
            if body is None:
                return cell == first and self.body(first + 1) is None
            return base_in(body) is None if cell < 3 else self.slot((cell - 3) // 2, (cell - 3) % 2) is None
        return record_in(body, MOST_ENTRIES) is None

    def answer_line(self):
        if self.plant is None:
            refusal = self.refusal_of_any_plant()
            return self.refusal_line(refusal) if refusal else f"reads to {self.last}"
        try:
            return f"boots to {Image(self.plant, self.data).last}"
        except Refused as refused:
            return self.refusal_line(str(refused))

    def reason(self, refusal):
        """What is told of a refusal beside its number and its advice, if more is to be told."""
        if refusal[0] == "4":
            held = f"bytes, its image {CELL * (3 + 2 * self.atoms + self.ring)}" if self.identity else "bytes, and no whole cell"
            return [f"  the file has {len(self.data)} {held}"]
        if refusal[0] == "3":
            return [f"  the image is for {self.atoms} atoms and the text {self.digest.hex()}; this plant has {len(self.plant.atoms)} atoms and the text {self.plant.digest.hex()}"]
        return [] if refusal[0] in "12" else ["  " + self.refusal_line(refusal).partition(": ")[2]]

    def lines(self, records=False, states=False):
        digest = self.digest.hex() if self.identity else "-"
        yield f"image {digest} ring {self.ring if self.identity else '-'} cells {len(self.data) // CELL}"
        yield f"base {self.base or '-'} last {self.last} live {len(self.records)} free {self.ring - len(self.records)}"
        yield from map(self.atom_line, range(self.atoms))
        yield self.held_line()
        yield from map(self.record_line, self.records if records else [])
        yield from self.slot_lines() if states else []
        yield from self.open_lines()
        yield from self.missing_lines()
        yield self.answer_line()

    def answer(self, **asked):
        """The status, the standard output and the standard error of `inspect`."""
        lines = list(self.lines(**asked))
        wrong = any(line.startswith(("refusal ", "doubt: ")) for line in lines)
        return int(wrong), "".join(f"{line}\n" for line in lines), ""


class Inspections(OnImage):
    """Each image of tests/outside/damaged.py is a test, and so is a thousand of changed ones."""

    def check(self, data):
        self.image.write_bytes(data)
        self.assertEqual(self.ran("inspect image plant"), Inspection(self.plant, data).answer())
        self.assertEqual(self.ran("inspect image"), Inspection(None, data).answer())
        self.assertEqual(self.ran("inspect image --records --states"), Inspection(None, data).answer(records=True, states=True))
        self.assertEqual(self.image.read_bytes(), data)

    def check_refused(self, data, refusal):
        """What a boot tells of it with `--explain`: the line, an advice, and what is wrong."""
        self.check(data)
        status, printed, told = self.ran("recover plant image --explain")
        line, advice, *reason = told.splitlines()
        self.assertEqual((status, printed, line), (1, "", f"image: refusal {refusal}"))
        self.assertRegex(advice, r"  \w.*")
        self.assertEqual(reason, Inspection(self.plant, data).reason(refusal))

    def check_listed(self, data):
        """Of an image that boots each record and each state by their names too."""
        self.check(data)
        self.assertEqual(self.ran("inspect image plant --records --states"), Inspection(self.plant, data).answer(records=True, states=True))

    def check_changed(self):
        plants = [images.read_plant(path.read_bytes()) for path in images.PLANTS]
        with folder_in_memory() as folder:
            maker = images.Images()
            maker.program = self.program
            made = [maker.images_of(path, plant, folder) for path, plant in zip(images.PLANTS, plants)]
            everyone = [image for each in made for image in each]

            def check(number):
                chosen = random.Random(f"inspected {number}")
                which = chosen.randrange(len(plants))
                data = images.changed(chosen, chosen.choice(made[which]), everyone)
                file = Path(folder) / f"changed{number}"
                file.write_bytes(data)
                wrong = []
                for plant, words in ((plants[which], [images.PLANTS[which]]), (None, [])):
                    ran = maker.ran("inspect", file, *words)
                    found = ran.returncode, ran.stdout, ran.stderr
                    if found != Inspection(plant, data).answer() or file.read_bytes() != data:
                        wrong.append((number, bool(plant), found, Inspection(plant, data).answer()))
                file.unlink()
                return wrong

            with concurrent.futures.ThreadPoolExecutor(os.cpu_count()) as threads:
                self.assertEqual([each for wrong in threads.map(check, range(CHANGED)) for each in wrong], [])


def suite(program, words):
    """The tests whose name has one of the words in it; all, where there is no word."""
    def of_image(data, status, told):
        refusal = told.strip().removeprefix("image: refusal ")
        return lambda self: self.check_refused(data, refusal) if status else self.check_listed(data)

    checks = {f"inspection/{name}": of_image(data, status, told) for name, data, (status, _, told, _) in damaged.images()}
    return sample.suite(Inspections, program, {**checks, "inspection/changed_images": Inspections.check_changed}, words)
