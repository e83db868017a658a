"""The edits that the prover must refuse, each a wrong body. They stand in two places.

In `crates/CRATE/must-fail/` are those that each run of the gate tries: a wrong body that moves a device or loses what was acknowledged. Each costs every
gate 10 to 30 processor seconds, and the first of a crate its proof once more, so there are few. The others are in `wrong-bodies/CRATE/`: `./test --deep`
tries them too. In the crates that have none the contracts say the exact text or result, and what the program prints is shown by the cases of tests/;
what `plant_model` promises is what `step_core` proves its own promises from. That the prover refuses each edit, only these two tell.
"""

import unittest

import sample
from folders import ROOT

CRATES, DEEP = ROOT / "crates", ROOT / "wrong-bodies"
# Each crate that has edits, and what a wrong body does there.
WITH_EDITS = {
    "petri_atom": "fires a transition that is not offered, or leaves another state",
    "connector_tree": "lets ports act together that may not",
    "priority_filter": "lets a move go before one that goes first",
    "step_core": "makes another choice, or takes what is not sure",
    "step_executor": "fires what is not sure while atoms are away, or never has one back",
    "plant_text": "makes another plant than the text means",
    "disk_model": "leaves a cell as no stop may leave it",
    "record_codec": "reads other fields than were written",
    "trimmer": "drops a record that a restart needs",
    "gated_journal": "loses a record, or brings an old one back",
    "snapshot_writer": "loses a saved state, or takes another for it",
    "record_replay": "brings an atom to another state",
    "plant_image": "takes an image for another state",
    "parallel_replay": "tells what a thread met first, and not what comes first",
    "plant_core": "acknowledges what a stop loses, or moves what was not asked for",
    "front_word": "tells a front that is none, or forgets what was told",
    "engine_host": "answers what the history does not say, or counts other firings than there were",
    "recovery": "goes on from another state",
    "file_disk": "loses what was written, or gives what was not",
    "bip_image": "changes an image before a start, or starts from one in doubt against the words",
    "queued_disk": "queues another step for the device than the engine asked for",
}
MOST_EDITS = 100
# Crates whose edits only the deep gate tries: each would prove its crate once more for few edits.
ONLY_DEEP = {"plant_text", "step_executor", "queued_disk", "bip_image"}


def edits_of(crate):
    return sorted((CRATES / crate / "must-fail").glob("*.edit"))


def deep_edits_of(crate):
    return sorted((DEEP / crate).glob("*.edit"))


def changes_in(edit):
    """Each change that the edit makes: the file, the old text and the new."""
    file = old = None
    for line in edit.read_text().splitlines():
        if line.startswith("file: "):
            file = line.removeprefix("file: ")
        elif line.startswith("old: "):
            old = line.removeprefix("old: ")
        elif line.startswith("new:"):
            yield file, old, line.removeprefix("new:").removeprefix(" ")
        else:
            raise ValueError(f"{edit.name} has a line that is not read: {line}")


class Edits(unittest.TestCase):
    """None of these tests runs the program."""

    program = None

    def check_crates(self):
        """Each crate of the list has an edit, and no other crate has one."""
        self.assertEqual(sorted(set(WITH_EDITS) - ONLY_DEEP), sorted({edit.parent.parent.name for edit in CRATES.glob("*/must-fail/*")}))
        self.assertLessEqual({folder.name for folder in DEEP.iterdir()}, set(WITH_EDITS))
        self.assertLessEqual(ONLY_DEEP, {folder.name for folder in DEEP.iterdir()})

    def check_count(self):
        self.assertLessEqual(sum(len(edits_of(crate)) for crate in WITH_EDITS), MOST_EDITS)

    def check_texts(self, crate):
        """Beside the edits no file stands there. Each old text stands once in what the changes before it make of its file, and another takes its place."""
        for folder, edits in ((CRATES / crate / "must-fail", edits_of(crate)), (DEEP / crate, deep_edits_of(crate))):
            if folder.exists():
                self.assertEqual(sorted(folder.iterdir()), edits)
            for edit in edits:
                self.check_text(crate, edit)
        self.assertFalse({edit.name for edit in edits_of(crate)} & {edit.name for edit in deep_edits_of(crate)})

    def check_text(self, crate, edit):
        changes, texts = list(changes_in(edit)), {}
        self.assertTrue(changes, f"{edit.name} changes nothing")
        for file, old, new in changes:
            text = texts.get(file) or (CRATES / crate / file).read_text()
            self.assertNotEqual(old, new, edit.name)
            self.assertEqual(text.count(old), 1, f"{edit.name}: how often `{old}` stands in {file}")
            texts[file] = text.replace(old, new)


def suite(program, words):
    checks = {"edits/crates_that_have_some": Edits.check_crates, "edits/few_enough": Edits.check_count}
    checks |= {f"edits/texts_of_{crate}": lambda self, crate=crate: self.check_texts(crate) for crate in WITH_EDITS}
    return sample.suite(Edits, program, checks, words)
