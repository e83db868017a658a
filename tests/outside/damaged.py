"""Images and plant texts with one fault each: `recover` and all other commands answer it as docs/IMAGE.md, docs/PLANT_TEXT.md and docs/COMMANDS.md say.

The images are made of the one in tests/sample.py, behind tick, send, tick, send, a flush and a save of A. What `recover` must answer is written beside each
change. A refused file has to stay as it was; of another one the cells of records that are not live are emptied.
"""

import sample
from images import expected
from reference import CELL
from sample import CELLS, DIGEST, FORMATTED, IMAGE, PLANT, OnImage, closed, image_of, standing

NOT_FORMATTED, OTHER_VERSION, OTHER_SYSTEM, WRONG_SIZE = "1 NotFormatted", "2 OtherVersion", "3 OtherSystem", "4 WrongSize"

# Each image with the cells that are changed, and the refusal.
REFUSED = {
    "identity_closed": ({0: closed(IMAGE[0])}, NOT_FORMATTED),
    "identity_with_a_gate_of_one_bit_less": ({0: f"a4 42495046 0002 0002 00000008 {DIGEST}"}, NOT_FORMATTED),
    "identity_of_other_magic": ({0: f"a5 42495047 0002 0002 00000008 {DIGEST}"}, NOT_FORMATTED),
    "other_magic_is_told_before_another_version": ({0: f"a5 00495046 0003 0002 00000008 {DIGEST}"}, NOT_FORMATTED),
    "identity_of_version_0": ({0: f"a5 42495046 0000 0002 00000008 {DIGEST}"}, OTHER_VERSION),
    "identity_of_version_1": ({0: f"a5 42495046 0001 0002 00000008 {DIGEST}"}, OTHER_VERSION),
    "identity_of_version_3": ({0: f"a5 42495046 0003 0002 00000008 {DIGEST}"}, OTHER_VERSION),
    "another_version_is_told_before_its_fields": ({0: f"a5 42495046 0003 0000 00000000 {DIGEST} 01"}, OTHER_VERSION),
    "identity_of_no_atoms": ({0: f"a5 42495046 0002 0000 00000008 {DIGEST}"}, "5 Damaged(0)"),
    "identity_of_65_atoms": ({0: f"a5 42495046 0002 0041 00000008 {DIGEST}"}, "5 Damaged(0)"),
    "identity_of_a_ring_of_7": ({0: f"a5 42495046 0002 0002 00000007 {DIGEST}"}, "5 Damaged(0)"),
    "identity_of_a_ring_of_4097": ({0: f"a5 42495046 0002 0002 00001001 {DIGEST}"}, "5 Damaged(0)"),
    "identity_with_a_byte_behind": ({0: f"a5 42495046 0002 0002 00000008 {DIGEST} 01"}, "5 Damaged(0)"),
    "identity_with_a_last_byte": ({0: f"a5 42495046 0002 0002 00000008 {DIGEST} {978 * '00'} 01"}, "5 Damaged(0)"),
    "identity_of_3_atoms": ({0: f"a5 42495046 0002 0003 00000008 {DIGEST}"}, OTHER_SYSTEM),
    "identity_of_1_atom": ({0: f"a5 42495046 0002 0001 00000008 {DIGEST}"}, OTHER_SYSTEM),
    "identity_of_another_digest": ({0: f"a5 42495046 0002 0002 00000008 {DIGEST[:-1]}9"}, OTHER_SYSTEM),
    "another_plant_is_told_before_the_size": ({0: f"a5 42495046 0002 0003 00000009 {DIGEST}"}, OTHER_SYSTEM),
    "identity_of_a_ring_of_9": ({0: f"a5 42495046 0002 0002 00000009 {DIGEST}"}, WRONG_SIZE),
    "size_is_told_before_a_base": ({0: f"a5 42495046 0002 0002 00000009 {DIGEST}", 1: closed(IMAGE[1])}, WRONG_SIZE),
    "no_base": ({1: closed(IMAGE[1]), 2: closed(IMAGE[1])}, "5 Damaged(1)"),
    "first_base_0": ({1: "a5 0000000000000000", 2: "a5 0000000000000001"}, "5 Damaged(1)"),
    "second_base_0": ({2: "a5 0000000000000000"}, "5 Damaged(2)"),
    "base_past_2_to_the_63": ({1: "a5 8000000000000001"}, "5 Damaged(1)"),
    "base_with_a_byte_behind": ({1: "a5 0000000000000001 01"}, "5 Damaged(1)"),
    "base_with_a_last_byte": ({1: f"a5 0000000000000001 {1014 * '00'} 01"}, "5 Damaged(1)"),
    "base_is_told_before_a_slot": ({2: "a5 0000000000000000", 3: closed(IMAGE[3]), 4: closed(IMAGE[4])}, "5 Damaged(2)"),
    "no_slot_of_the_first_atom": ({3: closed(IMAGE[3]), 4: closed(IMAGE[4])}, "5 Damaged(3)"),
    "no_slot_of_the_second_atom": ({5: closed(IMAGE[5]), 6: closed(IMAGE[5])}, "5 Damaged(5)"),
    "no_slot_is_told_before_the_next_atom": ({3: closed(IMAGE[3]), 4: closed(IMAGE[4]), 5: "a5 ff"}, "5 Damaged(3)"),
    "slot_of_atom_9": ({3: "a5 0009 0000000000000000 0000000000000000 0000000000000001 01 0000000000000000"}, "5 Damaged(3)"),
    "slot_of_atom_64": ({3: "a5 0040 0000000000000000 0000000000000000 0000000000000001 01 0000000000000000"}, "5 Damaged(3)"),
    "slot_of_the_other_atom": ({6: IMAGE[4]}, "5 Damaged(6)"),
    "slot_that_does_not_count": ({3: "a5 0000 0000000000000000 0000000000000000 0000000000000002 01 0000000000000000"}, "5 Damaged(3)"),
    "slot_with_a_second_place_of_one": ({4: "a5 0000 0000000000000004 0000000000000004 0000000000000002 01 0000000000000004"}, "5 Damaged(4)"),
    "slot_with_a_sixty_fourth_place_of_one": ({4: "a5 0000 0000000000000004 0000000000000004 8000000000000001 01 0000000000000004"}, "5 Damaged(4)"),
    "slot_saved_before_its_count": ({4: "a5 0000 0000000000000005 0000000000000004 0000000000000001 01 0000000000000004"}, "5 Damaged(4)"),
    "slot_of_a_count_of_2_to_the_63": ({4: "a5 0000 8000000000000000 8000000000000000 0000000000000001 01 0000000000000004"}, "5 Damaged(4)"),
    "slot_saved_at_2_to_the_63": ({4: "a5 0000 0000000000000004 8000000000000000 0000000000000001 01 0000000000000004"}, "5 Damaged(4)"),
    "slot_without_its_value": ({4: "a5 0000 0000000000000004 0000000000000004 0000000000000001 00"}, "5 Damaged(4)"),
    "slot_with_two_values": ({4: "a5 0000 0000000000000004 0000000000000004 0000000000000001 02 0000000000000004 0000000000000000"}, "5 Damaged(4)"),
    "slot_with_17_values": ({4: "a5 0000 0000000000000004 0000000000000004 0000000000000001 11 0000000000000004"}, "5 Damaged(4)"),
    "slot_with_a_byte_behind": ({4: "a5 0000 0000000000000004 0000000000000004 0000000000000001 01 0000000000000004 01"}, "5 Damaged(4)"),
    "slot_is_told_before_that_of_the_next_atom": ({4: "a5 0000 0000000000000004 0000000000000004 0000000000000002 01 0000000000000004", 5: "a5 ff"}, "5 Damaged(4)"),
    "slot_is_told_before_a_record": ({5: "a5 ff", 8: "a5 ff"}, "5 Damaged(5)"),
    "record_of_number_0": ({9: "a5 0000000000000000 0001 02 0000 0000 0000000000000002 00 00 0001 0000 0000000000000001 01 01 0000000000000001"}, "5 Damaged(9)"),
    "record_of_number_2_to_the_63": ({9: "a5 8000000000000000 0001 02 0000 0000 0000000000000002 00 00 0001 0000 0000000000000001 01 01 0000000000000001"}, "5 Damaged(9)"),
    "record_of_a_connector_without_its_second_atom": ({9: "a5 0000000000000002 0000 02 0000 0000 0000000000000002 00 00 0001 0000 0000000000000001 01 01 0000000000000001"}, "5 Damaged(9)"),
    "record_of_a_connector_that_is_not_there": ({8: "a5 0000000000000001 0002 01 0000 0000 0000000000000001 00 00"}, "5 Damaged(8)"),
    "record_of_connector_64": ({8: "a5 0000000000000001 0040 01 0000 0000 0000000000000001 00 00"}, "5 Damaged(8)"),
    "record_of_half_an_interaction": ({9: "a5 0000000000000002 0001 01 0000 0000 0000000000000002 00 00"}, "5 Damaged(9)"),
    "record_of_the_other_half": ({9: "a5 0000000000000002 0001 01 0001 0000 0000000000000001 01 01 0000000000000001"}, "5 Damaged(9)"),
    "record_without_entries": ({8: "a5 0000000000000001 0000 00"}, "5 Damaged(8)"),
    "record_of_17_entries": ({8: "a5 0000000000000001 0000 11 0000 0000 0000000000000001 00 00"}, "5 Damaged(8)"),
    "record_with_atoms_that_fall": ({9: "a5 0000000000000002 0001 02 0001 0000 0000000000000001 01 01 0000000000000001 0000 0000 0000000000000002 00 00"}, "5 Damaged(9)"),
    "record_with_one_atom_twice": ({9: "a5 0000000000000002 0001 02 0000 0000 0000000000000002 00 00 0000 0000 0000000000000001 01 01 0000000000000001"}, "5 Damaged(9)"),
    "record_of_an_atom_that_is_not_there": ({8: "a5 0000000000000001 0000 01 0002 0000 0000000000000001 00 00"}, "5 Damaged(8)"),
    "record_of_atom_64": ({8: "a5 0000000000000001 0000 01 0040 0000 0000000000000001 00 00"}, "5 Damaged(8)"),
    "record_of_a_transition_that_is_not_there": ({8: "a5 0000000000000001 0000 01 0000 0001 0000000000000001 00 00"}, "5 Damaged(8)"),
    "record_of_transition_128": ({8: "a5 0000000000000001 0000 01 0000 0080 0000000000000001 00 00"}, "5 Damaged(8)"),
    "record_of_a_zeroth_participation": ({8: "a5 0000000000000001 0000 01 0000 0000 0000000000000000 00 00"}, "5 Damaged(8)"),
    "record_of_a_participation_past_its_number": ({8: "a5 0000000000000001 0000 01 0000 0000 0000000000000002 00 00"}, "5 Damaged(8)"),
    "record_with_fewer_values_than_its_mask": ({8: "a5 0000000000000001 0000 01 0000 0000 0000000000000001 00 01 0000000000000001"}, "5 Damaged(8)"),
    "record_with_more_values_than_its_mask": ({8: "a5 0000000000000001 0000 01 0000 0000 0000000000000001 01 00 0000000000000001"}, "5 Damaged(8)"),
    "record_with_a_mask_of_16": ({8: "a5 0000000000000001 0000 01 0000 0000 0000000000000001 01 10 0000000000000001"}, "5 Damaged(8)"),
    "record_with_a_value_past_the_exports": ({9: "a5 0000000000000002 0001 02 0000 0000 0000000000000002 00 00 0001 0000 0000000000000001 01 02 0000000000000001"}, "5 Damaged(9)"),
    "record_with_a_byte_behind": ({8: "a5 0000000000000001 0000 01 0000 0000 0000000000000001 00 00 01"}, "5 Damaged(8)"),
    "record_that_does_not_fit_is_told_before_the_next": ({9: "a5 0000000000000002 0001 01 0000 0000 0000000000000002 00 00", 10: "a5 ff"}, "5 Damaged(9)"),
    "garbage_behind_the_last_record": ({12: f"a5 {(CELL - 1) * 'a5'}"}, "5 Damaged(12)"),
    "record_is_told_before_a_gap": ({11: "a5 0000000000000004 0001 02 0000 0000 0000000000000004 00 00 0001 0000 0000000000000003 01 01 0000000000000003", 12: "a5 ff"}, "5 Damaged(12)"),
    "participation_left_out": ({11: "a5 0000000000000004 0001 02 0000 0000 0000000000000004 00 00 0001 0000 0000000000000003 01 01 0000000000000003"}, "6 Gap(1)"),
    "participation_made_again": ({11: "a5 0000000000000004 0001 02 0000 0000 0000000000000004 00 00 0001 0000 0000000000000001 01 01 0000000000000003"}, "6 Gap(1)"),
    "participation_made_again_by_an_atom_that_was_not_saved": ({4: closed(IMAGE[4]), 11: "a5 0000000000000004 0001 02 0000 0000 0000000000000003 00 00 0001 0000 0000000000000002 01 01 0000000000000003"}, "6 Gap(0)"),
    "first_atom_with_a_gap_is_told": ({4: closed(IMAGE[4]), 11: "a5 0000000000000004 0001 02 0000 0000 0000000000000003 00 00 0001 0000 0000000000000003 01 01 0000000000000003"}, "6 Gap(0)"),
    "base_past_what_an_atom_needs": ({2: "a5 0000000000000004"}, "6 Gap(1)"),
    "record_gone_before_what_was_saved": ({10: closed(IMAGE[10])}, "6 Gap(0)"),
    "saved_past_the_last_record": ({4: "a5 0000 0000000000000005 0000000000000005 0000000000000001 01 0000000000000005"}, "6 Gap(0)"),
    "saved_past_the_last_record_of_its_atom": ({6: "a5 0001 0000000000000003 0000000000000004 0000000000000001 01 0000000000000003"}, "6 Gap(1)"),
    "saved_past_its_last_record_though_all_of_it_is_passed_over": ({11: "a5 0000000000000004 0001 02 0000 0000 0000000000000002 00 00 0001 0000 0000000000000002 01 01 0000000000000003"}, "6 Gap(0)"),
    "saved_more_often_than_there_were_records_before_the_base": ({2: "a5 0000000000000003", 4: "a5 0000 0000000000000003 0000000000000003 0000000000000001 01 0000000000000003", 6: "a5 0001 0000000000000003 0000000000000003 0000000000000001 01 0000000000000001", 11: closed(IMAGE[11])}, "6 Gap(1)"),
    "copied_65_after_the_last_record": ({4: "a5 0000 0000000000000004 0000000000000045 0000000000000001 01 0000000000000004"}, "6 Gap(0)"),
    "unmarked_place": ({3: "a5 0000 0000000000000000 0000000000000000 0000000000000000 01 0000000000000000", 4: closed(IMAGE[4])}, "7 NotEnabled(1, 0)"),
    "unmarked_place_of_the_second_atom": ({5: "a5 0001 0000000000000000 0000000000000000 0000000000000000 01 0000000000000000"}, "7 NotEnabled(2, 1)"),
    "not_enabled_is_told_before_a_gap_of_the_next_atom": ({3: "a5 0000 0000000000000000 0000000000000000 0000000000000000 01 0000000000000000", 4: closed(IMAGE[4]), 11: "a5 0000000000000004 0001 02 0000 0000 0000000000000004 00 00 0001 0000 0000000000000003 01 01 0000000000000003"}, "7 NotEnabled(1, 0)"),
}

# Each image with the cells that are changed, what is printed, and the cells of records that are emptied.
TAKEN = {
    "as_it_was_written": ({}, standing(4, 3), []),
    "saved_state_gone": ({4: closed(IMAGE[4])}, standing(4, 3), []),
    "saved_state_that_is_older": ({4: "a5 0000 0000000000000003 0000000000000003 0000000000000001 01 0000000000000003"}, standing(4, 3), []),
    "saved_state_without_a_marked_place": ({4: "a5 0000 0000000000000004 0000000000000004 0000000000000000 01 0000000000000004"}, standing(4, 3, place=""), []),
    "copied_64_after_the_last_record": ({4: "a5 0000 0000000000000004 0000000000000044 0000000000000001 01 0000000000000004"}, standing(4, 3), []),
    "saved_as_often_as_there_were_records_before_the_base": ({2: "a5 0000000000000003", 4: "a5 0000 0000000000000003 0000000000000003 0000000000000001 01 0000000000000003", 6: "a5 0001 0000000000000002 0000000000000002 0000000000000001 01 0000000000000001", 11: closed(IMAGE[11])}, standing(3, 1, number=3, base=3), [8, 9]),
    "first_slot_where_counts_are_equal": ({3: "a5 0000 0000000000000004 0000000000000004 0000000000000001 01 0000000000000009"}, standing(9, 3), []),
    "least_value_delivered": ({11: "a5 0000000000000004 0001 02 0000 0000 0000000000000004 00 00 0001 0000 0000000000000002 01 01 8000000000000000"}, standing(4, -9223372036854775808), []),
    "value_delivered_before_an_update": ({4: closed(IMAGE[4]), 11: "a5 0000000000000004 0001 02 0000 0000 0000000000000004 01 01 0000000000000029 0001 0000 0000000000000002 01 01 0000000000000003"}, standing(42, 3), []),
    "base_in_its_second_cell": ({1: closed(IMAGE[1]), 2: "a5 0000000000000001"}, standing(4, 3), []),
    "greater_base_counts": ({2: "a5 0000000000000002"}, standing(4, 3, base=2), [8]),
    "base_behind_all_records": ({2: "a5 0000000000000005"}, standing(4, 0, base=5), [8, 9, 10, 11]),
    "greatest_base": ({2: "a5 8000000000000000", 4: closed(IMAGE[4])}, standing(0, 0, number=9223372036854775807, base=9223372036854775808), [8, 9, 10, 11]),
    "record_more": ({12: "a5 0000000000000005 0000 01 0000 0000 0000000000000005 00 00"}, standing(5, 3, number=5), []),
    "record_behind_an_empty_cell": ({13: "a5 0000000000000006 0000 01 0000 0000 0000000000000005 00 00"}, standing(4, 3), [13]),
    "garbage_behind_an_empty_cell": ({13: f"a5 {(CELL - 1) * 'a5'}"}, standing(4, 3), [13]),
    "record_of_an_earlier_round": ({12: "a5 000000000000000d 0000 01 0000 0000 0000000000000005 00 00"}, standing(4, 3), [12]),
    "record_gone_in_the_middle": ({4: closed(IMAGE[4]), 10: closed(IMAGE[10])}, standing(2, 1, number=2), [11]),
    "first_record_of_another_number": ({4: closed(IMAGE[4]), 8: "a5 0000000000000009 0000 01 0000 0000 0000000000000001 00 00"}, standing(0, 0, number=0), [8, 9, 10, 11]),
}

DROPPED = [f"open cell {cell} holds record {number}" for cell, number in {8: 1, 9: 2, 10: 3, 11: 4}.items()]
# What a start reports about them before it boots. A record below the base was dropped; each other full cell past the last record is in doubt.
NOTES = {
    "saved_as_often_as_there_were_records_before_the_base": ["open cell 8 holds record 1", "open cell 9 holds record 2"],
    "greater_base_counts": ["open cell 8 holds record 1"],
    "base_behind_all_records": DROPPED,
    # The atoms took part in nothing.
    "greatest_base": [*DROPPED, "doubt: 9223372036854775807 more interactions than the atoms took part in"],
    "record_behind_an_empty_cell": ["doubt: open cell 13 holds record 6"],
    "garbage_behind_an_empty_cell": ["doubt: open cell 13 holds no record"],
    "record_of_an_earlier_round": ["doubt: open cell 12 holds record 13"],
    "record_gone_in_the_middle": ["doubt: open cell 11 holds record 4"],
    "first_record_of_another_number": [f"doubt: open cell {cell} holds record {number}" for cell, number in {8: 9, 9: 2, 10: 3, 11: 4}.items()],
}

# Each with how many bytes the image has, those behind its own being zeros, and the refusal.
SIZES = {
    "no_byte": (0, WRONG_SIZE),
    "hundred_bytes": (100, WRONG_SIZE),
    "byte_less_than_a_cell": (CELL - 1, WRONG_SIZE),
    "identity_alone": (CELL, WRONG_SIZE),
    "cell_less": (14 * CELL, WRONG_SIZE),
    "byte_less": (15 * CELL - 1, WRONG_SIZE),
    "byte_more": (15 * CELL + 1, WRONG_SIZE),
    "cell_more": (16 * CELL, WRONG_SIZE),
}

# Each with the text and the fault.
TEXTS = {
    "no_line": (b"", "plant line 0: fault 14 NoAtom"),
    "place_before_its_atom": (b"place p", "plant line 1: fault 4 Misplaced"),
    "atom_of_a_name_that_is_taken": (b"atom A\natom A\n", "plant line 2: fault 6 Twice"),
    "atom_of_a_reserved_word": (b"atom to", "plant line 1: fault 5 BadName"),
    "connector_with_one_atom_twice": (PLANT.read_bytes() + b"connector two A.t A.t", "plant line 14: fault 11 SameAtom"),
    "line_feed_too_many": (1048577 * b"\n", "plant line 0: fault 2 TooLong"),
}
COMMANDS = ["check plant", "check --warn plant", "trace plant 0", "choices plant", "why plant", "draw plant", "format plant image --ring 8", "run plant image script", "recover plant image"]


def emptied(data, cells):
    """The image with the gates of these cells closed."""
    left = bytearray(data)
    for cell in cells:
        left[cell * CELL] = 0
    return bytes(left)


def images():
    """Each image by its name, and the status, the standard output, the standard error and the file behind `recover`."""
    for name, (changes, refusal) in REFUSED.items():
        yield name, image_of(changes), (1, "", f"image: refusal {refusal}\n", image_of(changes))
    for name, (changes, printed, cells) in TAKEN.items():
        yield name, image_of(changes), (0, printed, sample.text(NOTES.get(name, [])), emptied(image_of(changes), cells))
    for name, (size, refusal) in SIZES.items():
        data = image_of({})[:size].ljust(size, b"\0")
        yield name, data, (1, "", f"image: refusal {refusal}\n", data)
    for name, size in {"zeros": CELLS * CELL, "cell_of_zeros": CELL}.items():
        yield name, bytes(size), (1, "", f"image: refusal {NOT_FORMATTED}\n", bytes(size))


class Damaged(OnImage):
    """Each image and each text is a test."""

    def check_image(self, data, wanted):
        # The reader with which tests/random/images.py judges images is held to what was worked out by hand too.
        self.assertEqual(expected(self.plant, data), wanted, "the second reader")
        self.image.write_bytes(data)
        self.assertEqual((*self.answered("recover plant image"), self.image.read_bytes()), wanted)

    def check_text(self, text, fault):
        """Each command refuses the text, and makes and changes nothing."""
        (self.folder / "plant").write_bytes(text)
        wanted = 1, "", f"{fault}\n"
        for command in COMMANDS:
            self.assertEqual(self.ran(command), wanted, f"{command} without an image")
        self.assertEqual(self.ran("check -", text), wanted)
        self.assertFalse(self.image.exists(), "an image was made")
        self.image.write_bytes(FORMATTED)
        for command in COMMANDS[-3:]:
            self.assertEqual(self.ran(command), wanted, command)
            self.assertEqual(self.image.read_bytes(), FORMATTED, command)

    def check_spent(self):
        """Behind the record with the greatest number nothing is fired."""
        changes, printed, _ = TAKEN["greatest_base"]
        self.image.write_bytes(image_of(changes))
        wanted = f"refused 5 Spent\nflushed 9223372036854775807\n{printed}"
        self.assertEqual(self.ran("run plant image -", b"fire 0\nflush\n"), (0, wanted, ""))

    def check_written(self):
        """What the program writes is what was written by hand."""
        for words, script, wanted in (
            ("format plant image --ring 8", b"", FORMATTED),
            ("run plant image -", b"fire 0\nfire 1\nfire 0\nfire 1\nflush\nask A\nput A\n", image_of({})),
        ):
            self.assertEqual(self.ran(words, script)[0], 0)
            self.assertEqual(self.image.read_bytes().hex(" ", CELL).split(), wanted.hex(" ", CELL).split())


def suite(program, words):
    checks = {f"damaged/image_{name}": lambda self, data=data, wanted=wanted: self.check_image(data, wanted) for name, data, wanted in images()}
    checks |= {f"damaged/text_{name}": lambda self, text=text, fault=fault: self.check_text(text, fault) for name, (text, fault) in TEXTS.items()}
    checks |= {"damaged/image_written_by_the_program": Damaged.check_written, "damaged/image_with_no_number_left": Damaged.check_spent}
    return sample.suite(Damaged, program, checks, words)
