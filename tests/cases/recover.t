`recover`: where the plant of an image is, and which images are refused.

== base_gone
Cell 1 holds the base of a freshly formatted image.
$ format examples/sample.plant image --ring 8 > ignored
@ image has 00 at 1024
$ recover examples/sample.plant image
! image: refusal 5 Damaged(1)
? 1

== careful_of_an_image_in_doubt
Of three acknowledged records the second has lost its gate, so the third is past the end. With care the plant is not started.
$ format examples/sample.plant image --ring 8 > ignored
$ run examples/sample.plant image acknowledged > ignored
@ image has 00 at 9216
$ recover --careful examples/sample.plant image
! doubt: open cell 10 holds record 3
! image: doubted, and not started from: --careful
? 1
-- acknowledged
fire 0
fire 0
fire 1
flush

== covered_record_dropped
$ format examples/sample.plant image --ring 8 > ignored
$ run examples/sample.plant image script > ignored
$ recover examples/sample.plant image
state A [s] n=4
state B [s] m=3
front 4 4 2
-- script
fire 0
fire 1
fire 0
fire 1
flush
ask A
put A
trim

== damaged_identity
The ring is at bytes 8 to 11 of the first body; no ring has 7 records.
$ format examples/sample.plant image --ring 8 > ignored
@ image has 00000007 at 9
$ recover examples/sample.plant image
! image: refusal 5 Damaged(0)
? 1

== device_as_an_image
$ recover examples/sample.plant /dev/full
! file /dev/full
? 3

== empty_path
$ recover examples/sample.plant ''
! file 
? 3

== file_with_a_byte_more
An image of 15 cells to which a byte was added.
$ format examples/sample.plant image --ring 8 > ignored
@ image has 00 at 15360
$ recover examples/sample.plant image
! image: refusal 4 WrongSize
? 1

== first_state
$ format examples/sample.plant image --ring 8 > ignored
$ recover examples/sample.plant image
state A [s] n=0
state B [s] m=0
front 0 0 1

== folder_as_an_image
$ recover examples/sample.plant examples
! file examples
? 3

== formatted_again
Formatting an image again begins anew.
$ format examples/sample.plant image --ring 8 > ignored
$ run examples/sample.plant image script > ignored
$ format examples/sample.plant image --ring 8 > ignored
$ recover examples/sample.plant image
state A [s] n=0
state B [s] m=0
front 0 0 1
-- script
fire 0
fire 1
flush
fire 0
fire 1
flush

== gap
Record 2 is in cell 3 + 2 * 2 + 2 = 9; the low byte of the participation number of its first entry is byte 22 of the body.
$ format examples/sample.plant image --ring 8 > ignored
$ run examples/sample.plant image script > ignored
@ image has 01 at 9239
$ recover examples/sample.plant image
! image: refusal 6 Gap(0)
? 1
-- script
fire 0
fire 1
flush

== hundred_bytes
@ image ends with 100 zeros
$ recover examples/sample.plant image
! image: refusal 4 WrongSize
? 1

== image_in_a_folder_of_no_rights
@ folder is a folder
$ format examples/sample.plant folder/image --ring 8 > ignored
@ folder has the rights 000
$ recover examples/sample.plant folder/image
! file folder/image
? 3
$ recover examples/sample.plant folder/image
state A [s] n=0
state B [s] m=0
front 0 0 1

== image_in_use
$ format examples/sample.plant image --ring 8 > ignored
@ image is in use
$ recover examples/sample.plant image
! file image in use
? 3

== image_of_2_to_the_40_bytes
$ format examples/sample.plant image --ring 8 > ignored
@ image is 1099511627776 bytes long
$ recover examples/sample.plant image
! image: refusal 4 WrongSize
? 1

== image_of_no_rights
$ format examples/sample.plant image --ring 8 > ignored
@ image has the rights 000
$ recover examples/sample.plant image
! file image
? 3

== image_of_the_first_layout_formatted
An image as an earlier build formatted it, in cells of 512 bytes.
$ recover examples/sample.plant image
! image: refusal 2 OtherVersion
? 1
-- image = tests/fixtures/first_layout_formatted.image

== image_of_the_first_layout_run
An image that an earlier build wrote, behind tick, send, tick, send, a flush and a save of A.
$ recover examples/sample.plant image
! image: refusal 2 OtherVersion
? 1
-- image = tests/fixtures/first_layout_run.image

== image_of_the_first_layout_trimmed
The same behind a save of B, a trim, a send, a flush and a tick.
$ recover examples/sample.plant image
! image: refusal 2 OtherVersion
? 1
-- image = tests/fixtures/first_layout_trimmed.image

== last_record_gone
Record 2 is in cell 9. Where its gate is closed the image stands for what was before it.
$ format examples/sample.plant image --ring 8 > ignored
$ run examples/sample.plant image script > ignored
@ image has 00 at 9216
$ recover examples/sample.plant image
state A [s] n=1
state B [s] m=0
front 1 1 1
-- script
fire 0
fire 1
flush

== link_to_an_image
@ link leads to image
$ format examples/sample.plant image --ring 8 > ignored
$ recover examples/sample.plant link
state A [s] n=0
state B [s] m=0
front 0 0 1

== link_to_itself
@ link leads to link
$ recover examples/sample.plant link
! file link
? 3

== longest_path
A path has at most 4,095 bytes.
$= tests/fixtures/longest_path.words
!= tests/fixtures/longest_path.stderr
? 3

== missing_image
$ recover examples/sample.plant none.image
! file none.image
? 3

== missing_plant
$ recover none.plant none.image
! file none.plant
? 3

== not_enabled
Record 1 is in cell 3 + 2 + 1 = 6; the low byte of the transition of its entry is byte 14 of the body. Transition 1 is not offered at first.
$ format plant image --ring 8 > ignored
$ run plant image script > ignored
@ image has 01 at 6159
$ recover plant image
! image: refusal 7 NotEnabled(1, 0)
? 1
-- plant
atom A
place a init
place b
port p
trans p from a to b
trans p from b to a
connector go A.p
-- script
fire 0
flush

== one_atom_saved
A is saved behind four firings, and B behind none: B gets the values that its records hold, and not what A has now.
$ format examples/sample.plant image --ring 8 > ignored
$ run examples/sample.plant image script > ignored
$ recover examples/sample.plant image
state A [s] n=4
state B [s] m=3
front 4 4 1
-- script
fire 0
fire 1
fire 0
fire 1
flush
ask A
put A

== other_plant
$ format examples/sample.plant image --ring 8 > ignored
$ recover plant image
! image: refusal 3 OtherSystem
? 1
-- plant = examples/sample.plant and
\

== other_version
The version is at bytes 4 and 5 of the first body.
$ format examples/sample.plant image --ring 8 > ignored
@ image has 0003 at 5
$ recover examples/sample.plant image
! image: refusal 2 OtherVersion
? 1

== output_full
$ format examples/sample.plant image --ring 8 > ignored
@ standard output full
$ recover examples/sample.plant image
? 3

== path_through_a_file
$ recover examples/sample.plant plant/image
! file plant/image
? 3
-- plant

== pipe_as_an_image
Nothing waits for a writer of the pipe.
@ image is a pipe
$ recover examples/sample.plant image
! file image
? 3

== plant_on_the_standard_input
$ format plant image --ring 8 > ignored
$ recover - image
< atom A
< place s init
< var n 0
< port t n
< trans t from s to s do n := + n 1
< atom B
< place s init
< var m 0
< port u m
< trans u from s to s
< connector tick A.t
< connector send A.t B.u
< move B.m := A.n
state A [s] n=0
state B [s] m=0
front 0 0 1
-- plant = examples/sample.plant

== read_only_image
$ format examples/sample.plant image --ring 8 > ignored
@ image has the rights 444
$ recover examples/sample.plant image
! file image
? 3
$ recover examples/sample.plant image
state A [s] n=0
state B [s] m=0
front 0 0 1

== sample
$ format examples/sample.plant image --ring 8 > ignored
$ run examples/sample.plant image script > ignored
$ recover examples/sample.plant image
state A [s] n=4
state B [s] m=3
front 4 4 1
-- script
fire 0
fire 1
flush
fire 0
fire 1
flush

== slot_gone
The slots of atom 1 are cells 5 and 6, of which 5 is full.
$ format examples/sample.plant image --ring 8 > ignored
@ image has 00 at 5120
$ recover examples/sample.plant image
! image: refusal 5 Damaged(5)
? 1

== start_from_an_image_in_doubt
Without care what a start empties is told, and each doubt; the plant is started.
$ format examples/sample.plant image --ring 8 > ignored
$ run examples/sample.plant image acknowledged > ignored
@ image has 00 at 9216
$ recover examples/sample.plant image
state A [s] n=1
state B [s] m=0
front 1 1 1
! doubt: open cell 10 holds record 3
$ recover examples/sample.plant image
state A [s] n=1
state B [s] m=0
front 1 1 1
-- acknowledged
fire 0
fire 0
fire 1
flush

== state_saved_after_a_lost_record
B was saved after its one firing, in record 3. Record 2 has lost its gate, so nothing shows that B took part: a start would go where the plant never was.
$ format examples/sample.plant image --ring 8 > ignored
$ run examples/sample.plant image script > ignored
@ image has 00 at 9216
$ recover examples/sample.plant image
! image: refusal 6 Gap(1)
? 1
-- script
fire 0
fire 0
fire 1
ask B
flush
put B

== twice
$ format examples/sample.plant image --ring 8 > ignored
$ run examples/sample.plant image script > ignored
$ recover examples/sample.plant image > ignored
$ recover examples/sample.plant image
state A [s] n=4
state B [s] m=3
front 4 4 1
-- script
fire 0
fire 1
flush
fire 0
fire 1
flush

== unsaved_at_the_end
What was fired behind the last save is gone.
$ format examples/sample.plant image --ring 8 > ignored
$ run examples/sample.plant image script > ignored
$ recover examples/sample.plant image
state A [s] n=2
state B [s] m=1
front 2 2 1
-- script
fire 0
fire 1
flush
fire 0
fire 1

== zeros
@ image ends with 15360 zeros
$ recover examples/sample.plant image
! image: refusal 1 NotFormatted
? 1
