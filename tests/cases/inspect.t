`inspect`: what is in an image, cell by cell, also in a damaged one. It writes nothing.

== another_plant
Atoms have no names by a plant for which the image was not made.
$ format examples/sample.plant image --ring 8 > ignored
$ inspect image examples/light.plant
image 9c7e1145c9ae08c423f0f7ca90e43310e0aedbd94cbdbfb825a0ddefb2081b48 ring 8 cells 15
base 1 last 0 live 0 free 8
atom 0 saved 0 at 0 behind 0 holds -
atom 1 saved 0 at 0 behind 0 holds -
held
refusal 3 OtherSystem: identity
? 1

== behind_a_run
$ format examples/sample.plant image --ring 8 > ignored
$ run examples/sample.plant image script > ignored
$ inspect image examples/sample.plant
image 9c7e1145c9ae08c423f0f7ca90e43310e0aedbd94cbdbfb825a0ddefb2081b48 ring 8 cells 15
base 2 last 3 live 2 free 6
atom A saved 3 at 3 behind 0 holds -
atom B saved 0 at 0 behind 1 holds 2
held B
boots to 3
-- script
fire 0
fire 1
fire 0
flush
ask A
put A
trim

== cut_image
$ format examples/sample.plant image --ring 8 > ignored
@ image is 15359 bytes long
$ inspect image examples/sample.plant
image 9c7e1145c9ae08c423f0f7ca90e43310e0aedbd94cbdbfb825a0ddefb2081b48 ring 8 cells 14
base 1 last 0 live 0 free 8
atom A saved 0 at 0 behind 0 holds -
atom B saved 0 at 0 behind 0 holds -
held
refusal 4 WrongSize: size
? 1

== damaged_record
Record 3 has no entry.
$ format examples/sample.plant image --ring 8 > ignored
$ run examples/sample.plant image script > ignored
@ image has 00 at 10251
$ inspect image examples/sample.plant
image 9c7e1145c9ae08c423f0f7ca90e43310e0aedbd94cbdbfb825a0ddefb2081b48 ring 8 cells 15
base 2 last 2 live 1 free 7
atom A saved 3 at 3 behind 0 holds -
atom B saved 0 at 0 behind 1 holds 2
held B
doubt: open cell 10 holds no record
refusal 5 Damaged(10): record 3
? 1
-- script
fire 0
fire 1
fire 0
flush
ask A
put A
trim

== damaged_slot
A marks two places in its second slot, and it has one.
$ format examples/sample.plant image --ring 8 > ignored
$ run examples/sample.plant image script > ignored
@ image has 03 at 4123
$ inspect image examples/sample.plant
image 9c7e1145c9ae08c423f0f7ca90e43310e0aedbd94cbdbfb825a0ddefb2081b48 ring 8 cells 15
base 2 last 3 live 2 free 6
atom A saved 3 at 3 behind 0 holds -
atom B saved 0 at 0 behind 1 holds 2
held B
refusal 5 Damaged(4): slot 1 of atom A
? 1
-- script
fire 0
fire 1
fire 0
flush
ask A
put A
trim

== damaged_slot_without_a_plant
Nobody can tell without the plant how many places an atom has.
$ format examples/sample.plant image --ring 8 > ignored
$ run examples/sample.plant image script > ignored
@ image has 03 at 4123
$ inspect image
image 9c7e1145c9ae08c423f0f7ca90e43310e0aedbd94cbdbfb825a0ddefb2081b48 ring 8 cells 15
base 2 last 3 live 2 free 6
atom 0 saved 3 at 3 behind 0 holds -
atom 1 saved 0 at 0 behind 1 holds 2
held 1
reads to 3
-- script
fire 0
fire 1
fire 0
flush
ask A
put A
trim

== decayed_base
The base of an image without a record reads 4.
$ format examples/sample.plant image --ring 8 > ignored
@ image has 04 at 1032
$ inspect image examples/sample.plant
image 9c7e1145c9ae08c423f0f7ca90e43310e0aedbd94cbdbfb825a0ddefb2081b48 ring 8 cells 15
base 4 last 3 live 0 free 8
atom A saved 0 at 0 behind 0 holds -
atom B saved 0 at 0 behind 0 holds -
held
doubt: 3 more interactions than the atoms took part in
boots to 3
? 1

== decayed_gate
The second of three acknowledged moves is lost: a boot goes back behind the first without a word.
$ format examples/sample.plant image --ring 8 > ignored
$ run examples/sample.plant image script > ignored
@ image has 00 at 9216
$ inspect image examples/sample.plant
image 9c7e1145c9ae08c423f0f7ca90e43310e0aedbd94cbdbfb825a0ddefb2081b48 ring 8 cells 15
base 1 last 1 live 1 free 7
atom A saved 0 at 0 behind 1 holds 1
atom B saved 0 at 0 behind 0 holds -
held A
doubt: open cell 10 holds record 3
boots to 1
? 1
-- script
fire 0
fire 1
fire 0
flush

== first_state
$ format examples/sample.plant image --ring 8 > ignored
$ inspect image examples/sample.plant
image 9c7e1145c9ae08c423f0f7ca90e43310e0aedbd94cbdbfb825a0ddefb2081b48 ring 8 cells 15
base 1 last 0 live 0 free 8
atom A saved 0 at 0 behind 0 holds -
atom B saved 0 at 0 behind 0 holds -
held
boots to 0

== folder_as_an_image
@ image is a folder
$ inspect image
! file image
? 3

== gap
B's only firing is its second, and its first is in no record.
$ format examples/sample.plant image --ring 8 > ignored
$ run examples/sample.plant image script > ignored
@ image has 02 at 9253
$ inspect image examples/sample.plant
image 9c7e1145c9ae08c423f0f7ca90e43310e0aedbd94cbdbfb825a0ddefb2081b48 ring 8 cells 15
base 2 last 3 live 2 free 6
atom A saved 3 at 3 behind 0 holds -
atom B saved 0 at 0 behind 1 holds 2
held B
refusal 6 Gap(1): atom B
? 1
-- script
fire 0
fire 1
fire 0
flush
ask A
put A
trim

== image_in_use
$ format examples/sample.plant image --ring 8 > ignored
@ image is in use
$ inspect image examples/sample.plant
! file image in use
? 3

== missing_image
$ inspect image
! file image
? 3

== missing_image_explained
$ inspect --explain image
! file image
!   no such file or folder
? 3

== missing_plant
$ format examples/sample.plant image --ring 8 > ignored
$ inspect image plant
! file plant
? 3

== no_byte
$ inspect image
image - ring - cells 0
base - last 0 live 0 free 0
held
refusal 4 WrongSize: size
? 1
-- image

== no_plant
$ format examples/sample.plant image --ring 8 > ignored
$ run examples/sample.plant image script > ignored
$ inspect image
image 9c7e1145c9ae08c423f0f7ca90e43310e0aedbd94cbdbfb825a0ddefb2081b48 ring 8 cells 15
base 2 last 3 live 2 free 6
atom 0 saved 3 at 3 behind 0 holds -
atom 1 saved 0 at 0 behind 1 holds 2
held 1
reads to 3
-- script
fire 0
fire 1
fire 0
flush
ask A
put A
trim

== no_plant_records_and_states
$ format examples/sample.plant image --ring 8 > ignored
$ run examples/sample.plant image script > ignored
$ inspect --records --states image
image 9c7e1145c9ae08c423f0f7ca90e43310e0aedbd94cbdbfb825a0ddefb2081b48 ring 8 cells 15
base 2 last 3 live 2 free 6
atom 0 saved 3 at 3 behind 0 holds -
atom 1 saved 0 at 0 behind 1 holds 2
held 1
2 1 0/0 1/0
3 0 0/0
slot 0 of atom 0 saved 0 at 0: marking 1 0
slot 1 of atom 0 saved 3 at 3: marking 1 3
slot 0 of atom 1 saved 0 at 0: marking 1 0
reads to 3
-- script
fire 0
fire 1
fire 0
flush
ask A
put A
trim

== output_full
$ format examples/sample.plant image --ring 8 > ignored
@ standard output full
$ inspect image examples/sample.plant
? 3

== pipe_as_an_image
@ image is a pipe
$ inspect image
! file image
? 3

== plant_on_the_standard_input
$ format examples/sample.plant image --ring 8 > ignored
$ inspect image -
< atom A
< place s init
< var n 0
< port t n
< trans t from s to s do n := + n 1
< atom B
< place s init
< var m 0
< port u m
< trans u from s to s
< connector tick A.t
< connector send A.t B.u
< move B.m := A.n
image 9c7e1145c9ae08c423f0f7ca90e43310e0aedbd94cbdbfb825a0ddefb2081b48 ring 8 cells 15
base 1 last 0 live 0 free 8
atom A saved 0 at 0 behind 0 holds -
atom B saved 0 at 0 behind 0 holds -
held
boots to 0

== plant_with_a_fault
$ format examples/sample.plant image --ring 8 > ignored
$ inspect image plant
! plant line 1: fault 5 BadName
? 1
-- plant
atom to

== read_only_image
$ format examples/sample.plant image --ring 8 > ignored
@ image has the rights 444
$ inspect image examples/sample.plant
image 9c7e1145c9ae08c423f0f7ca90e43310e0aedbd94cbdbfb825a0ddefb2081b48 ring 8 cells 15
base 1 last 0 live 0 free 8
atom A saved 0 at 0 behind 0 holds -
atom B saved 0 at 0 behind 0 holds -
held
boots to 0

== records_and_states
$ format examples/sample.plant image --ring 8 > ignored
$ run examples/sample.plant image script > ignored
$ inspect --records --states image examples/sample.plant
image 9c7e1145c9ae08c423f0f7ca90e43310e0aedbd94cbdbfb825a0ddefb2081b48 ring 8 cells 15
base 2 last 3 live 2 free 6
atom A saved 3 at 3 behind 0 holds -
atom B saved 0 at 0 behind 1 holds 2
held B
2 send A.t/0 B.u/0
3 tick A.t/0
slot 0 of atom A saved 0 at 0: state A [s] n=0
slot 1 of atom A saved 3 at 3: state A [s] n=3
slot 0 of atom B saved 0 at 0: state B [s] m=0
boots to 3
-- script
fire 0
fire 1
fire 0
flush
ask A
put A
trim

== state_saved_after_a_lost_record
B was saved after its one firing, in record 3, and the record before that is lost.
$ format examples/sample.plant image --ring 8 > ignored
$ run examples/sample.plant image script > ignored
@ image has 00 at 9216
$ inspect image examples/sample.plant
image 9c7e1145c9ae08c423f0f7ca90e43310e0aedbd94cbdbfb825a0ddefb2081b48 ring 8 cells 15
base 1 last 1 live 1 free 7
atom A saved 0 at 0 behind 1 holds 1
atom B saved 1 at 3 behind 0 holds -
held A
doubt: open cell 10 holds record 3
refusal 6 Gap(1): atom B
? 1
-- script
fire 0
fire 0
fire 1
ask B
flush
put B

== zeros
@ image is 2048 bytes long
$ inspect image examples/sample.plant
image - ring - cells 2
base - last 0 live 0 free 0
atom A saved - at - behind 0 holds -
atom B saved - at - behind 0 holds -
held
refusal 1 NotFormatted: identity
? 1
-- image
