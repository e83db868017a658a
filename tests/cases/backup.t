`backup`: an image is copied, whole or not at all.

== base_gone
Cell 1 holds the base of a freshly formatted image.
$ format examples/sample.plant image --ring 8 > ignored
@ image has 00 at 1024
$ backup image copy
! image: refusal 5 Damaged(1)
? 1
++ copy absent

== cut_image
$ format examples/sample.plant image --ring 8 > ignored
@ image is 15359 bytes long
$ backup image copy
! image: refusal 4 WrongSize
? 1
++ copy absent

== file_is_there
$ format examples/sample.plant image --ring 8 > ignored
$ backup image copy
! file copy is there
? 3
-- copy
what was there
++ copy unchanged

== file_is_there_explained
$ format examples/sample.plant image --ring 8 > ignored
$ backup --explain image copy
!~ file copy is there
? 3
-- copy
what was there
++ copy unchanged

== first_state
$ format examples/sample.plant image --ring 8 > ignored
$ backup image copy
copied 15 front 0
$ recover examples/sample.plant copy
state A [s] n=0
state B [s] m=0
front 0 0 1

== folder_as_an_image
@ image is a folder
$ backup image copy
! file image
? 3
++ copy absent

== gap
A start refuses the image. The copy is made all the same, to look into it.
$ format examples/sample.plant image --ring 8 > ignored
$ run examples/sample.plant image script > ignored
@ image has 01 at 9239
$ backup image copy
copied 15 front 2
-- script
fire 0
fire 1
flush

== image_in_use
$ format examples/sample.plant image --ring 8 > ignored
@ image is in use
$ backup image copy
! file image in use
? 3
++ copy absent

== missing_image
$ backup image copy
! file image
? 3
++ copy absent

== missing_image_explained
$ backup --explain image copy
! file image
!   no such file or folder
? 3
++ copy absent

== never_formatted
@ image ends with 15360 zeros
$ backup image copy
! image: refusal 1 NotFormatted
? 1
++ copy absent

== no_folder_for_the_copy
$ format examples/sample.plant image --ring 8 > ignored
$ backup image none/copy
! file none/copy
? 3

== output_full
The copy is whole when its line can not be written.
$ format examples/sample.plant image --ring 8 > ignored
@ standard output full
$ backup image copy
? 3
$ recover examples/sample.plant copy
state A [s] n=0
state B [s] m=0
front 0 0 1

== pipe_as_an_image
It is not waited for.
@ image is a pipe
$ backup image copy
! file image
? 3
++ copy absent

== read_only_image
$ format examples/sample.plant image --ring 8 > ignored
@ image has the rights 444
$ backup image copy
copied 15 front 0
$ recover examples/sample.plant copy
state A [s] n=0
state B [s] m=0
front 0 0 1

== records
The copy goes on where the image stood, and the image is as it was.
$ format examples/sample.plant image --ring 8 > ignored
$ run examples/sample.plant image script > ignored
$ backup image copy
copied 15 front 2
$ run examples/sample.plant copy more
3 tick A.t/0
flushed 3
state A [s] n=3
state B [s] m=1
front 3 3 1
$ recover examples/sample.plant image
state A [s] n=2
state B [s] m=1
front 2 2 1
-- more
fire 0
flush
-- script
fire 0
fire 1
flush
fire 0

== shorter_than_a_cell
@ image ends with 1000 zeros
$ backup image copy
! image: refusal 4 WrongSize
? 1
++ copy absent

== trimmed
No record is live: the number is that before the base.
$ format examples/sample.plant image --ring 8 > ignored
$ run examples/sample.plant image script > ignored
$ backup image copy
copied 15 front 1
$ recover examples/sample.plant copy
state A [s] n=1
state B [s] m=0
front 1 1 2
-- script
fire 1
ask A
ask B
flush
put A
put B
trim
