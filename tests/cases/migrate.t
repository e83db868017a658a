`migrate`: an image of the first layout is brought over to a new one. The old one stays as it is.

== formatted
An image as an earlier build formatted it: no interaction was fired. The old image stays as it is.
$ migrate examples/sample.plant image new --ring 8
migrated 0
$ recover examples/sample.plant new
state A [s] n=0
state B [s] m=0
front 0 0 1
-- image = tests/fixtures/first_layout_formatted.image
++ image unchanged

== image_of_today
An image that is not of the first layout stays as it is, and goes on.
$ format examples/sample.plant image --ring 8 > ignored
$ migrate examples/sample.plant image new --ring 8
! image: refusal 2 OtherVersion
? 1
$ recover examples/sample.plant image
state A [s] n=0
state B [s] m=0
front 0 0 1

== image_of_today_explained
$ format examples/sample.plant image --ring 8 > ignored
$ migrate --explain examples/sample.plant image new --ring 8
! image: refusal 2 OtherVersion
!   the old image is of no earlier version: go on with it as it is, or with the later version that formatted it
? 1

== missing_image
The old image is opened first: no new one is made.
$ migrate examples/sample.plant image new --ring 8
! file image
? 3
++ new absent

== new_file_of_another_size
A file that is there must have the size of the new image.
$ migrate examples/sample.plant image new --ring 8
! new: refusal 2 NewSize
? 1
-- image = tests/fixtures/first_layout_run.image
-- new = tests/fixtures/first_layout_run.image
++ image unchanged
++ new unchanged

== new_file_of_another_size_explained
$ migrate examples/sample.plant image new --ring 8 --explain
! new: refusal 2 NewSize
!   the new file is there already, and has not the size that the plant and --ring ask for: name a file that is not there
!   the file has 7680 bytes, the new image 15360
? 1
-- image = tests/fixtures/first_layout_run.image
-- new = tests/fixtures/first_layout_run.image
++ image unchanged
++ new unchanged

== new_image_in_a_missing_folder
$ migrate examples/sample.plant image folder/new --ring 8
! file folder/new
? 3
-- image = tests/fixtures/first_layout_run.image
++ image unchanged

== new_image_in_use
$ format examples/sample.plant new --ring 8 > ignored
@ new is in use
$ migrate examples/sample.plant image new --ring 8
! file new in use
? 3
-- image = tests/fixtures/first_layout_run.image
++ image unchanged

== old_image_in_use
@ image is in use
$ migrate examples/sample.plant image new --ring 8
! file image in use
? 3
-- image = tests/fixtures/first_layout_run.image
++ image unchanged
++ new absent

== other_plant
The image is of the sample, and the plant has another text.
$ migrate plant image new --ring 8
! image: refusal 3 OtherSystem
? 1
-- image = tests/fixtures/first_layout_run.image
-- plant = examples/sample.plant and
\
++ image unchanged

== output_full
The new image is made, also where its line could not be printed.
@ standard output full
$ migrate examples/sample.plant image new --ring 8
? 3
$ recover examples/sample.plant new
state A [s] n=4
state B [s] m=3
front 4 4 5
-- image = tests/fixtures/first_layout_run.image
++ image unchanged

== over_itself
The file is open as the old image, so that it is not opened as the new one, by another path.
$ migrate examples/sample.plant image ./image --ring 8
! file ./image in use
? 3
-- image = tests/fixtures/first_layout_run.image
++ image unchanged

== run
Behind tick, send, tick, send, a flush and a save of A. The new ring is longer, and has no record: the first would be 5.
$ migrate examples/sample.plant image new
migrated 4
$ recover examples/sample.plant new
state A [s] n=4
state B [s] m=3
front 4 4 5
-- image = tests/fixtures/first_layout_run.image
++ image unchanged

== trimmed
The same behind a save of B, a trim, a send, a flush and a tick, which was never saved. The run goes on in the new image.
$ migrate examples/sample.plant image new --ring 8
migrated 5
$ recover examples/sample.plant new
state A [s] n=5
state B [s] m=4
front 5 5 6
$ run examples/sample.plant new script
6 send A.t/0 B.u/0
flushed 6
state A [s] n=6
state B [s] m=5
front 6 6 6
-- image = tests/fixtures/first_layout_trimmed.image
-- script
fire 1
flush
++ image unchanged

== twice
A new image that is there is made again, and loses what was fired since.
$ migrate examples/sample.plant image new --ring 8 > ignored
$ run examples/sample.plant new script > ignored
$ migrate examples/sample.plant image new --ring 8
migrated 4
$ recover examples/sample.plant new
state A [s] n=4
state B [s] m=3
front 4 4 5
-- image = tests/fixtures/first_layout_run.image
-- script
fire 1
flush

== zeros
@ image ends with 7680 zeros
$ migrate examples/sample.plant image new --ring 8
! image: refusal 1 NotFormatted
? 1
