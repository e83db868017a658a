`format`: an image is made, or emptied.

== device_as_an_image
$ format examples/sample.plant /dev/full --ring 8
! file /dev/full
? 3

== empty_file
$ format examples/sample.plant image
! image: refusal 4 WrongSize
? 1
-- image

== file_of_another_size
A file that is there is formatted only where it has the size of the image.
@ image ends with 15361 spaces
$ format examples/sample.plant image --ring 8
! image: refusal 4 WrongSize
? 1

== file_of_the_same_size
A file of 15 times 1,024 bytes is formatted, whatever it holds.
@ image ends with 15360 spaces
$ format examples/sample.plant image --ring 8
formatted 15

== folder_as_an_image
$ format examples/sample.plant examples
! file examples
? 3

== folder_that_is_not_there
$ format examples/sample.plant none/image
! file none/image
? 3

== folder_without_the_right_to_write
Nothing is made, so that an image of another size can be made there later.
@ folder is a folder
@ folder has the rights 555
$ format examples/sample.plant folder/image --ring 8
! file folder/image
? 3
$ format examples/sample.plant folder/image --ring 9
formatted 16

== image_in_use
An image that another program has open is told by a line of its own.
$ format examples/sample.plant image --ring 8 > ignored
@ image is in use
$ format examples/sample.plant image --ring 8
! file image in use
? 3

== image_of_a_larger_ring
$ format examples/sample.plant image --ring 9 > ignored
$ format examples/sample.plant image --ring 8
! image: refusal 4 WrongSize
? 1

== largest_ring
$ format examples/sample.plant image --ring 4096
formatted 4103

== leading_zeros_of_a_ring
$ format examples/sample.plant image --ring 0008
formatted 15

== link_to_nothing
Nothing is made where a link leads to, so that an image of another size can be made there.
@ link leads to none
$ format examples/sample.plant link --ring 8
! file link
? 3
$ format examples/sample.plant none --ring 9
formatted 16

== missing_plant
The plant is judged before the image.
$ format none.plant none/image
! file none.plant
? 3

== new_over_a_file
With --new a file that is there is refused, and holds what it held.
$ format examples/sample.plant image --new --ring 8
! file image is there
? 3
-- image
kept
++ image unchanged

== new_over_an_image
An image that is there is refused with --new, and the plant still stands in it.
$ format examples/sample.plant image --ring 8 > ignored
$ run examples/sample.plant image script > ignored
$ format examples/sample.plant image --new --ring 8
! file image is there
? 3
$ recover examples/sample.plant image
state A [s] n=1
state B [s] m=0
front 1 1 1
-- script
fire 0
flush

== new_where_nothing_is
With --new an image is made where nothing is there.
$ format examples/sample.plant image --new --ring 8
formatted 15

== one_atom
$ format plant image --ring 8
formatted 13
-- plant
atom A
place s init
port p
trans p from s to s
connector go A.p

== output_closed
@ standard output closed
$ format examples/sample.plant image
? 3

== output_full
@ standard output full
$ format examples/sample.plant image
? 3
$ recover examples/sample.plant image
state A [s] n=0
state B [s] m=0
front 0 0 1

== over_a_file_of_2_to_the_40_bytes
$ format examples/sample.plant image --ring 8 > ignored
@ image is 1099511627776 bytes long
$ format examples/sample.plant image
! image: refusal 4 WrongSize
? 1

== pipe_as_an_image
@ image is a pipe
$ format examples/sample.plant image
! file image
? 3

== plant_on_the_standard_input
$ format - image --ring 8
< atom A
< place s init
< port p
< trans p from s to s
< connector go A.p
formatted 13

== read_only_image
$ format examples/sample.plant image --ring 8 > ignored
$ run examples/sample.plant image script > ignored
@ image has the rights 444
$ format examples/sample.plant image --ring 8
! file image
? 3
$ recover examples/sample.plant image
state A [s] n=2
state B [s] m=1
front 2 2 1
-- script
fire 0
fire 1
flush

== refused_plant
$ format plant none/image
! plant line 3: fault 7 UnknownName
? 1
-- plant
atom A
place s
port p q

== sample
3 cells, 2 for each of two atoms, and 8 for records.
$ format examples/sample.plant image --ring 8
formatted 15

== usual_ring
Where no ring is named there is room for 64 records.
$ format examples/sample.plant image
formatted 71
