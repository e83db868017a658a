`run`: plants, images and outputs that can't be read or written.

== careful_of_an_image_in_doubt
Of three acknowledged records the second has lost its gate, so the third is past the end. With care the plant is not started.
$ format examples/sample.plant image --ring 8 > ignored
$ run examples/sample.plant image acknowledged > ignored
@ image has 00 at 9216
$ run --careful examples/sample.plant image script
! doubt: open cell 10 holds record 3
! image: doubted, and not started from: --careful
? 1
-- acknowledged
fire 0
fire 0
fire 1
flush
-- script
fire 0

== device_as_an_image
$ run examples/sample.plant /dev/full script
! file /dev/full
? 3
-- script
fire 0
fire 1
flush

== folder_as_an_image
$ run examples/sample.plant examples script
! file examples
? 3
-- script
fire 0
fire 1
flush

== hundred_bytes
@ image ends with 100 zeros
$ run examples/sample.plant image script
! image: refusal 4 WrongSize
? 1
-- script
fire 0
fire 1
flush

== image_in_use
$ format examples/sample.plant image --ring 8 > ignored
@ image is in use
$ run examples/sample.plant image script
! file image in use
? 3
-- script
flush

== image_of_2_to_the_40_bytes
$ format examples/sample.plant image --ring 8 > ignored
@ image is 1099511627776 bytes long
$ run examples/sample.plant image script
! image: refusal 4 WrongSize
? 1
-- script
fire 0
fire 1
flush

== image_of_another_plant
A text with one line feed more is another text.
$ format examples/sample.plant image --ring 8 > ignored
$ run plant image script
! image: refusal 3 OtherSystem
? 1
-- plant = examples/sample.plant and
\
-- script
fire 0

== image_of_the_first_layout
An image that an earlier build wrote, in cells of 512 bytes, with 10 firings flushed; it stays as it was.
$ run examples/crossing.plant image script
! image: refusal 2 OtherVersion
? 1
-- image = tests/fixtures/image_of_the_first_layout.image
-- script
fire 0
flush
++ image unchanged

== missing_image
$ run examples/sample.plant none.image script
! file none.image
? 3
-- script
flush

== missing_plant
$ run none.plant none.image none.script
! file none.plant
? 3

== output_full
$ format examples/sample.plant image --ring 8 > ignored
@ standard output full
$ run examples/sample.plant image script
? 3
$ recover examples/sample.plant image
state A [s] n=0
state B [s] m=0
front 0 0 1
-- script
fire 0
fire 1
flush
fire 0
fire 1
flush

== output_of_no_reader
The lines that were fired are handed on before the flush, which then is not made.
@ pipe is a pipe
$ format examples/sample.plant image --ring 8 > ignored
@ standard output of no reader
$ run examples/sample.plant image script
? 3
$ recover examples/sample.plant image
state A [s] n=0
state B [s] m=0
front 0 0 1
-- script
fire 0
fire 1
flush

== pipe_as_an_image
Nothing waits for a writer of the pipe.
@ image is a pipe
$ run examples/sample.plant image script
! file image
? 3
-- script
fire 0
fire 1
flush

== plant_on_the_standard_input
$ format plant image --ring 8 > ignored
$ run - image script
< atom A
< place s init
< var n 0
< port t n
< trans t from s to s do n := + n 1
< atom B
< place s init
< var m 0
< port u m
< trans u from s to s
< connector tick A.t
< connector send A.t B.u
< move B.m := A.n
1 send A.t/0 B.u/0
flushed 1
state A [s] n=1
state B [s] m=0
front 1 1 1
-- plant = examples/sample.plant
-- script
fire 1
flush

== read_only_image
$ format examples/sample.plant image --ring 8 > ignored
@ image has the rights 444
$ run examples/sample.plant image script
! file image
? 3
$ recover examples/sample.plant image
state A [s] n=0
state B [s] m=0
front 0 0 1
-- script
fire 0
fire 1
flush

== standard_input_closed
$ format examples/sample.plant image --ring 8 > ignored
@ standard input closed
$ run examples/sample.plant image -
! file -
? 3
$ recover examples/sample.plant image
state A [s] n=0
state B [s] m=0
front 0 0 1

== workers_on_a_refused_image
A text with one line feed more is another text.
$ format examples/sample.plant image --ring 8 > ignored
$ run plant image script --workers 2
! image: refusal 3 OtherSystem
? 1
-- plant = examples/sample.plant and
\
-- script
fire 0

== workers_with_a_full_output
What was flushed stays, also where it can't be told.
$ format examples/sample.plant image --ring 8 > ignored
@ standard output full
$ run examples/sample.plant image script --workers 1
? 3
$ recover examples/sample.plant image
state A [s] n=2
state B [s] m=1
front 2 2 1
-- script
fire 0
fire 1
flush
