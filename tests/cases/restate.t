`restate`: the state of an image as the text of a plant that begins there.

== another_plant
$ format examples/sample.plant image --ring 8 > ignored
$ restate other.plant image
! image: refusal 3 OtherSystem
? 1
-- other.plant = examples/sample.plant and
\

== ends_of_lines
Lines end by a carriage return and a line feed, and the last by neither.
$ format lamp.plant image --ring 8 > ignored
$ run lamp.plant image script > ignored
$ restate lamp.plant image
\# the lamp, and what counts\x0d
\atom Lamp\x0d
\place  off 	\x0d
\place on init\x0d
\var n   -3\x0d
\port switch\x0d
\trans switch from off to on do n := - n 10\x0d
\trans switch from on to off\x0d
\\x0d
\atom Idle\x0d
\place s init\x0d
\var m -0\x0d
\port p\x0d
\trans p from s to s\x0d
\#	switched\x0d
\connector switch Lamp.switch\x0d
connector other Idle.p
\ no line feed
-- lamp.plant
\# the lamp, and what counts\x0d
\atom Lamp\x0d
\place  off   init 	\x0d
\place on\x0d
\var n   007\x0d
\port switch\x0d
\trans switch from off to on do n := - n 10\x0d
\trans switch from on to off\x0d
\\x0d
\atom Idle\x0d
\place s init\x0d
\var m -0\x0d
\port p\x0d
\trans p from s to s\x0d
\#	switched\x0d
\connector switch Lamp.switch\x0d
connector other Idle.p
\ no line feed
-- script
fire switch Lamp.switch/0
flush

== first_state
$ format examples/sample.plant image --ring 8 > ignored
$ restate examples/sample.plant image
atom A
place s init
var n 0
port t n
trans t from s to s do n := + n 1
atom B
place s init
var m 0
port u m
trans u from s to s
connector tick A.t
connector send A.t B.u
move B.m := A.n

== image_in_use
$ format examples/sample.plant image --ring 8 > ignored
@ image is in use
$ restate examples/sample.plant image
! file image in use
? 3

== marks_and_values
A place is marked, another is not any more, and a value is below 0. The atom that did not move keeps its bytes.
$ format lamp.plant image --ring 8 > ignored
$ run lamp.plant image script > ignored
$ restate lamp.plant image
# the lamp, and what counts
atom Lamp
place  off 	
place on init
var n   -3
port switch
trans switch from off to on do n := - n 10
trans switch from on to off

atom Idle
place s init
var m -0
port p
trans p from s to s
#	switched
connector switch Lamp.switch
connector other Idle.p
-- lamp.plant
# the lamp, and what counts
atom Lamp
place  off   init 	
place on
var n   007
port switch
trans switch from off to on do n := - n 10
trans switch from on to off

atom Idle
place s init
var m -0
port p
trans p from s to s
#	switched
connector switch Lamp.switch
connector other Idle.p
-- script
fire switch Lamp.switch/0
flush

== missing_image
$ restate examples/sample.plant image
! file image
? 3

== not_ascii_comment
Bytes that a text may not hold can not stand in a plant, so there is none to restate.
$ format examples/sample.plant image --ring 8 > ignored
$ restate plant image
!~ plant line 14: fault 
? 1
-- plant = examples/sample.plant and
\# \xc3\xa9

== output_full
$ format examples/sample.plant image --ring 8 > ignored
@ standard output full
$ restate examples/sample.plant image
? 3

== plant_on_the_standard_input
$ format examples/sample.plant image --ring 8 > ignored
$ run examples/sample.plant image script > ignored
$ restate - image
< atom A
< place s init
< var n 0
< port t n
< trans t from s to s do n := + n 1
< atom B
< place s init
< var m 0
< port u m
< trans u from s to s
< connector tick A.t
< connector send A.t B.u
< move B.m := A.n
atom A
place s init
var n 1
port t n
trans t from s to s do n := + n 1
atom B
place s init
var m 0
port u m
trans u from s to s
connector tick A.t
connector send A.t B.u
move B.m := A.n
-- script
fire 0
flush

== sample
What is not acknowledged is not restated.
$ format examples/sample.plant image --ring 8 > ignored
$ run examples/sample.plant image script > ignored
$ restate examples/sample.plant image
atom A
place s init
var n 3
port t n
trans t from s to s do n := + n 1
atom B
place s init
var m 2
port u m
trans u from s to s
connector tick A.t
connector send A.t B.u
move B.m := A.n
-- script
fire 0
fire 0
fire 1
flush
fire 0

== too_long
The plant has as many bytes as a text may have, and its variable one digit more than at first.
@ long.plant ends with 1048488 line feeds
$ format long.plant image --ring 8 > ignored
$ run long.plant image script > ignored
$ restate long.plant image
! error: the restated text has more than 1048576 bytes
? 1
-- long.plant
atom A
place s init
var n 9
port t
trans t from s to s do n := + n 1
connector tick A.t
-- script
fire 0
flush
