`run`: the lines of a script, and those that are none; picks that are no choice.

== ask_of_an_atom_that_is_away
The state of an atom that is away is not saved before it is back.
$ format examples/sample.plant image --ring 8 > ignored
$ run examples/sample.plant image script
1 tick A.t/0 begun
refused 6 Away(0)
back A
asked A 1
state A [s] n=1
state B [s] m=0
front 1 0 1
-- script
begin 0
ask A
back A
ask A

== ask_of_an_unknown_atom
$ format examples/sample.plant image --ring 8 > ignored
$ run examples/sample.plant image script
! script line 2
? 1
-- script
flush
ask C

== ask_without_an_atom
$ format examples/sample.plant image --ring 8 > ignored
$ run examples/sample.plant image script
! script line 2
? 1
-- script
flush
ask

== back_of_an_unknown_atom
$ format examples/sample.plant image --ring 8 > ignored
$ run examples/sample.plant image script
! script line 2
? 1
-- script
flush
back C

== back_without_an_atom
$ format examples/sample.plant image --ring 8 > ignored
$ run examples/sample.plant image script
! script line 2
? 1
-- script
flush
back

== begin_of_a_name
$ format examples/sample.plant image --ring 8 > ignored
$ run examples/sample.plant image script
! script line 2
? 1
-- script
flush
begin A

== begin_without_a_pick
$ format examples/sample.plant image --ring 8 > ignored
$ run examples/sample.plant image script
! script line 2
? 1
-- script
flush
begin

== blanks_and_empty_lines
$ format examples/sample.plant image --ring 8 > ignored
$ run examples/sample.plant image script
1 tick A.t/0
flushed 1
state A [s] n=1
state B [s] m=0
front 1 1 1
-- script

  	
	fire   0  

flush	

== choice_by_its_name
$ format examples/sample.plant image --ring 8 > ignored
$ run examples/sample.plant image script
1 send A.t/0 B.u/0
2 tick A.t/0
flushed 2
state A [s] n=2
state B [s] m=0
front 2 2 1
-- script
fire send A.t/0 B.u/0
fire  tick	A.t/0
flush

== choice_that_is_none
$ format examples/sample.plant image --ring 8 > ignored
$ run examples/sample.plant image script
! script line 2
? 1
-- script
fire tick A.t/0
fire send A.t/0

== choice_that_is_not_there
$ format examples/crossing.plant image --ring 8 > ignored
$ run examples/crossing.plant image script
refused 12 NotNow
1 approach_north North.approach/0 Supervisor.warn/0
state North [near] trips=0
state South [away] trips=0
state Barrier [up]
state Supervisor [warned]
front 1 0 1
-- script
fire enter_north North.enter/1
fire approach_north North.approach/0 Supervisor.warn/0

== comment
A script that is refused is told by its line, and nothing is fired.
$ format examples/sample.plant image --ring 8 > ignored
$ run examples/sample.plant image script
! script line 1
? 1
-- script
# first
fire 0

== event_in_capitals
A script that is refused is told by its line, and nothing is fired.
$ format examples/sample.plant image --ring 8 > ignored
$ run examples/sample.plant image script
! script line 1
? 1
-- script
FIRE 0

== fire_of_a_minus
A script that is refused is told by its line, and nothing is fired.
$ format examples/sample.plant image --ring 8 > ignored
$ run examples/sample.plant image script
! script line 1
? 1
-- script
fire -1

== fire_of_letters
A script that is refused is told by its line, and nothing is fired.
$ format examples/sample.plant image --ring 8 > ignored
$ run examples/sample.plant image script
! script line 1
? 1
-- script
fire x

== fire_of_two_picks
A script that is refused is told by its line, and nothing is fired.
$ format examples/sample.plant image --ring 8 > ignored
$ run examples/sample.plant image script
! script line 2
? 1
-- script
flush
fire 0 1

== fire_past_64_bits
A script that is refused is told by its line, and nothing is fired.
$ format examples/sample.plant image --ring 8 > ignored
$ run examples/sample.plant image script
! script line 3
? 1
-- script
fire 0

fire 18446744073709551616

== fire_without_a_pick
A script that is refused is told by its line, and nothing is fired.
$ format examples/sample.plant image --ring 8 > ignored
$ run examples/sample.plant image script
! script line 1
? 1
-- script
fire

== flush_with_a_word
A script that is refused is told by its line, and nothing is fired.
$ format examples/sample.plant image --ring 8 > ignored
$ run examples/sample.plant image script
! script line 1
? 1
-- script
flush 1

== folder_as_a_script
$ run examples/sample.plant none.image examples
! file examples
? 3

== greatest_pick
18446744073709551615 is odd, and takes the second of two choices.
$ format examples/sample.plant image --ring 8 > ignored
$ run examples/sample.plant image script
1 send A.t/0 B.u/0
state A [s] n=1
state B [s] m=0
front 1 0 1
-- script
fire 18446744073709551615

== letter_outside_ascii
A script that is refused is told by its line, and nothing is fired.
$ format examples/sample.plant image --ring 8 > ignored
$ run examples/sample.plant image script
! script line 2
? 1
-- script
fire 0
\flush\xc3\xa9

== longest_script
@ script ends with 1048576 line feeds
$ format examples/sample.plant image --ring 8 > ignored
$ run examples/sample.plant image script
state A [s] n=0
state B [s] m=0
front 0 0 1

== missing_script
$ run examples/sample.plant none.image none.script
! file none.script
? 3

== nothing_asked
$ format examples/sample.plant image --ring 8 > ignored
$ run examples/sample.plant image script
state A [s] n=0
state B [s] m=0
front 0 0 1
-- script

== put_of_two_atoms
$ format examples/sample.plant image --ring 8 > ignored
$ run examples/sample.plant image script
! script line 2
? 1
-- script
flush
put A B

== refused_plant_before_the_script
The plant is judged before the script.
$ run plant none.image none.script
! plant line 3: fault 7 UnknownName
? 1
-- plant
atom A
place s
port p q

== refused_script_before_the_image
The script is judged before the image.
$ run examples/sample.plant none.image script
! script line 1
? 1
-- script
stop

== script_of_no_rights
$ format examples/sample.plant image --ring 8 > ignored
@ script has the rights 000
$ run examples/sample.plant image script
! file script
? 3
-- script
fire 0
fire 1
flush

== script_on_the_standard_input
$ format examples/sample.plant image --ring 8 > ignored
$ run examples/sample.plant image -
< fire 0
< fire 1
< flush
< fire 0
< fire 1
< flush
1 tick A.t/0
2 send A.t/0 B.u/0
flushed 2
3 tick A.t/0
4 send A.t/0 B.u/0
flushed 4
state A [s] n=4
state B [s] m=3
front 4 4 1

== script_too_long
A script has at most 1,048,576 bytes.
@ script ends with 1048577 line feeds
$ format examples/sample.plant image --ring 8 > ignored
$ run examples/sample.plant image script
! script line 0
? 1

== script_without_a_line_end
$ format examples/sample.plant image --ring 8 > ignored
$ run examples/sample.plant image script
1 tick A.t/0
2 send A.t/0 B.u/0
flushed 2
state A [s] n=2
state B [s] m=1
front 2 2 1
-- script
fire 0
fire 1
flush
\ no line feed

== strict
$ format examples/sample.plant image --ring 8 > ignored
$ run examples/sample.plant image script --strict
1 tick A.t/0
flushed 1
state A [s] n=1
state B [s] m=0
front 1 1 1
-- script
fire 0
flush

== strict_ends_at_a_refusal
$ format examples/sample.plant image --ring 8 > ignored
$ run examples/sample.plant image script --strict
1 tick A.t/0
refused 9 NothingNew
state A [s] n=1
state B [s] m=0
front 1 0 1
! error: script:4: refused 9 NothingNew
? 1
-- script

fire 0
 
trim
fire 0

== strict_pick_past_the_choices
$ format examples/sample.plant image --ring 8 > ignored
$ run examples/sample.plant image script --strict
1 send A.t/0 B.u/0
refused 12 NotNow
state A [s] n=1
state B [s] m=0
front 1 0 1
! error: script:2: refused 12 NotNow
? 1
-- script
fire 1
fire 2
fire 0

== strict_refusal_of_an_atom
$ format examples/sample.plant image --ring 8 > ignored
$ run examples/sample.plant image - --strict
< begin 1
< ask B
1 send A.t/0 B.u/0 begun
refused 6 Away(1)
state A [s] n=1
state B [s] m=0
front 1 0 1
! error: -:2: refused 6 Away(1)
? 1

== trim_with_a_word
$ format examples/sample.plant image --ring 8 > ignored
$ run examples/sample.plant image script
! script line 1
? 1
-- script
trim 2

== unknown_event
A script that is refused is told by its line, and nothing is fired.
$ format examples/sample.plant image --ring 8 > ignored
$ run examples/sample.plant image script
! script line 2
? 1
-- script
fire 0
store
