`trace --until` and `--never`: a run that ends where something holds.

== bad_watch_and_missing_picks
What a run is watched for is judged before the file of picks is opened.
$ trace examples/sample.plant --picks p.txt --until A
! error: '--until A': a name is of no variable, which is written ATOM.VAR, and a place is written at ATOM PLACE
? 2

== bad_watch_and_older_saved_picks
What is saved already stays as it is.
$ trace examples/sample.plant --never A --save-picks run.txt 0
! error: '--never A': a name is of no variable, which is written ATOM.VAR, and a place is written at ATOM PLACE
? 2
-- run.txt
tick A.t/0
++ run.txt unchanged

== bad_watch_before_a_pick_that_is_refused
$ trace examples/sample.plant --strict --never A 7
! error: '--never A': a name is of no variable, which is written ATOM.VAR, and a place is written at ATOM PLACE
? 2

== bad_watch_of_a_refused_plant
$ trace plant --never A
! plant line 2: fault 6 Twice
? 1
-- plant
atom A
atom A

== first_of_several_that_hold
Both hold after the second move. What the words name first is told, and it does not have to be kept from.
$ trace examples/sample.plant --until '== A.n 2' --never '== B.m 1' 0 1 0 1
1 tick A.t/0
2 send A.t/0 B.u/0
state A [s] n=2
state B [s] m=1
reached 2 by 1

== first_of_several_that_hold_the_other_way_round
$ trace examples/sample.plant --never '== B.m 1' --until '== A.n 2' 0 1 0 1
1 tick A.t/0
2 send A.t/0 B.u/0
state A [s] n=2
state B [s] m=1
reached 2 by 1
? 1

== never_a_place_without_another
The second push puts the lamp out while the button is down.
$ trace examples/light.plant --never '&& at Button down ! at Light lit' 0 0 0 0 0 0
1 push Button.push/0 Light.switch/0 Counter.count/0
2 release Button.release/1
3 push Button.push/0 Light.switch/1 Counter.count/0
state Button [down]
state Light [dark]
state Counter [counting] pushes=2
reached 3
? 1

== never_held
The run ends in the state after the third move, in which A has counted to 3.
$ trace examples/sample.plant --never '== A.n 3' 0 1 0 1
1 tick A.t/0
2 send A.t/0 B.u/0
3 tick A.t/0
state A [s] n=3
state B [s] m=1
reached 3
? 1

== never_held_at_the_start_without_picks
$ trace examples/sample.plant --never '== A.n 0'
state A [s] n=0
state B [s] m=0
reached 0
? 1

== never_held_to_a_full_output
The output is lost, so the status is that of a failure and not that of what must not hold.
@ standard output full
$ trace examples/sample.plant --never '== A.n 3' 0 1 0 1
? 3

== never_not_held
B never remembers more than A has counted.
$ trace examples/sample.plant --never '< A.n B.m' 0 1 0 1
1 tick A.t/0
2 send A.t/0 B.u/0
3 tick A.t/0
4 send A.t/0 B.u/0
state A [s] n=4
state B [s] m=3

== never_of_64_words
63 times not 0 is 1.
$ trace examples/sample.plant --never '! ! ! ! ! ! ! ! ! ! ! ! ! ! ! ! ! ! ! ! ! ! ! ! ! ! ! ! ! ! ! ! ! ! ! ! ! ! ! ! ! ! ! ! ! ! ! ! ! ! ! ! ! ! ! ! ! ! ! ! ! ! ! A.n' 0 1 0 1
state A [s] n=0
state B [s] m=0
reached 0
? 1

== never_of_65_words
$ trace examples/sample.plant --never '! ! ! ! ! ! ! ! ! ! ! ! ! ! ! ! ! ! ! ! ! ! ! ! ! ! ! ! ! ! ! ! ! ! ! ! ! ! ! ! ! ! ! ! ! ! ! ! ! ! ! ! ! ! ! ! ! ! ! ! ! ! ! ! A.n' 0 1 0 1
! error: '--never ! ! ! ! ! ! ! ! ! ! ! ! ! ! ! ! ! ! ! ! ! ! ! ! ! ! ! ! ! ! ! ! ! ! ! ! ! ! ! ! ! ! ! ! ! ! ! ! ! ! ! ! ! ! ! ! ! ! ! ! ! ! ! ! A.n': it has more than 64 words
? 2

== never_of_a_byte_that_is_not_ascii
$ trace examples/sample.plant --never $'== A.n \xc3\xa9' 0 1 0 1
! error: '--never == A.n \xc3\xa9': a byte is no printed ASCII character
? 2

== never_of_a_variable_without_its_atom
$ trace examples/sample.plant --never '== n 3' 0 1 0 1
! error: '--never == n 3': a name is of no variable, which is written ATOM.VAR, and a place is written at ATOM PLACE
? 2

== never_of_an_unknown_atom
$ trace examples/sample.plant --never '== C.n 3' 0 1 0 1
! error: '--never == C.n 3': a name is of no variable, which is written ATOM.VAR, and a place is written at ATOM PLACE
? 2

== never_of_an_unknown_operator
$ trace examples/sample.plant --never '> A.n 3' 0 1 0 1
! error: '--never > A.n 3': an operand is missing, a place is unknown, or a word is no operator, number or name
? 2

== never_of_an_unknown_variable
$ trace examples/sample.plant --never '== A.m 3' 0 1 0 1
! error: '--never == A.m 3': a name is of no variable, which is written ATOM.VAR, and a place is written at ATOM PLACE
? 2

== never_of_no_words
$ trace examples/sample.plant --never '' 0 1 0 1
! error: '--never ': an operand is missing, a place is unknown, or a word is no operator, number or name
? 2

== never_stuck
$ trace examples/light.plant --never stuck 0 0 0 0 0 0 0 0 0
1 push Button.push/0 Light.switch/0 Counter.count/0
2 release Button.release/1
3 push Button.push/0 Light.switch/1 Counter.count/0
4 release Button.release/1
5 push Button.push/0 Light.switch/0 Counter.count/0
6 release Button.release/1
stuck
state Button [up]
state Light [lit]
state Counter [counting] pushes=3
reached 6
? 1

== never_stuck_in_a_run_that_goes_on
$ trace examples/light.plant --never stuck 0 0 0 0 0
1 push Button.push/0 Light.switch/0 Counter.count/0
2 release Button.release/1
3 push Button.push/0 Light.switch/1 Counter.count/0
4 release Button.release/1
5 push Button.push/0 Light.switch/0 Counter.count/0
state Button [down]
state Light [lit]
state Counter [counting] pushes=3

== never_stuck_of_a_plant_without_connectors
$ trace plant --never stuck
stuck
state A [p]
reached 0
? 1
-- plant
atom A
place p init

== never_stuck_where_no_pick_is_left
The state after the last pick is judged too, and the run tells that it is stuck, as one with a pick more would.
$ trace examples/light.plant --never stuck 0 0 0 0 0 0
1 push Button.push/0 Light.switch/0 Counter.count/0
2 release Button.release/1
3 push Button.push/0 Light.switch/1 Counter.count/0
4 release Button.release/1
5 push Button.push/0 Light.switch/0 Counter.count/0
6 release Button.release/1
stuck
state Button [up]
state Light [lit]
state Counter [counting] pushes=3
reached 6
? 1

== never_stuck_with_a_word_left_over
$ trace examples/sample.plant --never 'stuck A.n' 0 1 0 1
! error: '--never stuck A.n': a word stands behind its end
? 2

== never_without_an_operand
$ trace examples/sample.plant --never '< A.n' 0 1 0 1
! error: '--never < A.n': an operand is missing, a place is unknown, or a word is no operator, number or name
? 2

== second_watch_of_an_unknown_variable
The first that can't be read is told.
$ trace examples/sample.plant --never stuck --until '== B.n 1' --never nothing 0 1 0 1
! error: '--until == B.n 1': a name is of no variable, which is written ATOM.VAR, and a place is written at ATOM PLACE
? 2

== several_things_that_never_come
$ trace examples/sample.plant --never '< A.n 0' --never stuck 0
1 tick A.t/0
state A [s] n=1
state B [s] m=0

== until_a_number_past_64_bits
$ trace examples/sample.plant --until '== A.n 9223372036854775808' 0 1 0 1
! error: '--until == A.n 9223372036854775808': a number is not within 64 bits
? 2

== until_a_place_is_marked
$ trace examples/light.plant --until 'at Light lit' 0 0 0 0 0 0
1 push Button.push/0 Light.switch/0 Counter.count/0
state Button [down]
state Light [lit]
state Counter [counting] pushes=1
reached 1

== until_a_place_of_an_unknown_atom_is_marked
$ trace examples/sample.plant --until '! at C s' 0 1 0 1
! error: '--until ! at C s': an operand is missing, a place is unknown, or a word is no operator, number or name
? 2

== until_a_sum_of_places
A place that is marked is 1, and one that is not is 0.
$ trace examples/light.plant --until '== 3 + + at Button up at Light lit at Counter counting' 0 0 0 0 0 0
1 push Button.push/0 Light.switch/0 Counter.count/0
2 release Button.release/1
state Button [up]
state Light [lit]
state Counter [counting] pushes=1
reached 2

== until_an_unknown_place_is_marked
$ trace examples/sample.plant --until 'at A t' 0 1 0 1
! error: '--until at A t': an operand is missing, a place is unknown, or a word is no operator, number or name
? 2

== until_held
$ trace examples/sample.plant --until '&& < 2 A.n == B.m 1' 0 1 0 1
1 tick A.t/0
2 send A.t/0 B.u/0
3 tick A.t/0
state A [s] n=3
state B [s] m=1
reached 3

== until_held_at_the_start
$ trace examples/sample.plant --until 'at A s' 0 1 0 1
state A [s] n=0
state B [s] m=0
reached 0

== until_held_by_the_last_move
$ trace examples/sample.plant --until '== A.n 4' 0 1 0 1
1 tick A.t/0
2 send A.t/0 B.u/0
3 tick A.t/0
4 send A.t/0 B.u/0
state A [s] n=4
state B [s] m=3
reached 4

== until_held_where_nothing_is_possible
Where a watched run ends in a state with no choice, it tells that it is stuck, whatever it is watched for.
$ trace examples/light.plant --until '&& == Counter.pushes 3 at Button up' 0 0 0 0 0 0
1 push Button.push/0 Light.switch/0 Counter.count/0
2 release Button.release/1
3 push Button.push/0 Light.switch/1 Counter.count/0
4 release Button.release/1
5 push Button.push/0 Light.switch/0 Counter.count/0
6 release Button.release/1
stuck
state Button [up]
state Light [lit]
state Counter [counting] pushes=3
reached 6

== until_not_held
$ trace examples/sample.plant --until '== A.n 5' 0 1 0 1
1 tick A.t/0
2 send A.t/0 B.u/0
3 tick A.t/0
4 send A.t/0 B.u/0
state A [s] n=4
state B [s] m=3

== until_what_begins_with_a_minus
It holds where A.n - 1 is not 0. A word that begins with - is given behind =.
$ trace examples/sample.plant '--until=- A.n 1' 0 1 0 1
state A [s] n=0
state B [s] m=0
reached 0

== until_with_a_word_left_over
$ trace examples/sample.plant --until '== A.n 3 B.m' 0 1 0 1
! error: '--until == A.n 3 B.m': a word stands behind its end
? 2

== watched_by_options_that_take_turns
The places count all words of both options, in their order.
$ trace --until '== A.n 9' examples/sample.plant --never '== A.n 8' 0 --until '== B.m 1' 1 --never '== A.n 2' 0
1 tick A.t/0
2 send A.t/0 B.u/0
state A [s] n=2
state B [s] m=1
reached 2 by 3

== watched_for_several_things
$ trace examples/sample.plant --never '< 3 B.m' --until '== A.n 2' 0 1 0 1
1 tick A.t/0
2 send A.t/0 B.u/0
state A [s] n=2
state B [s] m=1
reached 2 by 2

== watched_up_to_a_refused_pick
$ trace examples/sample.plant --strict --until '== A.n 2' 0 7
1 tick A.t/0
! error: pick 2 of the command line: pick 7, but there are 2 choices (0 to 1)
? 1
