`choices`: what can be fired in a state, in the order of its numbers.

== a_thousand
Three atoms with ten transitions each: all of the 1,000 choices are listed, the last atom's transition varying fastest.
$ choices thousand.plant
= tests/fixtures/a_thousand.stdout
-- thousand.plant
atom A
place s init
port t
trans t from s to s
trans t from s to s
trans t from s to s
trans t from s to s
trans t from s to s
trans t from s to s
trans t from s to s
trans t from s to s
trans t from s to s
trans t from s to s
atom B
place s init
port t
trans t from s to s
trans t from s to s
trans t from s to s
trans t from s to s
trans t from s to s
trans t from s to s
trans t from s to s
trans t from s to s
trans t from s to s
trans t from s to s
atom C
place s init
port t
trans t from s to s
trans t from s to s
trans t from s to s
trans t from s to s
trans t from s to s
trans t from s to s
trans t from s to s
trans t from s to s
trans t from s to s
trans t from s to s
connector all A.t B.t C.t

== a_thousand_and_one
7 times 11 times 13 is 1,001.
$ choices more.plant
= tests/fixtures/a_thousand_and_one.stdout
-- more.plant
atom A
place s init
port t
trans t from s to s
trans t from s to s
trans t from s to s
trans t from s to s
trans t from s to s
trans t from s to s
trans t from s to s
atom B
place s init
port t
trans t from s to s
trans t from s to s
trans t from s to s
trans t from s to s
trans t from s to s
trans t from s to s
trans t from s to s
trans t from s to s
trans t from s to s
trans t from s to s
trans t from s to s
atom C
place s init
port t
trans t from s to s
trans t from s to s
trans t from s to s
trans t from s to s
trans t from s to s
trans t from s to s
trans t from s to s
trans t from s to s
trans t from s to s
trans t from s to s
trans t from s to s
trans t from s to s
trans t from s to s
connector all A.t B.t C.t

== after_a_refused_pick
Nothing is listed. The maker works, and the packer has nothing to fetch, so storing is all that is possible.
$ choices --strict examples/buffer.plant 0 1
! error: pick 2 of the command line: pick 1, but there is 1 choice (0)
? 1

== after_picks
After start and store the maker may start again, and the packer may fetch what is stored.
$ choices examples/buffer.plant 0 0
0 start Maker.start/0
1 fetch Buffer.fetch/1 Packer.fetch/0

== after_picks_of_a_file
$ choices examples/buffer.plant --picks p.txt
0 start Maker.start/0
1 fetch Buffer.fetch/1 Packer.fetch/0
-- p.txt
0
store Maker.store/1 Buffer.store/0

== after_picks_past_the_list
A pick takes its remainder by the number of choices, which is 1 at both.
$ choices examples/buffer.plant 7 12
0 start Maker.start/0
1 fetch Buffer.fetch/1 Packer.fetch/0

== after_random_picks
$ choices --random 3 examples/sample.plant
0 tick A.t/0
1 send A.t/0 B.u/0

== conditions_of_an_atom_that_never_moves
M has no port: the rule of its marked place always counts, and that of its other place never does.
$ choices plant 0
0 tick A.t/1
1 third Q.q/0
-- plant
atom A
place on init
place off
port t
trans t from on to off
trans t from off to on
atom O
place s init
port o
trans o from s to s
connector tick A.t
connector other O.o
atom Q
place s init
port q
trans q from s to s
connector third Q.q
atom M
place day init
place night
prio other < tick when M at day
prio tick < third when M at night

== eight_atoms_with_the_most_transitions
$ choices eight.plant
= tests/fixtures/eight_atoms_with_the_most_transitions.stdout
-- eight.plant = tests/fixtures/eight_atoms_with_the_most_transitions.eight.plant

== of_a_refused_plant
$ choices wrong.plant
! plant line 2: fault 10 Shape
? 1
-- wrong.plant
atom A
place

== of_a_word_that_is_no_pick
$ choices examples/sample.plant x
!~ invalid value 'x'
!~ Usage: bip_run choices [OPTIONS] <PLANT> [PICK]...
? 2

== of_the_first_state
$ choices examples/sample.plant
0 tick A.t/0
1 send A.t/0 B.u/0

== output_full
The writer takes nothing.
@ standard output full
$ choices examples/sample.plant
? 3

== sixteen_atoms_with_the_most_transitions
$ choices plant
= tests/fixtures/sixteen_atoms_with_the_most_transitions.stdout
-- plant = tests/fixtures/sixteen_atoms_with_the_most_transitions.plant

== stuck
$ choices once.plant 0
stuck
-- once.plant
atom A
place p init
place q
port t
trans t from p to q
connector go A.t

== stuck_before_later_picks
Once nothing is possible, the picks that follow are passed over.
$ choices once.plant 0 5 6
stuck
-- once.plant
atom A
place p init
place q
port t
trans t from p to q
connector go A.t

== where_a_condition_does_not_hold
A is off, so no rule counts.
$ choices plant 0
0 tick A.t/1
1 other O.o/0
-- plant
atom A
place on init
place off
port t
trans t from on to off
trans t from off to on
atom O
place s init
port o
trans o from s to s
connector tick A.t
connector other O.o
prio other < tick when A at on

== while_a_condition_holds
A is on, so other gives way.
$ choices plant
0 tick A.t/0
-- plant
atom A
place on init
place off
port t
trans t from on to off
trans t from off to on
atom O
place s init
port o
trans o from s to s
connector tick A.t
connector other O.o
prio other < tick when A at on
