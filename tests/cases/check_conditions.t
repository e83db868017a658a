`check`: rules that count while an atom is at a place.

== condition_at_a_port
A port is no place of the atom.
$ check plant
! plant line 13: fault 7 UnknownName
? 1
-- plant
atom A
place on init
place off
port t
trans t from on to off
trans t from off to on
atom O
place s init
port o
trans o from s to s
connector tick A.t
connector other O.o
prio other < tick when A at t

== condition_before_the_right_side
A condition stands behind both sides.
$ check plant
! plant line 13: fault 10 Shape
? 1
-- plant
atom A
place on init
place off
port t
trans t from on to off
trans t from off to on
atom O
place s init
port o
trans o from s to s
connector tick A.t
connector other O.o
prio other when A at on < tick

== condition_between_blanks
Blanks, tabs and a carriage return cut the words of a condition as any others.
$ check plant
atoms 2 connectors 2 interactions 2 rules 1
-- plant
atom A
place on init
place off
port t
trans t from on to off
trans t from off to on
atom O
place s init
port o
trans o from s to s
connector tick A.t
connector other O.o
\	prio other	<  tick 	when  A	at 	 on 	\x0d

== condition_of_a_connector
The name of a connector is no atom, also where a connector has it.
$ check plant
! plant line 13: fault 7 UnknownName
? 1
-- plant
atom A
place on init
place off
port t
trans t from on to off
trans t from off to on
atom O
place s init
port o
trans o from s to s
connector tick A.t
connector other O.o
prio other < tick when tick at on

== condition_of_the_lower_side
A condition may ask for an atom of either side, and of none.
$ check plant
atoms 3 connectors 2 interactions 2 rules 2
-- plant
atom A
place on init
place off
port t
trans t from on to off
trans t from off to on
atom O
place s init
port o
trans o from s to s
connector tick A.t
connector other O.o
atom M
place day init
prio other < tick when O at s
prio other < tick when M at day

== conditions_on_one_pair
Two rules that differ in their conditions alone are two.
$ check plant
atoms 2 connectors 2 interactions 2 rules 2
-- plant
atom A
place on init
place off
port t
trans t from on to off
trans t from off to on
atom O
place s init
port o
trans o from s to s
connector tick A.t
connector other O.o
prio other < tick when A at on
prio other < tick when A at off

== missing_at_before_an_unknown_place
A word that is not `at` is the first at fault; the place comes later.
$ check plant
! plant line 13: fault 10 Shape
? 1
-- plant
atom A
place on init
place off
port t
trans t from on to off
trans t from off to on
atom O
place s init
port o
trans o from s to s
connector tick A.t
connector other O.o
prio other < tick when A of x

== rule_with_a_condition
A rule that counts while a place is marked is a rule as any other.
$ check plant
atoms 2 connectors 2 interactions 2 rules 1
-- plant
atom A
place on init
place off
port t
trans t from on to off
trans t from off to on
atom O
place s init
port o
trans o from s to s
connector tick A.t
connector other O.o
prio other < tick when A at on

== unknown_atom_before_a_missing_at
The atom of the condition is the first word at fault; that `at` is missing comes later.
$ check plant
! plant line 13: fault 7 UnknownName
? 1
-- plant
atom A
place on init
place off
port t
trans t from on to off
trans t from off to on
atom O
place s init
port o
trans o from s to s
connector tick A.t
connector other O.o
prio other < tick when B
