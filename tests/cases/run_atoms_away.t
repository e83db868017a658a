`run`: atoms that are away at their work while the others go on.

== away_and_back
While A is away nothing is sure: send is above other, and B offers its port. Behind its return there are two choices again.
$ format plant image --ring 8 > ignored
$ run plant image script
1 tick A.t/0 begun
refused 2 Busy
back A
2 send A.t/0 B.u/0
state A [s] n=2
state B [s] m=1
state O [s]
front 2 0 1
-- plant
atom A
place s init
var n 0
port t n
trans t from s to s do n := + n 1
atom B
place s init
var m 0
port u m
trans u from s to s
atom O
place s init
port o
trans o from s to s
connector tick A.t
connector send A.t B.u
move B.m := A.n
connector other O.o
prio other < send
-- script
begin 0
fire 0
back A
fire 1

== away_at_a_stop
What has begun is whole: it is acknowledged and outlives the run, though its job never came back.
$ format examples/sample.plant image --ring 8 > ignored
$ run examples/sample.plant image script
1 tick A.t/0 begun
flushed 1
state A [s] n=1
state B [s] m=0
front 1 1 1
$ recover examples/sample.plant image
state A [s] n=1
state B [s] m=0
front 1 1 1
-- script
begin 0
flush

== away_atom_of_a_condition
The place of a rule's condition is not known while its atom is away: the rule may count.
$ format plant image --ring 8 > ignored
$ run plant image script
1 tick A.t/0
2 tick A.t/1 begun
refused 2 Busy
state A [on]
state O [s]
front 2 0 1
-- plant
atom A
place on init
place off
port t
trans t from on to off
trans t from off to on
atom O
place s init
port o
trans o from s to s
connector tick A.t
connector other O.o
prio other < tick when A at on
-- script
fire 0
begin 0
fire 0

== away_while_another_fires
B offers nothing, so that send is ruled out though A is away: other is sure. A is shown where its job will leave it.
$ format plant image --ring 8 > ignored
$ run plant image script
1 tick A.t/0 begun
2 other O.o/0
state A [s] n=1
state B [] m=0
state O [s]
front 2 0 1
-- plant
atom A
place s init
var n 0
port t n
trans t from s to s do n := + n 1
atom B
place s
var m 0
port u m
trans u from s to s
atom O
place s init
port o
trans o from s to s
connector tick A.t
connector send A.t B.u
move B.m := A.n
connector other O.o
prio other < send
-- script
begin 0
fire 0

== back_without_a_job
An atom that is not away has no job at hand, and one that came back has none any more.
$ format examples/sample.plant image --ring 8 > ignored
$ run examples/sample.plant image script
nothing A
1 send A.t/0 B.u/0 begun
back B
back A
nothing A
state A [s] n=1
state B [s] m=0
front 1 0 1
-- script
back A
begin 1
back B
back A
back A

== rule_with_a_condition
The choices of a plant in an image are those of a run; what a restart replays asks for no rule.
$ format plant image --ring 8 > ignored
$ run plant image script
1 tick A.t/0
2 other O.o/0
flushed 2
3 tick A.t/1
4 tick A.t/0
state A [off]
state O [s]
front 4 2 1
$ recover plant image
state A [off]
state O [s]
front 2 2 1
-- plant
atom A
place on init
place off
port t
trans t from on to off
trans t from off to on
atom O
place s init
port o
trans o from s to s
connector tick A.t
connector other O.o
prio other < tick when A at on
-- script
fire 0
fire 1
flush
fire 0
fire 1

== sixteen_participants
Each of 16 atoms gets what the next one had before, and then adds 1: behind 2 rounds an atom has what stood two places on at first, and 2; the last has its own.
$ format plant image --ring 8 > ignored
$ run plant image script
1 all A0.t/0 A1.t/0 A2.t/0 A3.t/0 A4.t/0 A5.t/0 A6.t/0 A7.t/0 A8.t/0 A9.t/0 A10.t/0 A11.t/0 A12.t/0 A13.t/0 A14.t/0 A15.t/0
2 all A0.t/0 A1.t/0 A2.t/0 A3.t/0 A4.t/0 A5.t/0 A6.t/0 A7.t/0 A8.t/0 A9.t/0 A10.t/0 A11.t/0 A12.t/0 A13.t/0 A14.t/0 A15.t/0
flushed 2
state A0 [s] n=4
state A1 [s] n=5
state A2 [s] n=6
state A3 [s] n=7
state A4 [s] n=8
state A5 [s] n=9
state A6 [s] n=10
state A7 [s] n=11
state A8 [s] n=12
state A9 [s] n=13
state A10 [s] n=14
state A11 [s] n=15
state A12 [s] n=16
state A13 [s] n=17
state A14 [s] n=17
state A15 [s] n=17
front 2 2 1
$ recover plant image
state A0 [s] n=4
state A1 [s] n=5
state A2 [s] n=6
state A3 [s] n=7
state A4 [s] n=8
state A5 [s] n=9
state A6 [s] n=10
state A7 [s] n=11
state A8 [s] n=12
state A9 [s] n=13
state A10 [s] n=14
state A11 [s] n=15
state A12 [s] n=16
state A13 [s] n=17
state A14 [s] n=17
state A15 [s] n=17
front 2 2 1
-- plant = tests/fixtures/sixteen_participants.plant
-- script
fire 0
fire 0
flush
