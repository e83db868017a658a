`trace`: rules that count while an atom is at a place.

== chain_of_rules_with_conditions
Low is below high by three rules in a row, written from below, while A and C are both on. Neither first nor second is ever possible.
$ trace plant 2 1 2 0 2 1 2 0 2
1 high S.x/0
2 turn_c C.t/0
3 low L.l/0
4 turn_a A.t/0
5 low L.l/0
6 turn_c C.t/1
7 low L.l/0
8 turn_a A.t/1
9 high S.x/0
state A [on]
state C [on]
state B []
state S [s]
state L [s]
-- plant
atom A
place on init
place off
port t
trans t from on to off
trans t from off to on
atom C
place on init
place off
port t
trans t from on to off
trans t from off to on
atom B
place s
port u
port v
trans u from s to s
trans v from s to s
atom S
place s init
port x
trans x from s to s
atom L
place s init
port l
trans l from s to s
connector turn_a A.t
connector turn_c C.t
connector low L.l
connector first B.u
connector second B.v
connector high S.x
prio low < first when A at on
prio first < second when C at on
prio second < high when A at on

== chain_through_a_rule_with_a_condition
B has no token, so middle is never possible. While A is on, low is below high by a chain through it; else the chain breaks.
$ trace plant 1 0 1 2 0 1
1 high S.x/0
2 turn A.t/0
3 low L.l/0
4 high S.x/0
5 turn A.t/1
6 high S.x/0
state A [on]
state B []
state S [s]
state L [s]
-- plant
atom A
place on init
place off
port t
trans t from on to off
trans t from off to on
atom B
place s
port u
trans u from s to s
atom S
place s init
port x
trans x from s to s
atom L
place s init
port l
trans l from s to s
connector turn A.t
connector low L.l
connector middle B.u
connector high S.x
prio low < middle when A at on
prio middle < high

== condition_of_a_rule_on_one_interaction
While A is on, S says nothing alone if L can hear it.
$ trace plant 1 0 1 2
1 say S.say/0 L.hear/0
2 turn A.t/0
3 say S.say/0
4 say S.say/0 L.hear/0
state A [off]
state S [s]
state L [s]
-- plant
atom A
place on init
place off
port t
trans t from on to off
trans t from off to on
atom S
place s init
port say
trans say from s to s
atom L
place s init
port hear
trans hear from s to s
connector turn A.t
connector say S.say' L.hear
prio say:1 < say:3 when A at on

== rule_that_counts_while_a_place_is_marked
While A is on, tick goes before other. While it is off both can be fired. What counts is where A is before the firing: each tick moves it.
$ trace plant 0 1 0 0
1 tick A.t/0
2 other O.o/0
3 tick A.t/1
4 tick A.t/0
state A [off]
state O [s]
-- plant
atom A
place on init
place off
port t
trans t from on to off
trans t from off to on
atom O
place s init
port o
trans o from s to s
connector tick A.t
connector other O.o
prio other < tick when A at on

== rule_with_a_condition_beside_one_without
The rule without a condition counts where the other one does not: other is never a choice.
$ trace plant 1 1
1 tick A.t/0
2 tick A.t/1
state A [on]
state O [s]
-- plant
atom A
place on init
place off
port t
trans t from on to off
trans t from off to on
atom O
place s init
port o
trans o from s to s
connector tick A.t
connector other O.o
prio other < tick when A at off
prio other < tick

== rules_that_count_by_turns
One of both rules counts, whether A is on or off: other is never a choice.
$ trace plant 1 1 1
1 tick A.t/0
2 tick A.t/1
3 tick A.t/0
state A [off]
state O [s]
-- plant
atom A
place on init
place off
port t
trans t from on to off
trans t from off to on
atom O
place s init
port o
trans o from s to s
connector tick A.t
connector other O.o
prio other < tick when A at on
prio other < tick when A at off
