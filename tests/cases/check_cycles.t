`check`: rules that put an interaction below itself, by a chain as well.

== condition_without_its_place_before_a_cycle
The first line with a fault is told; that the rules before it lead round would come last.
$ check plant
! plant line 15: fault 10 Shape
? 1
-- plant
atom A
place on init
place off
port t
trans t from on to off
trans t from off to on
atom O
place s init
port o
trans o from s to s
connector tick A.t
connector other O.o
prio tick < other
prio other < tick when A at on
prio other < tick when A at

== cycle_numbered_by_masks
Interactions are numbered by connector and then by mask: first.1, second.1, second.3, second.5, second.7 are 0 to 4.
$ check plant
! plant line 0: fault 12 Cycle(3)
? 1
-- plant
atom A0
port t
atom A1
port t
atom A2
port t
connector first A0.t
connector second A2.t' A1.t A0.t
prio second:7 < second:5
prio second:5 < second:7

== cycle_of_512_interactions
A chain through all 1,024 interactions, and a rule that puts the last one below number 512: that is the least one below itself.
$ check plant
! plant line 0: fault 12 Cycle(512)
? 1
-- plant = tests/fixtures/cycle_of_512_interactions.plant

== cycle_of_a_connector_below_itself
A connector below itself.
$ check plant
! plant line 0: fault 12 Cycle(1)
? 1
-- plant
atom A
port t
connector first A.t
connector c A.t
prio c < c

== cycle_of_a_connector_below_one_of_its_interactions
Each interaction of a connector is below the one with the mask 3, and so is that one, which is number 2.
$ check plant
! plant line 0: fault 12 Cycle(2)
? 1
-- plant
atom A
port t
atom B
port u
connector tick A.t
connector bc A.t' B.u
prio bc < bc:3

== cycle_of_a_rule_that_never_counts
No place of the condition is ever marked. The rule puts a connector below itself all the same.
$ check plant
! plant line 0: fault 12 Cycle(1)
? 1
-- plant
atom A
place on init
place off
port t
trans t from on to off
trans t from off to on
atom O
place s init
port o
trans o from s to s
connector tick A.t
connector other O.o
atom M
place night
prio other < other when M at night

== cycle_of_all_interactions
A chain through all 1,024 interactions that is closed by the last rule a plant may have.
$ check plant
! plant line 0: fault 12 Cycle(0)
? 1
-- plant = tests/fixtures/cycle_of_all_interactions.plant

== cycle_of_one_interaction_below_its_connector
An interaction below each one of its connector, and so below itself.
$ check plant
! plant line 0: fault 12 Cycle(0)
? 1
-- plant
atom A
port t
connector c A.t
prio c:1 < c

== cycle_of_rules_that_never_count_together
A is never both on and off. The rules are refused as if both counted.
$ check plant
! plant line 0: fault 12 Cycle(0)
? 1
-- plant
atom A
place on init
place off
port t
trans t from on to off
trans t from off to on
atom O
place s init
port o
trans o from s to s
connector tick A.t
connector other O.o
prio other < tick when A at on
prio tick < other when A at off

== cycle_of_the_numbers_5_and_9
Numbers 5 and 9 are below each other, and 0 to 4 are below them but not below themselves.
$ check plant
! plant line 0: fault 12 Cycle(5)
? 1
-- plant
atom A
port t
connector c0 A.t
connector c1 A.t
connector c2 A.t
connector c3 A.t
connector c4 A.t
connector c5 A.t
connector c6 A.t
connector c7 A.t
connector c8 A.t
connector c9 A.t
prio c9 < c5
prio c5 < c9
prio c0 < c1
prio c1 < c2
prio c2 < c3
prio c3 < c4
prio c4 < c5

== cycle_of_two_rules
Each connector is below the other; the least interaction that is below itself is told, at line 0.
$ check plant
! plant line 0: fault 12 Cycle(0)
? 1
-- plant
atom A
port t
atom B
port u
connector tick A.t
connector bc A.t' B.u
prio tick < bc
prio bc < tick

== cycle_through_a_rule_with_a_condition
One rule of the circle has a condition, and the other has none.
$ check plant
! plant line 0: fault 12 Cycle(0)
? 1
-- plant
atom A
place on init
place off
port t
trans t from on to off
trans t from off to on
atom O
place s init
port o
trans o from s to s
connector tick A.t
connector other O.o
prio tick < other
prio other < tick when A at on

== cycle_through_three_rules_and_a_maximal
A chain from bc:1 (number 1) by `maximal` to bc:3, and by three rules back to it; number 0 is none of its stations.
$ check plant
! plant line 0: fault 12 Cycle(1)
? 1
-- plant
atom A
port t
atom B
port u
connector tick A.t
connector bc A.t' B.u
connector x A.t
connector y B.u
prio y < bc:1
prio x < y
maximal bc
prio bc:3 < x

== cycle_within_a_connector
The interaction with the mask 3 below that with the mask 1, where the connector is maximal.
$ check plant
! plant line 0: fault 12 Cycle(1)
? 1
-- plant
atom A
port t
atom B
port u
connector tick A.t
connector bc A.t' B.u
prio bc:3 < bc:1
maximal bc

== cycles_of_two
Of two cycles the least number is told, and not that of the first line.
$ check plant
! plant line 0: fault 12 Cycle(3)
? 1
-- plant
atom A
port t
connector c0 A.t
connector c1 A.t
connector c2 A.t
connector c3 A.t
connector c4 A.t
connector c5 A.t
connector c6 A.t
connector c7 A.t
connector c8 A.t
connector c9 A.t
prio c7 < c8
prio c8 < c7
prio c6 < c3
prio c3 < c6

== line_fault_before_a_cycle
A cycle is told behind all lines: a later line with a fault is told before it.
$ check plant
! plant line 8: fault 6 Twice
? 1
-- plant
atom A
port t
atom B
port u
connector tick A.t
connector bc A.t' B.u
prio tick < tick
connector tick A.t

== longest_chain
64 atoms, 64 connectors of 8 leaves, 1,024 interactions and 1,024 rules.
$ check plant
atoms 64 connectors 64 interactions 1024 rules 1024
-- plant = tests/fixtures/longest_chain.plant

== no_cycle_between_parts
One interaction of a connector below another connector, which is below the other interaction.
$ check plant
atoms 2 connectors 2 interactions 3 rules 2
-- plant
atom A
port t
atom B
port u
connector tick A.t
connector bc A.t' B.u
prio bc:1 < tick
prio tick < bc:3

== no_cycle_of_two_ways
Two ways from one connector up to another make no cycle.
$ check plant
atoms 1 connectors 10 interactions 10 rules 5
-- plant
atom A
port t
connector c0 A.t
connector c1 A.t
connector c2 A.t
connector c3 A.t
connector c4 A.t
connector c5 A.t
connector c6 A.t
connector c7 A.t
connector c8 A.t
connector c9 A.t
prio c0 < c1
prio c1 < c3
prio c0 < c2
prio c2 < c3
prio c0 < c3
