`trace`: rules, chains of rules and maximal connectors.

== cycle
A plant whose rules put an interaction below itself is refused, and nothing is run.
$ trace plant 0
! plant line 0: fault 12 Cycle(0)
? 1
-- plant
atom A
place s init
var n 0
port t n
trans t from s to s do n := + n 1
atom B
place s init
var m 0
port u m
trans u from s to s
connector tick A.t
connector send A.t B.u
prio tick < send
prio send < tick

== interactions_by_masks
Interactions of a connector are in the order of their masks over its leaves.
$ trace plant 1 2
1 c A.t/0
2 c A.t/0 B.u/0
state A [s] n=2
state B [s] m=0
-- plant
atom A
place s init
var n 0
port t n
trans t from s to s do n := + n 1
atom B
place s init
var m 0
port u m
trans u from s to s
connector c B.u' A.t'

== maximal_connector
Of a maximal connector the widest possible interaction fires: both are offered, so A never sends alone.
$ trace plant 0 1
1 bc A.t/0 B.u/0
2 bc A.t/0 B.u/0
state A [s] n=2
state B [s] m=1
-- plant
atom A
place s init
var n 0
port t n
trans t from s to s do n := + n 1
atom B
place s init
var m 0
port u m
trans u from s to s
connector bc A.t' B.u
move B.m := A.n
maximal bc

== maximal_is_of_its_connector
Another connector with more ports is not above one that is maximal.
$ trace plant 0 1
1 one A.t/0
2 two A.t/0 B.u/0
state A [s] n=2
state B [s] m=0
-- plant
atom A
place s init
var n 0
port t n
trans t from s to s do n := + n 1
atom B
place s init
var m 0
port u m
trans u from s to s
connector one A.t
connector two A.t B.u
maximal one
maximal two

== maximal_of_eight_triggers
Of 255 interactions the widest possible one fires: that of all atoms but the last, which has no token.
$ trace plant 0 1
1 c A0.t/0 A1.t/0 A2.t/0 A3.t/0 A4.t/0 A5.t/0 A6.t/0
2 c A0.t/0 A1.t/0 A2.t/0 A3.t/0 A4.t/0 A5.t/0 A6.t/0
state A0 [s]
state A1 [s]
state A2 [s]
state A3 [s]
state A4 [s]
state A5 [s]
state A6 [s]
state A7 []
-- plant
atom A0
place s init
port t
trans t from s to s
atom A1
place s init
port t
trans t from s to s
atom A2
place s init
port t
trans t from s to s
atom A3
place s init
port t
trans t from s to s
atom A4
place s init
port t
trans t from s to s
atom A5
place s init
port t
trans t from s to s
atom A6
place s init
port t
trans t from s to s
atom A7
place s
port t
trans t from s to s
connector c A0.t' A1.t' A2.t' A3.t' A4.t' A5.t' A6.t' A7.t'
maximal c

== maximal_of_sets_of_different_sizes
A guard over all four rules out the whole: the first two stay a choice beside the other three, as these do not hold them.
$ trace plant 0 1 0
1 c A0.t/0 A1.t/0
2 c A0.t/0 A2.t/0 A3.t/0
3 c A0.t/0 A1.t/0 A2.t/0 A3.t/0
state A0 [s] n=3
state A1 [s] n=2
state A2 [s] n=2
state A3 [s] n=2
-- plant
atom A0
place s init
var n 0
port t n
trans t from s to s do n := + n 1
atom A1
place s init
var n 0
port t n
trans t from s to s do n := + n 1
atom A2
place s init
var n 0
port t n
trans t from s to s do n := + n 1
atom A3
place s init
var n 0
port t n
trans t from s to s do n := + n 1
connector c A0.t' A1.t [ A2.t A3.t ]
guard < 0 * A0.n * A1.n * A2.n A3.n
maximal c

== maximal_of_sets_side_by_side
A guard over all three rules out the whole: the two pairs stay, as neither holds the other, and the trigger alone is below both.
$ trace plant 0 1 0
1 c A0.t/0 A1.t/0
2 c A0.t/0 A2.t/0
3 c A0.t/0 A1.t/0 A2.t/0
state A0 [s] n=3
state A1 [s] n=2
state A2 [s] n=2
-- plant
atom A0
place s init
var n 0
port t n
trans t from s to s do n := + n 1
atom A1
place s init
var n 0
port t n
trans t from s to s do n := + n 1
atom A2
place s init
var n 0
port t n
trans t from s to s do n := + n 1
connector c A0.t' A1.t A2.t
guard < 0 * A0.n * A1.n A2.n
maximal c

== maximal_where_the_wider_is_not_possible
Where B listens no more, the narrower interaction of a maximal connector fires.
$ trace plant 1 1
1 bc A.t/0 B.u/0
2 bc A.t/0
state A [s] n=2
state B [gone] m=0
-- plant
atom A
place s init
var n 0
port t n
trans t from s to s do n := + n 1
atom B
place s init
place gone
var m 5
port u m
trans u from s to gone
connector bc A.t' B.u
move B.m := A.n
maximal bc

== priority_chain_through_what_is_not_possible
Tick and stop are possible and send is not, as B has no token: the chain leads through send, so stop is the only choice.
$ trace plant 0 1
1 stop S.x/0
2 stop S.x/0
state A [s]
state B []
state S [s]
-- plant
atom A
place s init
port t
trans t from s to s
atom B
place s
port u
trans u from s to s
atom S
place s init
port x
trans x from s to s
connector tick A.t
connector send A.t B.u
connector stop S.x
prio tick < send
prio send < stop

== priority_counts_choices
A pick counts the allowed choices alone: of tick, send and stop, tick is below stop.
$ trace plant 0 1 2
1 send A.t/0 B.u/0
2 stop S.x/0
3 send A.t/0 B.u/0
state A [s] n=2
state B [s] m=0
state S [s]
-- plant
atom A
place s init
var n 0
port t n
trans t from s to s do n := + n 1
atom B
place s init
var m 0
port u m
trans u from s to s
atom S
place s init
port x
trans x from s to s
connector tick A.t
connector send A.t B.u
connector stop S.x
prio tick < stop

== priority_of_what_is_possible
Only a possible interaction overrules: with the guard at 0 send is not, and tick goes on.
$ trace plant 0 0 0
1 send A.t/0 B.u/0
2 tick A.t/0
3 tick A.t/0
state A [s] n=3
state B [s] m=5
-- plant
atom A
place s init
var n 0
port t n
trans t from s to s do n := + n 1
atom B
place s init
var m 0
port u m
trans u from s to s
connector tick A.t
connector send A.t B.u
guard < A.n 1
move B.m := + A.n 5
prio tick < send

== rule_against_the_wider
A rule may put both together below A alone.
$ trace plant 0 1
1 bc A.t/0
2 bc A.t/0
state A [s] n=2
state B [s] m=0
-- plant
atom A
place s init
var n 0
port t n
trans t from s to s do n := + n 1
atom B
place s init
var m 0
port u m
trans u from s to s
connector bc A.t' B.u
prio bc:003 < bc:1

== rule_on_connectors_is_on_each_interaction
Each interaction of the left connector is below each of the right: while A and B have what the right one needs, S does nothing.
$ trace plant 0 1
1 cb B.u/0
2 cb A.t/0 B.u/0
state A [s] n=1
state B [s] m=0
state S [s]
-- plant
atom A
place s init
var n 0
port t n
trans t from s to s do n := + n 1
atom B
place s init
var m 0
port u m
trans u from s to s
atom S
place s init
port x
trans x from s to s
connector stop S.x
connector bc A.t' B.u
connector cb B.u' A.t
prio bc < cb:1
prio stop < bc

== rule_on_interactions_on_both_sides
A alone is below both together, by their masks: what `maximal` would say.
$ trace plant 0 1
1 bc A.t/0 B.u/0
2 bc A.t/0 B.u/0
state A [s] n=2
state B [s] m=1
-- plant
atom A
place s init
var n 0
port t n
trans t from s to s do n := + n 1
atom B
place s init
var m 0
port u m
trans u from s to s
connector bc A.t' B.u
move B.m := A.n
prio bc:1 < bc:3

== rule_on_one_interaction_on_the_left
Only the interaction of the left side is below tick: B and A together stay a choice, A alone does not.
$ trace plant 0 1
1 bc A.t/0 B.u/0
2 tick S.x/0
state A [s] n=1
state B [s] m=0
state S [s]
-- plant
atom A
place s init
var n 0
port t n
trans t from s to s do n := + n 1
atom B
place s init
var m 0
port u m
trans u from s to s
atom S
place s init
port x
trans x from s to s
connector bc A.t' B.u
connector tick S.x
prio bc:1 < tick

== rule_on_one_interaction_on_the_right
Tick is below the interaction of the right side alone: it fires where that one is not possible, though the other is.
$ trace plant 1 0 1
1 bc A.t/0 B.u/0
2 tick S.x/0
3 bc A.t/0
state A [s] n=2
state B [gone]
state S [s]
-- plant
atom A
place s init
var n 0
port t n
trans t from s to s do n := + n 1
atom B
place s init
place gone
port u
trans u from s to gone
atom S
place s init
port x
trans x from s to s
connector tick S.x
connector bc A.t' B.u
prio tick < bc:3

== rule_twice
A rule that stands twice says what it says once.
$ trace plant 1
1 send A.t/0 B.u/0
state A [s] n=1
state B [s] m=0
-- plant
atom A
place s init
var n 0
port t n
trans t from s to s do n := + n 1
atom B
place s init
var m 0
port u m
trans u from s to s
connector tick A.t
connector send A.t B.u
prio tick < send
prio tick < send
maximal send
maximal send

== rules_between_lines
A guard and a transfer behind rules belong to the latest connector, a place to the latest atom.
$ trace plant 0 0
1 other A.u/1
2 tick A.t/0
state A [s] n=2
-- plant
atom A
port t
connector tick A.t
maximal tick
place s init
var n 0
port u n
trans t from s to s
trans u from s to s
connector other A.u
prio tick < other
guard < A.n 1
prio tick < other:1
move A.n := 2

== rules_in_any_order_of_lines
The rules of a chain may stand in any order, and the connectors too.
$ trace plant 1
1 stop S.x/0
state A [s] n=0
state B [s] m=0
state S [s]
-- plant
atom A
place s init
var n 0
port t n
trans t from s to s do n := + n 1
atom B
place s init
var m 0
port u m
trans u from s to s
atom S
place s init
port x
trans x from s to s
connector stop S.x
connector send A.t B.u
connector tick A.t
prio send < stop
prio tick < send
