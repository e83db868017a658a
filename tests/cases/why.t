`why`: what keeps a connector from being fired.

== a_guard_without_variables
$ why plant
c: possible, gives way to e (line 18: prio c < e)
d: guard '0' is 0
-- plant
atom S
place s init
port p
trans p from s to s
atom A
place s init
port r
trans r from s to s
atom B
place s init
port q
trans q from s to s
connector c S.p' A.r
guard == 1 1
connector d B.q
guard 0
connector e S.p A.r B.q
prio c < e

== a_reason_told_once
$ why plant
c: S.p offers nothing: place s is not marked
d: S.p offers nothing: place s is not marked
d: A.r offers nothing: place s is not marked
-- plant
atom S
place s
port p
trans p from s to s
atom A
place s
port r
trans r from s to s
connector c S.p' A.r
connector d S.p' A.r'

== after_a_pick
$ why examples/light.plant 0
push: Button.push offers nothing: place up is not marked

== after_a_refused_pick
$ why examples/light.plant --picks p.txt --strict
! error: p.txt:1: pick 1, but there is 1 choice (0)
? 1
-- p.txt
1

== after_picks_of_a_file
$ why examples/light.plant --picks p.txt
push: Button.push offers nothing: place up is not marked
-- p.txt
push Button.push/0 Light.switch/0 Counter.count/0

== another_rule_that_counts
The plant of first_rule_that_counts behind a tick: now the first rule counts, and the second does not.
$ why plant 0
other: possible, gives way to tick (line 13: prio other < tick when A at off)
-- plant
atom A
place on init
place off
port t
trans t from on to off
trans t from off to on
atom O
place s init
port o
trans o from s to s
connector tick A.t
connector other O.o
prio other < tick when A at off
prio other < tick when A at on
prio other < tick

== chain_beside_a_rule_that_does_not_count
A rule puts low below high, but does not count while A is on. A chain through middle does.
$ why plant
low: possible, gives way to high (by a chain of rules)
middle: B.u offers nothing: place s is not marked
-- plant
atom A
place on init
place off
port t
trans t from on to off
trans t from off to on
atom B
place s
port u
trans u from s to s
atom S
place s init
port x
trans x from s to s
atom L
place s init
port l
trans l from s to s
connector turn A.t
connector low L.l
connector middle B.u
connector high S.x
prio low < high when A at off
prio low < middle when A at on
prio middle < high

== chain_of_rules_with_conditions
By day a is below b, b below c and c below d, and so b below d. The rule that puts d below e does not count: d can be fired.
$ why plant
a: possible, gives way to b (line 36: prio a < b when Mode at day)
b: possible, gives way to d (by a chain of rules)
c: C.t offers nothing: place s is not marked
-- plant
atom Mode
place day init
place night
port turn
trans turn from day to night
trans turn from night to day
atom A
place s init
port t
trans t from s to s
atom B
place s init
port t
trans t from s to s
atom C
place s
port t
trans t from s to s
atom D
place s init
port t
trans t from s to s
atom E
place s init
port t
trans t from s to s
connector mode Mode.turn
connector a A.t
connector b B.t
connector c C.t
connector d D.t
connector e E.t
prio d < e when Mode at night
prio c < d when Mode at day
prio b < c when Mode at day
prio a < b when Mode at day

== chain_while_another_condition_holds
The same plant by night: only d is below another, so that a and b can be fired.
$ why plant 0
c: C.t offers nothing: place s is not marked
d: possible, gives way to e (line 33: prio d < e when Mode at night)
-- plant
atom Mode
place day init
place night
port turn
trans turn from day to night
trans turn from night to day
atom A
place s init
port t
trans t from s to s
atom B
place s init
port t
trans t from s to s
atom C
place s
port t
trans t from s to s
atom D
place s init
port t
trans t from s to s
atom E
place s init
port t
trans t from s to s
connector mode Mode.turn
connector a A.t
connector b B.t
connector c C.t
connector d D.t
connector e E.t
prio d < e when Mode at night
prio c < d when Mode at day
prio b < c when Mode at day
prio a < b when Mode at day

== condition_of_a_rule_on_one_interaction
$ why plant
ask: possible, gives way to say:3 (line 17: prio ask < say:3 when A at on)
-- plant
atom A
place on init
atom S
place s init
port say
trans say from s to s
atom L
place s init
port hear
trans hear from s to s
atom Q
place s init
port q
trans q from s to s
connector say S.say' L.hear
connector ask Q.q
prio ask < say:3 when A at on

== first_rule_that_counts
Three rules put other below tick. The first does not count while A is on.
$ why plant
other: possible, gives way to tick (line 14: prio other < tick when A at on)
-- plant
atom A
place on init
place off
port t
trans t from on to off
trans t from off to on
atom O
place s init
port o
trans o from s to s
connector tick A.t
connector other O.o
prio other < tick when A at off
prio other < tick when A at on
prio other < tick

== gives_way
$ why examples/crossing.plant 0
approach_north: North.approach offers nothing: place away is not marked
enter_north: possible, gives way to lower (line 61: prio enter_north < lower)
enter_south: South.enter offers nothing: place near is not marked
leave_north: North.leave offers nothing: place inside is not marked
leave_south: South.leave offers nothing: place inside is not marked
raise: Barrier.raise offers nothing: place down is not marked

== gives_way_by_a_chain
$ why plant
a: possible, gives way to c (by a chain of rules)
b: B.p offers nothing: guard '0' is 0
-- plant
atom A
place s init
port p
trans p from s to s
atom B
place s init
port p
trans p from s to s when 0
atom C
place s init
port p
trans p from s to s
connector a A.p
connector b B.p
connector c C.p
prio a < b
prio b < c

== gives_way_while_a_condition_holds
$ why plant
other: possible, gives way to tick (line 13: prio other < tick when A at on)
-- plant
atom A
place on init
place off
port t
trans t from on to off
trans t from off to on
atom O
place s init
port o
trans o from s to s
connector tick A.t
connector other O.o
prio other < tick when A at on

== in_the_first_state
$ why examples/light.plant
release: Button.release offers nothing: place down is not marked

== nothing_to_tell
$ why examples/sample.plant

== nothing_where_no_condition_holds
A is off: both can be fired.
$ why plant 0
-- plant
atom A
place on init
place off
port t
trans t from on to off
trans t from off to on
atom O
place s init
port o
trans o from s to s
connector tick A.t
connector other O.o
prio other < tick when A at on

== of_a_refused_plant
$ why plant
! plant line 1: fault 10 Shape
? 1
-- plant
atom

== of_a_stuck_plant
$ why examples/light.plant 0 0 0 0 0 0
push: guard '< Counter.pushes 3' is 0 (Counter.pushes=3)
release: Button.release offers nothing: place down is not marked

== one_of_several_interactions_above
$ why plant
d: possible, gives way to c:3 (line 15: prio d < c:3)
-- plant
atom S
place s init
port p
trans p from s to s
atom A
place s init
port r
trans r from s to s
atom B
place s init
port q
trans q from s to s
connector c S.p' A.r
connector d B.q
prio d < c:3

== rule_beside_a_chain_that_does_not_count
The plant of chain_beside_a_rule_that_does_not_count behind a turn: now the rule counts, and the chain breaks.
$ why plant 0
low: possible, gives way to high (line 23: prio low < high when A at off)
middle: B.u offers nothing: place s is not marked
-- plant
atom A
place on init
place off
port t
trans t from on to off
trans t from off to on
atom B
place s
port u
trans u from s to s
atom S
place s init
port x
trans x from s to s
atom L
place s init
port l
trans l from s to s
connector turn A.t
connector low L.l
connector middle B.u
connector high S.x
prio low < high when A at off
prio low < middle when A at on
prio middle < high

== several_transitions_of_a_port
$ why plant
c: A.p offers nothing: /0 place u is not marked; /1 place t is marked already; /2 guard '&& < n 1 ! < m n' is 0 (n=2, m=-1)
d: A.q has no transition
-- plant
atom A
place s init
place t init
place u
var n 2
var m -1
port p
port q
trans p from u to s
trans p from s to t
trans p from s to s when && < n 1 ! < m n
connector c A.p
connector d A.q

== with_random_picks
$ why --random 2 --seed 1 examples/sample.plant
