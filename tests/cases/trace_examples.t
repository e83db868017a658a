`trace`: the plants of examples/, and what goes wrong without one of their rules.

== atomic_broadcast_to_neither
While the second follower still saves, the first one listens and gets nothing alone.
$ trace examples/atomic_broadcast.plant 0 1 0
1 broadcast Leader.send/0 First.take/0 Second.take/0
2 save_first First.save/1
3 broadcast Leader.send/0
state Leader [leading] entry=3
state First [listening] entry=1 saved=1
state Second [saving] entry=1 saved=0

== crossing_enters_without_a_rule
The picks of crossing_lowers_before_a_train_enters: without the rule a train is inside while the barrier is up.
@ plant is examples/crossing.plant without prio enter_north < lower
$ trace plant 0 1
1 approach_north North.approach/0 Supervisor.warn/0
2 enter_north North.enter/1
state North [inside] trips=0
state South [away] trips=0
state Barrier [up]
state Supervisor [warned]

== crossing_enters_without_a_rule_and_is_watched
The picks of crossing_enters_without_a_rule: the run ends where a train is inside and the barrier up.
@ plant is examples/crossing.plant without prio enter_north < lower
$ trace plant --never '&& || at North inside at South inside at Barrier up' 0 1 0 0
1 approach_north North.approach/0 Supervisor.warn/0
2 enter_north North.enter/1
state North [inside] trips=0
state South [away] trips=0
state Barrier [up]
state Supervisor [warned]
reached 2
? 1

== crossing_lowers_before_a_train_enters
The barrier is up and a train near. It could enter, as crossing_enters_without_a_rule shows; lowering goes before it.
$ trace examples/crossing.plant 0 1
1 approach_north North.approach/0 Supervisor.warn/0
2 lower Barrier.lower/0 Supervisor.lower/2
state North [near] trips=0
state South [away] trips=0
state Barrier [down]
state Supervisor [warned]

== crossing_only_lowers_where_both_are_near
Both trains are near and the barrier is up: of three possible moves lowering alone is allowed, whatever the pick.
$ trace examples/crossing.plant 0 0 1
1 approach_north North.approach/0 Supervisor.warn/0
2 approach_south South.approach/0 Supervisor.warn/1
3 lower Barrier.lower/0 Supervisor.lower/2
state North [near] trips=0
state South [near] trips=0
state Barrier [down]
state Supervisor [warned]

== crossing_raises_in_front_of_a_train_without_a_rule
The picks of crossing_waits_in_front_of_a_train, and one more: without the rule the barrier is raised, and the train, of which the supervisor knows no more, goes in.
@ plant is examples/crossing.plant without prio raise < enter_north
$ trace plant 0 1 2 1
1 approach_north North.approach/0 Supervisor.warn/0
2 lower Barrier.lower/0 Supervisor.lower/2
3 raise Barrier.raise/1 Supervisor.raise/3
4 enter_north North.enter/1
state North [inside] trips=0
state South [away] trips=0
state Barrier [up]
state Supervisor [calm]

== crossing_raises_without_a_rule
The picks of crossing_stays_down_for_a_train: without the rule the barrier is raised over the train.
@ plant is examples/crossing.plant without prio raise < leave_north
$ trace plant 0 1 1 2
1 approach_north North.approach/0 Supervisor.warn/0
2 lower Barrier.lower/0 Supervisor.lower/2
3 enter_north North.enter/1
4 raise Barrier.raise/1 Supervisor.raise/3
state North [inside] trips=0
state South [away] trips=0
state Barrier [up]
state Supervisor [calm]

== crossing_stays_down_for_a_train
A train is inside. The barrier could be raised, as crossing_raises_without_a_rule shows; the train goes before.
$ trace examples/crossing.plant 0 1 1 2
1 approach_north North.approach/0 Supervisor.warn/0
2 lower Barrier.lower/0 Supervisor.lower/2
3 enter_north North.enter/1
4 approach_south South.approach/0 Supervisor.warn/1
state North [inside] trips=0
state South [near] trips=0
state Barrier [down]
state Supervisor [warned]

== crossing_waits_in_front_of_a_train
The barrier is down and a train near: it enters, or the other one comes; the barrier is not raised in front of it.
$ trace examples/crossing.plant 0 1 2
1 approach_north North.approach/0 Supervisor.warn/0
2 lower Barrier.lower/0 Supervisor.lower/2
3 approach_south South.approach/0 Supervisor.warn/1
state North [near] trips=0
state South [near] trips=0
state Barrier [down]
state Supervisor [warned]

== example_atomic_broadcast
Both followers get the entries 1 and 3, and entry 2 neither: they were saving.
$ trace examples/atomic_broadcast.plant 0 0 1 1 0
1 broadcast Leader.send/0 First.take/0 Second.take/0
2 broadcast Leader.send/0
3 save_first First.save/1
4 save_second Second.save/1
5 broadcast Leader.send/0 First.take/0 Second.take/0
state Leader [leading] entry=4
state First [saving] entry=3 saved=1
state Second [saving] entry=3 saved=1

== example_broadcast
$ trace examples/broadcast.plant 3 2 7 0 5
1 broadcast Sensor.send/0 Display.show/0 Logger.log/0
2 broadcast Sensor.send/0 Logger.log/0
3 broadcast Sensor.send/0 Display.show/1
4 clear Display.clear/2
stuck
state Sensor [on] reading=40
state Display [blank] shown=30
state Logger [open] sum=30 count=2

== example_buffer
$ trace examples/buffer.plant 0 0 1 1 7
1 start Maker.start/0
2 store Maker.store/1 Buffer.store/0
3 fetch Buffer.fetch/1 Packer.fetch/0
4 pack Packer.pack/1
5 start Maker.start/0
state Maker [working] made=1
state Buffer [open] stored=0
state Packer [idle] level=1 packed=1

== example_crossing
Both trains pass behind a lowered barrier, and it is raised when both are gone.
$ trace examples/crossing.plant 0 1 1 0 1 1 1 2
1 approach_north North.approach/0 Supervisor.warn/0
2 lower Barrier.lower/0 Supervisor.lower/2
3 enter_north North.enter/1
4 approach_south South.approach/0 Supervisor.warn/1
5 leave_north North.leave/2
6 enter_south South.enter/1
7 leave_south South.leave/2
8 raise Barrier.raise/1 Supervisor.raise/3
state North [away] trips=1
state South [away] trips=1
state Barrier [up]
state Supervisor [calm]

== example_elevator
$ trace examples/elevator.plant 2 2 1 0 2 3
1 pass Door.pass/3 Load.change/0
2 pass Door.pass/3 Load.change/0
3 shut Door.shut/2 Load.read/2 Bell.ring/0
4 up Cabin.up/0 Door.move/0
5 open Door.open/1
6 pass Door.pass/3 Load.change/1
state Cabin [halted] floor=1
state Door [open]
state Load [measuring] people=1
state Bell [ready] rung=1 load=2

== example_kiln
The door is opened and shut again between two burns.
$ trace examples/kiln.plant 0 0 2 1 0
1 light Burner.light/0
2 burn Burner.burn/1 Kiln.warm/0
3 open Door.open/0
4 shut Door.shut/1
5 burn Burner.burn/1 Kiln.warm/0
state Burner [lit]
state Door [shut]
state Kiln [loaded] heat=6

== example_light
$ trace examples/light.plant 0 0 0 0 0 0 0
1 push Button.push/0 Light.switch/0 Counter.count/0
2 release Button.release/1
3 push Button.push/0 Light.switch/1 Counter.count/0
4 release Button.release/1
5 push Button.push/0 Light.switch/0 Counter.count/0
6 release Button.release/1
stuck
state Button [up]
state Light [lit]
state Counter [counting] pushes=3

== example_philosophers
Plato and Kant eat at the same time, and Hume when both have done.
$ trace examples/philosophers.plant 0 0 0 1 1
1 plato_eats Plato.eat/0 Fork0.take/0 Fork1.take/0
2 kant_eats Kant.eat/0 Fork2.take/0 Fork3.take/0
3 plato_thinks Plato.think/1 Fork0.leave/1 Fork1.leave/1
4 kant_thinks Kant.think/1 Fork2.leave/1 Fork3.leave/1
5 hume_eats Hume.eat/0 Fork1.take/0 Fork2.take/0
state Plato [thinking] meals=1
state Hume [eating] meals=0
state Kant [thinking] meals=1
state Mill [thinking] meals=0
state Fork0 [free]
state Fork1 [used]
state Fork2 [used]
state Fork3 [free]

== example_press
The operator reaches in and draws back; the door is shut and locked for a stroke, and unlocked behind it.
$ trace examples/press.plant 0 0 1 1 0 0 1
1 reach Door.reach/0 Operator.move/0
2 reach Door.reach/0 Operator.move/1
3 shut Door.shut/1 Operator.look/2
4 lock Door.lock/3
5 lower Press.lower/0
6 raise Press.raise/1
7 unlock Door.unlock/4
state Press [raised] strokes=1
state Door [shut]
state Operator [working] hands=0

== example_sample
$ trace examples/sample.plant 0 1 0 1
1 tick A.t/0
2 send A.t/0 B.u/0
3 tick A.t/0
4 send A.t/0 B.u/0
state A [s] n=4
state B [s] m=3

== kiln_burns_with_an_open_door_without_its_rule
The picks of kiln_does_not_burn_with_an_open_door: without the rule the kiln is heated while the door is open.
@ plant is examples/kiln.plant without prio burn < stop when Door at open
$ trace plant 0 0 2 0
1 light Burner.light/0
2 burn Burner.burn/1 Kiln.warm/0
3 open Door.open/0
4 burn Burner.burn/1 Kiln.warm/0
state Burner [lit]
state Door [open]
state Kiln [loaded] heat=6

== kiln_does_not_burn_with_an_open_door
The door is open and the burner lit: stopping goes before burning.
$ trace examples/kiln.plant 0 0 2 0
1 light Burner.light/0
2 burn Burner.burn/1 Kiln.warm/0
3 open Door.open/0
4 stop Burner.stop/2
state Burner [out]
state Door [open]
state Kiln [loaded] heat=3

== kiln_never_burns_without_its_condition
The plant of examples/kiln.plant, but that its rule always counts: a lit burner is stopped, behind a shut door too.
$ trace plant 0 0 0 1 0
1 light Burner.light/0
2 stop Burner.stop/2
3 light Burner.light/0
4 open Door.open/0
5 stop Burner.stop/2
state Burner [out]
state Door [open]
state Kiln [loaded] heat=0
-- plant
atom Burner
place out init
place lit
port light
port burn
port stop
trans light from out to lit
trans burn from lit to lit
trans stop from lit to out
atom Door
place shut init
place open
port open
port shut
port draught
trans open from shut to open
trans shut from open to shut
trans draught from open to open
atom Kiln
place loaded init
var heat 0
port warm
port cool
trans warm from loaded to loaded when < heat 12 do heat := + heat 3
trans cool from loaded to loaded when < 0 heat do heat := - heat 1
connector light Burner.light
connector burn Burner.burn Kiln.warm
connector stop Burner.stop
connector open Door.open
connector shut Door.shut
connector cool Door.draught Kiln.cool
prio burn < stop

== philosophers_wait_for_both_forks
While Mill eats, Kant and Plato can take neither of their forks alone: Hume eats, or Mill thinks, and nothing else is possible.
$ trace examples/philosophers.plant 3 1 3 2
1 mill_eats Mill.eat/0 Fork0.take/0 Fork3.take/0
2 mill_thinks Mill.think/1 Fork0.leave/1 Fork3.leave/1
3 mill_eats Mill.eat/0 Fork0.take/0 Fork3.take/0
4 hume_eats Hume.eat/0 Fork1.take/0 Fork2.take/0
state Plato [thinking] meals=0
state Hume [eating] meals=0
state Kant [thinking] meals=0
state Mill [eating] meals=1
state Fork0 [used]
state Fork1 [used]
state Fork2 [used]
state Fork3 [used]

== press_comes_down_without_a_rule
The picks of press_stays_up_where_one_reaches_in: without the rule the press is down and two hands are within.
@ plant is examples/press.plant without prio lower < reach
$ trace plant 0 1
1 lower Press.lower/0
2 reach Door.reach/0 Operator.move/0
state Press [lowered] strokes=0
state Door [open]
state Operator [working] hands=2

== press_door_waits_for_the_hands
Hands are within: the door does not shut, and the press does not come down, whatever the picks.
$ trace examples/press.plant 0 1 2
1 reach Door.reach/0 Operator.move/0
2 reach Door.reach/0 Operator.move/1
3 reach Door.reach/0 Operator.move/0
state Press [raised] strokes=0
state Door [open]
state Operator [working] hands=2

== press_is_raised_before_the_door_is_unlocked
The press is down. The door could be unlocked, as press_unlocks_without_a_rule shows; raising goes before.
$ trace examples/press.plant 1 1 0 1
1 shut Door.shut/1 Operator.look/2
2 lock Door.lock/3
3 lower Press.lower/0
4 raise Press.raise/1
state Press [raised] strokes=1
state Door [locked]
state Operator [working] hands=0

== press_opens_without_a_rule
The picks of press_stays_up_where_the_door_can_open: without the rule the door opens while the press is down.
@ plant is examples/press.plant without prio lower < open
$ trace plant 1 0 1
1 shut Door.shut/1 Operator.look/2
2 lower Press.lower/0
3 open Door.open/2
state Press [lowered] strokes=0
state Door [open]
state Operator [working] hands=0

== press_stays_up_where_one_reaches_in
The door is open. The press could come down, as press_comes_down_without_a_rule shows; reaching in goes before.
$ trace examples/press.plant 0 1
1 reach Door.reach/0 Operator.move/0
2 reach Door.reach/0 Operator.move/1
state Press [raised] strokes=0
state Door [open]
state Operator [working] hands=0

== press_stays_up_where_the_door_can_open
The door is shut and not locked. The press could come down, as press_opens_without_a_rule shows; opening goes before.
$ trace examples/press.plant 1 0 1
1 shut Door.shut/1 Operator.look/2
2 open Door.open/2
3 shut Door.shut/1 Operator.look/2
state Press [raised] strokes=0
state Door [shut]
state Operator [working] hands=0

== press_unlocks_without_a_rule
The picks of press_is_raised_before_the_door_is_unlocked: without the rule the door is unlocked while the press is down.
@ plant is examples/press.plant without prio unlock < raise
$ trace plant 1 1 0 1
1 shut Door.shut/1 Operator.look/2
2 lock Door.lock/3
3 lower Press.lower/0
4 unlock Door.unlock/4
state Press [lowered] strokes=0
state Door [shut]
state Operator [working] hands=0
