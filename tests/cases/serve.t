`serve`: a plant on an image that is driven line by line.

== careful_of_an_image_in_doubt
Of three acknowledged records the second has lost its gate, so the third is past the end. With care the plant is not started.
$ format examples/sample.plant image --ring 8 > ignored
$ run examples/sample.plant image acknowledged > ignored
@ image has 00 at 9216
$ serve --careful examples/sample.plant image
< front
! doubt: open cell 10 holds record 3
! image: doubted, and not started from: --careful
? 1
-- acknowledged
fire 0
fire 0
fire 1
flush

== choice_that_is_not_there
$ format examples/crossing.plant image --ring 8 > ignored
$ serve examples/crossing.plant image
< fire enter_north North.enter/1
< fire approach_north North.approach/0 Supervisor.warn/0
< fire approach_north North.approach/0 Supervisor.warn/0
< choices
< fire lower Barrier.lower/0 Supervisor.lower/2
< fire enter_north North.enter/1
< why raise
state North [away] trips=0
state South [away] trips=0
state Barrier [up]
state Supervisor [calm]
front 0 0 1
end
refused 12 NotNow
end
1 approach_north North.approach/0 Supervisor.warn/0
end
refused 12 NotNow
end
0 approach_south South.approach/0 Supervisor.warn/1
1 lower Barrier.lower/0 Supervisor.lower/2
end
2 lower Barrier.lower/0 Supervisor.lower/2
end
3 enter_north North.enter/1
end
raise: possible, gives way to leave_north (line 65: prio raise < leave_north)
end
front 3 0 1
end

== events_and_questions
$ format examples/sample.plant image --ring 8 > ignored
$ serve examples/sample.plant image
< choices
< fire 0
< fire send A.t/0 B.u/0
< front
< flush
< room
< save
< state
< why
< why send
<
< quit
< fire 0
state A [s] n=0
state B [s] m=0
front 0 0 1
end
0 tick A.t/0
1 send A.t/0 B.u/0
end
1 tick A.t/0
end
2 send A.t/0 B.u/0
end
front 2 0 1
end
flushed 2
end
ring 8 live 2 free 6 tail 0 held A
end
saved 2 A B
base 3
end
state A [s] n=2
state B [s] m=1
front 2 2 3
end
tick: can be fired
send: can be fired
end
send: can be fired
end
end
front 2 2 3
end

== full_output
$ format examples/sample.plant image --ring 8 > ignored
@ standard output full
$ serve examples/sample.plant image
< fire 0
? 3

== image_in_use
$ format examples/sample.plant image --ring 8 > ignored
@ image is in use
$ serve examples/sample.plant image
< fire 0
! file image in use
? 3

== image_of_another_plant
$ format examples/sample.plant image --ring 8 > ignored
$ serve examples/light.plant image
< fire 0
! image: refusal 3 OtherSystem
? 1

== mistakes
$ format examples/sample.plant image --ring 8 > ignored
$ serve examples/sample.plant image
< fires 0
< # no comment
< fire
< fire 18446744073709551616
< fire -1
< fire 1 2
< fire sned A.t/0
< fire send A.t/0 B.u/1
< fire send A.t/0
< fire send
< ask
< ask C
< ask A B
< put
< put b
< trim now
< begin
< begin x
< begin 0 1
< back
< back 0
< flush A
< why x
< why send x
< choices 1
< state A
< front 1
< room 1
< save A
< quit now
state A [s] n=0
state B [s] m=0
front 0 0 1
end
mistake 'fires' is no command: fire, flush, ask, put, trim, begin, back, choices, state, why, front, room, save or quit
end
mistake '#' is no command: fire, flush, ask, put, trim, begin, back, choices, state, why, front, room, save or quit
end
mistake the number of a choice is missing, or a choice as a fired line names it: CONNECTOR ATOM.PORT/TRANSITION ..
end
mistake '18446744073709551616' is no number from 0 to 18446744073709551615
end
mistake '-1' is no number from 0 to 18446744073709551615
end
mistake '2' is left over
end
mistake the plant has no connector 'sned'; it has: tick, send
end
mistake 'B.u/1' is no ATOM.PORT/TRANSITION of the plant
end
mistake 'send' has no interaction of these moves
end
mistake 'send' has no interaction of these moves
end
mistake the name of an atom is missing; the plant has: A, B
end
mistake the plant has no atom 'C'; it has: A, B
end
mistake 'B' is left over
end
mistake the name of an atom is missing; the plant has: A, B
end
mistake the plant has no atom 'b'; it has: A, B
end
mistake 'now' is left over
end
mistake the number of a choice is missing
end
mistake 'x' is no number from 0 to 18446744073709551615
end
mistake '1' is left over
end
mistake the name of an atom is missing; the plant has: A, B
end
mistake the plant has no atom '0'; it has: A, B
end
mistake 'A' is left over
end
mistake the plant has no connector 'x'; it has: tick, send
end
mistake 'x' is left over
end
mistake '1' is left over
end
mistake 'A' is left over
end
mistake '1' is left over
end
mistake '1' is left over
end
mistake 'A' is left over
end
mistake 'now' is left over
end
front 0 0 1
end

== no_image
$ serve examples/sample.plant none
< fire 0
! file none
? 3

== no_input
$ format examples/sample.plant image --ring 8 > ignored
$ serve examples/sample.plant image
state A [s] n=0
state B [s] m=0
front 0 0 1
end
front 0 0 1
end

== refusals
$ format examples/sample.plant image --ring 8 > ignored
$ serve examples/sample.plant image
< put A
< back A
< ask A
< trim
< fire 0
< ask A
< put A
< flush
< put A
< begin 1
< fire 0
< ask A
< back A
< back B
< fire 7
< fire 7
< fire 7
< fire 7
< fire 7
< fire 7
< fire 7
state A [s] n=0
state B [s] m=0
front 0 0 1
end
nothing A
end
nothing A
end
refused 9 NothingNew
end
refused 9 NothingNew
end
1 tick A.t/0
end
asked A 1
end
refused 7 Ahead(0)
end
flushed 1
end
stored A 1
end
2 send A.t/0 B.u/0 begun
end
refused 2 Busy
end
refused 6 Away(0)
end
back A
end
back B
end
3 send A.t/0 B.u/0
end
4 send A.t/0 B.u/0
end
5 send A.t/0 B.u/0
end
6 send A.t/0 B.u/0
end
7 send A.t/0 B.u/0
end
8 send A.t/0 B.u/0
end
refused 4 RingFull
end
front 8 1 1
end

== stopped_without_a_flush
$ format examples/sample.plant image --ring 8 > ignored
$ serve examples/sample.plant image
< fire 0
< flush
< fire 0
state A [s] n=0
state B [s] m=0
front 0 0 1
end
1 tick A.t/0
end
flushed 1
end
2 tick A.t/0
end
front 2 1 1
end
$ recover examples/sample.plant image
state A [s] n=1
state B [s] m=0
front 1 1 1

== stuck
$ format examples/light.plant image --ring 8 > ignored
$ serve examples/light.plant image
< fire 0
< fire 0
< fire 0
< fire 0
< fire 0
< fire 0
< fire 0
< begin 0
< fire release Button.release/1
< choices
< why
< why push
state Button [up]
state Light [dark]
state Counter [counting] pushes=0
front 0 0 1
end
1 push Button.push/0 Light.switch/0 Counter.count/0
end
2 release Button.release/1
end
3 push Button.push/0 Light.switch/1 Counter.count/0
end
4 release Button.release/1
end
5 push Button.push/0 Light.switch/0 Counter.count/0
end
6 release Button.release/1
end
refused 1 Stuck
end
refused 1 Stuck
end
refused 12 NotNow
end
stuck
end
push: guard '< Counter.pushes 3' is 0 (Counter.pushes=3)
release: Button.release offers nothing: place down is not marked
end
push: guard '< Counter.pushes 3' is 0 (Counter.pushes=3)
end
front 6 0 1
end

== tail_full
$ format examples/sample.plant image --ring 128 > ignored
$ serve examples/sample.plant image
<= tests/fixtures/tail_full.stdin
= tests/fixtures/serve.tail_full.stdout
