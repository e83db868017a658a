`step`: choices by number and by name, until something is possible, and why something is not.

== fires_after_taking_back
The next firing gets the number of the one that was taken back. The last line has no line feed.
$ step examples/sample.plant
< 0
< 0
< back
< 1
\ no line feed
state A [s] n=0
state B [s] m=0
0 tick A.t/0
1 send A.t/0 B.u/0
end
1 tick A.t/0
state A [s] n=1
state B [s] m=0
0 tick A.t/0
1 send A.t/0 B.u/0
end
2 tick A.t/0
state A [s] n=2
state B [s] m=0
0 tick A.t/0
1 send A.t/0 B.u/0
end
state A [s] n=1
state B [s] m=0
0 tick A.t/0
1 send A.t/0 B.u/0
end
2 send A.t/0 B.u/0
state A [s] n=2
state B [s] m=1
0 tick A.t/0
1 send A.t/0 B.u/0
end

== fires_by_number
A number fires the choice with this number, and then it is told where the plant stands.
$ step examples/sample.plant
< 0
< 1
state A [s] n=0
state B [s] m=0
0 tick A.t/0
1 send A.t/0 B.u/0
end
1 tick A.t/0
state A [s] n=1
state B [s] m=0
0 tick A.t/0
1 send A.t/0 B.u/0
end
2 send A.t/0 B.u/0
state A [s] n=2
state B [s] m=1
0 tick A.t/0
1 send A.t/0 B.u/0
end

== fires_by_the_name_of_a_connector
A connector that has one choice fires it.
$ step examples/sample.plant
< fire send
< fire tick
state A [s] n=0
state B [s] m=0
0 tick A.t/0
1 send A.t/0 B.u/0
end
1 send A.t/0 B.u/0
state A [s] n=1
state B [s] m=0
0 tick A.t/0
1 send A.t/0 B.u/0
end
2 tick A.t/0
state A [s] n=2
state B [s] m=0
0 tick A.t/0
1 send A.t/0 B.u/0
end

== fires_no_connector_that_gives_way
$ step plant
< fire other
state A [s]
state O [s]
0 tick A.t/0
end
other: possible, gives way to tick (line 11: prio other < tick)
end
-- plant
atom A
place s init
port t
trans t from s to s
atom O
place s init
port o
trans o from s to s
connector tick A.t
connector other O.o
prio other < tick

== fires_no_connector_with_a_thousand_and_one_choices
The first 1,000 numbers are told. 7 x 11 x 13 choices are 1,001.
$ step more.plant
< fire all
= tests/fixtures/fires_no_connector_with_a_thousand_and_one_choices.stdout
-- more.plant
atom A
place s init
port t
trans t from s to s
trans t from s to s
trans t from s to s
trans t from s to s
trans t from s to s
trans t from s to s
trans t from s to s
atom B
place s init
port t
trans t from s to s
trans t from s to s
trans t from s to s
trans t from s to s
trans t from s to s
trans t from s to s
trans t from s to s
trans t from s to s
trans t from s to s
trans t from s to s
trans t from s to s
atom C
place s init
port t
trans t from s to s
trans t from s to s
trans t from s to s
trans t from s to s
trans t from s to s
trans t from s to s
trans t from s to s
trans t from s to s
trans t from s to s
trans t from s to s
trans t from s to s
trans t from s to s
trans t from s to s
connector all A.t B.t C.t

== fires_no_connector_with_no_choice
Why it has none is told as the command why tells it.
$ step examples/light.plant
< fire release
< fire push
< fire push
state Button [up]
state Light [dark]
state Counter [counting] pushes=0
0 push Button.push/0 Light.switch/0 Counter.count/0
end
release: Button.release offers nothing: place down is not marked
end
1 push Button.push/0 Light.switch/0 Counter.count/0
state Button [down]
state Light [lit]
state Counter [counting] pushes=1
0 release Button.release/1
end
push: Button.push offers nothing: place up is not marked
end

== fires_no_connector_with_several_choices
Its choices are told by the numbers that fire them, and nothing is fired.
$ step plant
< fire both
< fire last
< 2
state A [s]
state B [s]
0 first B.u/0
1 both A.t/0
2 both A.t/1
3 last B.u/0
end
both has 2 choices: 1, 2
end
1 last B.u/0
state A [s]
state B [s]
0 first B.u/0
1 both A.t/0
2 both A.t/1
3 last B.u/0
end
2 both A.t/1
state A [s]
state B [s]
0 first B.u/0
1 both A.t/0
2 both A.t/1
3 last B.u/0
end
-- plant
atom A
place s init
port t
trans t from s to s
trans t from s to s
atom B
place s init
port u
trans u from s to s
connector first B.u
connector both A.t
connector last B.u

== no_such_choice
Nothing is fired, and the plant stands where it stood.
$ step examples/sample.plant
< 2
< 007
< 1
state A [s] n=0
state B [s] m=0
0 tick A.t/0
1 send A.t/0 B.u/0
end
no choice 2: there are 2 choices (0 to 1)
end
no choice 7: there are 2 choices (0 to 1)
end
1 send A.t/0 B.u/0
state A [s] n=1
state B [s] m=0
0 tick A.t/0
1 send A.t/0 B.u/0
end

== one_choice
$ step examples/light.plant
< 1
state Button [up]
state Light [dark]
state Counter [counting] pushes=0
0 push Button.push/0 Light.switch/0 Counter.count/0
end
no choice 1: there is 1 choice (0)
end

== rule_that_counts_by_turns
The list of choices is that of the present state, also where a firing is taken back.
$ step plant
< 0
< back
< why other
< 0
< 1
< why other
< 0
< 1
state A [on]
state O [s]
0 tick A.t/0
end
1 tick A.t/0
state A [off]
state O [s]
0 tick A.t/1
1 other O.o/0
end
state A [on]
state O [s]
0 tick A.t/0
end
other: possible, gives way to tick (line 13: prio other < tick when A at on)
end
1 tick A.t/0
state A [off]
state O [s]
0 tick A.t/1
1 other O.o/0
end
2 other O.o/0
state A [off]
state O [s]
0 tick A.t/1
1 other O.o/0
end
other: can be fired
end
3 tick A.t/1
state A [on]
state O [s]
0 tick A.t/0
end
no choice 1: there is 1 choice (0)
end
-- plant
atom A
place on init
place off
port t
trans t from on to off
trans t from off to on
atom O
place s init
port o
trans o from s to s
connector tick A.t
connector other O.o
prio other < tick when A at on

== until_a_connector_can_be_fired
Each state of this plant has one choice. A connector that can be fired at once needs no other, and is not fired.
$ step examples/light.plant
< until push
< until release
< until release
< until push 1
state Button [up]
state Light [dark]
state Counter [counting] pushes=0
0 push Button.push/0 Light.switch/0 Counter.count/0
end
state Button [up]
state Light [dark]
state Counter [counting] pushes=0
0 push Button.push/0 Light.switch/0 Counter.count/0
push: can be fired
end
1 push Button.push/0 Light.switch/0 Counter.count/0
state Button [down]
state Light [lit]
state Counter [counting] pushes=1
0 release Button.release/1
release: can be fired
end
state Button [down]
state Light [lit]
state Counter [counting] pushes=1
0 release Button.release/1
release: can be fired
end
2 release Button.release/1
state Button [up]
state Light [lit]
state Counter [counting] pushes=1
0 push Button.push/0 Light.switch/1 Counter.count/0
push: can be fired
end

== until_it_is_stuck
$ step plant
< until d
< until d 5
< until c 5
state A [p]
state B [s]
0 c A.t/0
end
1 c A.t/0
state A [q]
state B [s]
stuck
d: can't be fired (stuck)
end
state A [q]
state B [s]
stuck
d: can't be fired (stuck)
end
state A [q]
state B [s]
stuck
c: can't be fired (stuck)
end
-- plant
atom A
place p init
place q
port t
trans t from p to q
atom B
place r
place s init
port u
trans u from r to s
connector c A.t
connector d B.u

== until_the_limit
The connector d can never be fired.
$ step plant
< until d 3
< until d 0
state A [p]
state B [s]
0 c A.t/0
end
1 c A.t/0
2 c A.t/0
3 c A.t/0
state A [p]
state B [s]
0 c A.t/0
d: can't be fired yet (limit 3)
end
state A [p]
state B [s]
0 c A.t/0
d: can't be fired yet (limit 0)
end
-- plant
atom A
place p init
port t
trans t from p to p
atom B
place r
place s init
port u
trans u from r to s
connector c A.t
connector d B.u

== why_of_a_connector
$ step examples/light.plant
< why release
< why lamp
state Button [up]
state Light [dark]
state Counter [counting] pushes=0
0 push Button.push/0 Light.switch/0 Counter.count/0
end
release: Button.release offers nothing: place down is not marked
end
'lamp' is no connector of the plant
end

== why_of_each_connector
$ step examples/light.plant
< why
< 0
< why
state Button [up]
state Light [dark]
state Counter [counting] pushes=0
0 push Button.push/0 Light.switch/0 Counter.count/0
end
push: can be fired
release: Button.release offers nothing: place down is not marked
end
1 push Button.push/0 Light.switch/0 Counter.count/0
state Button [down]
state Light [lit]
state Counter [counting] pushes=1
0 release Button.release/1
end
push: Button.push offers nothing: place up is not marked
release: can be fired
end
