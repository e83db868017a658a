`check --explain`: the line with the mark below it, and advice, where a rule is at fault; the rules of a cycle.

== bad_mask
$ check --explain p
! plant line 14: fault 9 BadNumber
!   p:14:6
!   prio tick:x < send
!        ^^^^^^ a mask is digits alone
!   the masks of connector tick: 1
!   a mask is the sum of the ports that take part: 1 for the first of the connector, 2 for the second, 4 for the third, ..
? 1
-- p = examples/sample.plant and
prio tick:x < send

== cycle
An order of rules that is none is a fault of no line, and none is shown.
$ check --explain plant
! plant line 0: fault 12 Cycle(0)
!   the rules put connector c, mask 1 below itself
!   line 13: prio c < d
!   line 14: prio d < c
? 1
-- plant
atom A
place s init
var n 0
port t n
trans t from s to s
atom B
place s init
var m 0
port u m
trans u from s to s
connector c A.t
connector d B.u
prio c < d
prio d < c

== cycle_long
$ check --explain p
! plant line 0: fault 12 Cycle(0)
!   the rules put connector tick, mask 1 below itself
!   line 16: prio tick < send
!   line 17: prio send < more:1
!   line 18: maximal more
!   line 19: maximal tick
!   line 20: prio more:1 < tick
? 1
-- p = examples/sample.plant and
connector more A.t' B.u
# x
prio tick < send
prio send < more:1
maximal more
maximal tick
prio more:1 < tick
connector other A.t
prio other < tick

== cycle_mask
$ check --explain p
! plant line 0: fault 12 Cycle(0)
!   the rules put connector tick, mask 1 below itself
!   line 16: prio tick < tick
? 1
-- p = examples/sample.plant and
maximal send
prio tick < send:3
prio tick < tick

== cycle_of_two_rules
$ check --explain p
! plant line 0: fault 12 Cycle(0)
!   the rules put connector tick, mask 1 below itself
!   line 14: prio tick < send
!   line 15: prio send < tick
? 1
-- p = examples/sample.plant and
prio tick < send
prio send < tick

== greater_rule_end
$ check --explain p
! plant line 14: fault 10 Shape
!   p:14:11
!   prio tick >
!             ^ a word is missing, misplaced or left over
!   expected '<', found '>'
? 1
-- p = examples/sample.plant and
prio tick >

== greater_rule_long
$ check --explain p
! plant line 14: fault 10 Shape
!   p:14:11
!   prio tick > bbbbbbbbbbbbbbbbbbbbbbbbbbbbbbbbbbbbbbbbbbbbbbbbbbbbbbbbbbbbbbbbbbbbbbbbbbbbbbbbbbbbb...
!             ^ a word is missing, misplaced or left over
!   expected '<', found '>'
!   write 'prio bbbbbbbbbbbbbbbbbbbbbbbbbbbbbbbbbbbbbbbbbbbbbbbbbbbbbbbbbbbbbbbbbbbbbbbbbbbbbbbbbbbbbbbbbbbb...'
? 1
-- p = examples/sample.plant and
prio tick > bbbbbbbbbbbbbbbbbbbbbbbbbbbbbbbbbbbbbbbbbbbbbbbbbbbbbbbbbbbbbbbbbbbbbbbbbbbbbbbbbbbbbbbbbbbbbbbbbbbb

== greater_rule_more
$ check --explain p
! plant line 14: fault 10 Shape
!   p:14:11
!   prio tick > send > tick
!             ^ a word is missing, misplaced or left over
!   expected '<', found '>'
!   write 'prio send < tick'
? 1
-- p = examples/sample.plant and
prio tick > send > tick

== greater_rule_when
$ check --explain p
! plant line 14: fault 10 Shape
!   p:14:14
!   prio tick:1  > send when A at  s
!                ^ a word is missing, misplaced or left over
!   expected '<', found '>'
!   write 'prio send < tick:1 when A at s'
? 1
-- p = examples/sample.plant and
prio tick:1  >	send when A	at  s

== mask
$ check --explain p
! plant line 14: fault 7 UnknownName
!   p:14:13
!   prio tick < send:1
!               ^^^^^^ a name is not known here
!   mask '1' is no interaction of connector send
!   the masks of connector send: 3
!   a mask is the sum of the ports that take part: 1 for the first of the connector, 2 for the second, 4 for the third, ..
? 1
-- p = examples/sample.plant and
prio tick < send:1

== mask_of_a_port
$ check --explain p
! plant line 23: fault 9 BadNumber
!   p:23:6
!   prio c:W.p < d
!        ^^^^^ a mask is digits alone
!   the masks of connector c: 1, 3
!   a mask is the sum of the ports that take part: 1 for the first of the connector, 2 for the second, 4 for the third, ..
? 1
-- p
atom V
place s init
port p
trans p from s to s
atom W
place s init
port p
trans p from s to s
atom X
place s init
port p
trans p from s to s
atom Y
place s init
port p
trans p from s to s
atom Z
place s init
port p
trans p from s to s
connector c V.p' W.p
connector d V.p
prio c:W.p < d

== mask_of_a_trigger
$ check --explain p
! plant line 23: fault 7 UnknownName
!   p:23:6
!   prio c:6 < d
!        ^^^ a name is not known here
!   mask '6' is no interaction of connector c
!   the masks of connector c: 1, 3, 5, 7
!   a mask is the sum of the ports that take part: 1 for the first of the connector, 2 for the second, 4 for the third, ..
? 1
-- p
atom V
place s init
port p
trans p from s to s
atom W
place s init
port p
trans p from s to s
atom X
place s init
port p
trans p from s to s
atom Y
place s init
port p
trans p from s to s
atom Z
place s init
port p
trans p from s to s
connector c V.p' W.p X.p
connector d V.p
prio c:6 < d

== mask_of_many
$ check --explain p
! plant line 23: fault 7 UnknownName
!   p:23:10
!   prio d < c:32
!            ^^^^ a name is not known here
!   mask '32' is no interaction of connector c
!   the masks of connector c: 1, 2, 3, 4, 5, 6, 7, 8, 9, 10, 11, 12, 13, 14, 15, 16, .. (31 in all)
!   a mask is the sum of the ports that take part: 1 for the first of the connector, 2 for the second, 4 for the third, ..
? 1
-- p
atom V
place s init
port p
trans p from s to s
atom W
place s init
port p
trans p from s to s
atom X
place s init
port p
trans p from s to s
atom Y
place s init
port p
trans p from s to s
atom Z
place s init
port p
trans p from s to s
connector c V.p' W.p' X.p' Y.p' Z.p'
connector d V.p
prio d < c:32

== mask_of_no_interaction
A side whose mask is no interaction of its connector is marked whole.
$ check --explain plant
! plant line 14: fault 7 UnknownName
!   plant:14:13
!   prio tick < send:9
!               ^^^^^^ a name is not known here
!   mask '9' is no interaction of connector send
!   the masks of connector send: 3
!   a mask is the sum of the ports that take part: 1 for the first of the connector, 2 for the second, 4 for the third, ..
? 1
-- plant = examples/sample.plant and
prio tick < send:9

== maximal_mask
$ check --explain p
! plant line 14: fault 7 UnknownName
!   p:14:9
!   maximal send:3
!           ^^^^^^ a name is not known here
!   'maximal' takes the name of a connector: write 'maximal send'
? 1
-- p = examples/sample.plant and
maximal send:3

== maximal_mask_no_connector
$ check --explain p
! plant line 14: fault 7 UnknownName
!   p:14:9
!   maximal sent:3
!           ^^^^^^ a name is not known here
!   there is no connector 'sent'; there are: tick, send
!   did you mean 'send'?
? 1
-- p = examples/sample.plant and
maximal sent:3

== maximal_mask_of_letters
$ check --explain p
! plant line 14: fault 7 UnknownName
!   p:14:9
!   maximal tick:A.t
!           ^^^^^^^^ a name is not known here
!   'maximal' takes the name of a connector: write 'maximal tick'
? 1
-- p = examples/sample.plant and
maximal tick:A.t

== maximal_of_two_names
A word behind the connector of `maximal` is marked.
$ check --explain plant
! plant line 14: fault 10 Shape
!   plant:14:14
!   maximal send now
!                ^^^ a word is missing, misplaced or left over
!   nothing more may follow
? 1
-- plant = examples/sample.plant and
maximal send now

== rule_of_many
$ check --explain p
! plant line 14: fault 10 Shape
!   p:14:13
!   prio tick:1 and send:3 and other < a < b
!               ^^^ a word is missing, misplaced or left over
!   expected '<', found 'and'
!   a side of a rule is one connector: write one rule a line
? 1
-- p = examples/sample.plant and
prio tick:1 and send:3 and other < a < b

== rule_of_two
$ check --explain p
! plant line 14: fault 10 Shape
!   p:14:11
!   prio tick send < tick
!             ^^^^ a word is missing, misplaced or left over
!   expected '<', found 'send'
!   a side of a rule is one connector: write one rule a line
? 1
-- p = examples/sample.plant and
prio tick send < tick

== rule_of_two_without_sign
$ check --explain p
! plant line 14: fault 10 Shape
!   p:14:11
!   prio tick send
!             ^^^^ a word is missing, misplaced or left over
!   expected '<', found 'send'
? 1
-- p = examples/sample.plant and
prio tick send

== rule_with_another_sign
Another sign between the sides of a rule is marked.
$ check --explain plant
! plant line 14: fault 10 Shape
!   plant:14:11
!   prio tick > send
!             ^ a word is missing, misplaced or left over
!   expected '<', found '>'
!   write 'prio send < tick'
? 1
-- plant = examples/sample.plant and
prio tick > send

== rule_without_its_sign
Where a rule ends behind its first side the end of the line is marked.
$ check --explain plant
! plant line 14: fault 10 Shape
!   plant:14:10
!   prio tick
!            ^ a word is missing, misplaced or left over
!   expected '<', and the line ends
? 1
-- plant = examples/sample.plant and
prio tick

== unknown_connector_of_a_rule
A rule is marked at the side that names nothing.
$ check --explain plant
! plant line 12: fault 7 UnknownName
!   plant:12:10
!   prio c < d:1
!            ^^^ a name is not known here
!   there is no connector 'd'; there are: c
? 1
-- plant
atom A
place s init
var n 0
port t n
trans t from s to s
atom B
place s init
var m 0
port u m
trans u from s to s
connector c A.t
prio c < d:1
