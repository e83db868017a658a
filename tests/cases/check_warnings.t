`check`: what is no fault and looks like a mistake; `--all`, the first fault of each line.

== all_faults
A line with a fault counts as empty: so line 6 has one too, since no line declares t.
$ check --all plant
! plant line 3: fault 6 Twice
! plant line 4: fault 9 BadNumber
! plant line 5: fault 7 UnknownName
! plant line 6: fault 7 UnknownName
! plant line 7: fault 7 UnknownName
? 1
-- plant
atom A
place s init
place s
var n 12x
port t m
trans t from s to s
connector c A.t

== all_faults_but_not_of_the_whole_text
With line 1 empty there is no atom. That is a fault of no line, and not told.
$ check --all plant
! plant line 1: fault 5 BadName
? 1
-- plant
atom 1A

== all_faults_explained
$ check --all --explain plant
! plant line 2: fault 6 Twice
!   plant:2:6
!   atom A
!        ^ a name is declared already, or stands twice where it may stand once
!   'A' stands on line 1 already
! plant line 5: fault 6 Twice
!   plant:5:6
!   atom B
!        ^ a name is declared already, or stands twice where it may stand once
!   'B' stands on line 4 already
? 1
-- plant
atom A
atom A
place s init
atom B
atom B

== all_faults_of_a_plant_without_one
$ check --all examples/sample.plant
atoms 2 connectors 2 interactions 2 rules 0

== all_faults_of_more_lines
$ check --all plant
! plant line 3: fault 3 UnknownWord
! plant line 4: fault 3 UnknownWord
! plant line 5: fault 3 UnknownWord
! plant line 6: fault 3 UnknownWord
! plant line 7: fault 3 UnknownWord
! plant line 8: fault 3 UnknownWord
! plant line 9: fault 3 UnknownWord
! plant line 10: fault 3 UnknownWord
! plant line 11: fault 3 UnknownWord
! plant line 12: fault 3 UnknownWord
! plant line 13: fault 3 UnknownWord
! plant line 14: fault 3 UnknownWord
! plant line 15: fault 3 UnknownWord
! plant line 16: fault 3 UnknownWord
! plant line 17: fault 3 UnknownWord
! plant line 18: fault 3 UnknownWord
! plant line 19: fault 3 UnknownWord
! plant line 20: fault 3 UnknownWord
! plant line 21: fault 3 UnknownWord
! plant line 22: fault 3 UnknownWord
! more than 20 lines have a fault: the others are not told
? 1
-- plant
atom A
place s init
what1
what2
what3
what4
what5
what6
what7
what8
what9
what10
what11
what12
what13
what14
what15
what16
what17
what18
what19
what20
what21
what22
what23
what24

== all_faults_of_twenty_lines
$ check --all plant
! plant line 3: fault 3 UnknownWord
! plant line 4: fault 3 UnknownWord
! plant line 5: fault 3 UnknownWord
! plant line 6: fault 3 UnknownWord
! plant line 7: fault 3 UnknownWord
! plant line 8: fault 3 UnknownWord
! plant line 9: fault 3 UnknownWord
! plant line 10: fault 3 UnknownWord
! plant line 11: fault 3 UnknownWord
! plant line 12: fault 3 UnknownWord
! plant line 13: fault 3 UnknownWord
! plant line 14: fault 3 UnknownWord
! plant line 15: fault 3 UnknownWord
! plant line 16: fault 3 UnknownWord
! plant line 17: fault 3 UnknownWord
! plant line 18: fault 3 UnknownWord
! plant line 19: fault 3 UnknownWord
! plant line 20: fault 3 UnknownWord
! plant line 21: fault 3 UnknownWord
! plant line 22: fault 3 UnknownWord
? 1
-- plant
atom A
place s init
what1
what2
what3
what4
what5
what6
what7
what8
what9
what10
what11
what12
what13
what14
what15
what16
what17
what18
what19
what20

== all_faults_where_none_is_of_a_line
$ check --all plant
! plant line 0: fault 14 NoAtom
? 1
-- plant
# nothing but this

== no_warnings
$ check --warn plant
atoms 2 connectors 2 interactions 3 rules 2
-- plant
atom S
place idle init
place sent
var n 0
var sum 0
port say n
port rest sum
trans say from idle to sent when < n 9 do n := + n 1 ; sum := + sum n
trans rest from sent to idle
atom A
place on init
var heard 0
var last 0
port hear heard last
trans hear from on to on
connector say S.say' A.hear
guard < A.last 3
move A.heard := S.n
maximal say
connector rest S.rest A.hear
move A.last := + A.heard 1
prio rest < say:1 when A at on

== variable_read_by_a_connector_alone
$ check --warn plant
atoms 2 connectors 1 interactions 1 rules 0
plant:9: warning: variable B.z is never read
-- plant
atom A
place s init
var x 1
var y 2
port p x y
trans p from s to s
atom B
place s init
var z 0
port q z
trans q from s to s
connector c A.p B.q
guard < A.x 9
move B.z := A.y

== warning_of_a_value_that_the_state_alone_shows
$ check --warn examples/sample.plant
atoms 2 connectors 2 interactions 2 rules 0
examples/sample.plant:8: warning: variable B.m is never read

== warnings_of_a_refused_plant
$ check --warn plant
! plant line 3: fault 6 Twice
? 1
-- plant
atom A
place s init
place s

== warnings_of_a_rule_with_a_condition
A rule with a condition orders nothing where a side of it has a guard 0. That its place is never marked is told of the place.
$ check --warn plant
atoms 2 connectors 2 interactions 2 rules 2
plant:3: warning: place A.never is never marked
plant:11: warning: connector tick can't be fired: a guard is 0
plant:13: warning: rule orders nothing: connector tick can't be fired
plant:14: warning: rule orders nothing: connector tick can't be fired
-- plant
atom A
place on init
place never
port t
trans t from on to on
atom O
place s init
port o
trans o from s to s
connector tick A.t
guard 0
connector other O.o
prio other < tick when A at on
prio other < tick when A at never

== warnings_of_atoms
$ check --warn one.plant
atoms 2 connectors 2 interactions 2 rules 0
one.plant:2: warning: atom Pump has no place that is marked at first, so it never moves
one.plant:3: warning: place Pump.off is never marked
one.plant:15: warning: port Lamp.shake is in no connector
one.plant:15: warning: port Lamp.shake has no transition
one.plant:16: warning: port Lamp.read is in no connector
one.plant:11: warning: place Lamp.broken is never marked
one.plant:13: warning: variable Lamp.watts is never read
-- one.plant
# A pump that nothing starts, and a lamp with parts left over.
atom Pump
place off
place on
port start
trans start from off to on

atom Lamp
place dark init
place bright
place broken
var times 0
var watts 60
port press times
port shake
port read
trans press from dark to bright do times := + times 1
trans press from bright to dark
trans read from dark to dark
connector switch Lamp.press
connector begin Pump.start

== warnings_of_connectors_and_rules
$ check --warn two.plant
atoms 2 connectors 3 interactions 3 rules 5
two.plant:13: warning: connector tick can't be fired: a guard is 0
two.plant:16: warning: connector both can't be fired: a guard is 0
two.plant:19: warning: rule orders nothing: connector both has no interaction within another
two.plant:20: warning: rule orders nothing: connector tick can't be fired
two.plant:22: warning: rule orders nothing: connector both can't be fired
two.plant:23: warning: rule orders nothing: connector tick can't be fired
two.plant:24: warning: rule orders nothing: connector one has no interaction within another
-- two.plant
atom A
place s init
var n 0
port t n
trans t from s to s do n := 1
atom B
place s init
var m 0
port u m
trans u from s to s when < m 9
connector tick A.t
guard < A.n 5
guard 0
connector both A.t B.u
move B.m := 3
guard 0
connector one B.u
# the order
maximal both
prio tick < one

prio one < both:3
prio tick < both
maximal one

== warnings_of_each_kind
$ check --warn plant
atoms 2 connectors 2 interactions 2 rules 2
plant:9: warning: port A.idle is in no connector
plant:9: warning: port A.idle has no transition
plant:4: warning: place A.lost is never marked
plant:7: warning: variable A.spare is never read
plant:11: warning: atom B has no place that is marked at first, so it never moves
plant:18: warning: connector d can't be fired: a guard is 0
plant:19: warning: rule orders nothing: connector c has no interaction within another
plant:20: warning: rule orders nothing: connector d can't be fired
-- plant
# A plant with a mistake of each kind.
atom A
place s init
place lost
var n 0
var seen 0
var spare 0
port p seen
port idle
trans p from s to s do n := + n 1
atom B
place s
port q
trans q from s to s
connector c A.p
guard < A.seen 3
connector d B.q
guard 0
maximal c
prio d < c

== warnings_on_the_standard_input
$ check - --warn
< atom A
< place s init
< port p
< port q
< trans p from s to s
< trans q from s to s
< connector c A.p
atoms 1 connectors 1 interactions 1 rules 0
-:4: warning: port A.q is in no connector
