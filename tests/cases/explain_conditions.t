`check --explain`: the line with the mark below it, and advice, where what a rule says after `when` is at fault.

== condition_at
$ check --explain p
! plant line 13: fault 10 Shape
!   p:13:26
!   prio other < tick when A on
!                            ^^ a word is missing, misplaced or left over
!   expected 'at', found 'on'
!   a condition is written as ATOM at PLACE: write 'when A at on'
? 1
-- p
atom A
place on init
place off
port t
trans t from on to off
trans t from off to on
atom O
place s init
port o
trans o from s to s
connector tick A.t
connector other O.o
prio other < tick when A on

== condition_atom
$ check --explain p
! plant line 13: fault 7 UnknownName
!   p:13:24
!   prio other < tick when B at on
!                          ^ a name is not known here
!   there is no atom 'B'; there are: A, O
? 1
-- p
atom A
place on init
place off
port t
trans t from on to off
trans t from off to on
atom O
place s init
port o
trans o from s to s
connector tick A.t
connector other O.o
prio other < tick when B at on

== condition_atom_behind
$ check --explain p
! plant line 13: fault 7 UnknownName
!   p:13:24
!   prio other < tick when B at up
!                          ^ a name is not known here
!   there is no atom 'B'; there are: A, O
!   the line 'atom B' below has to come above this one
? 1
-- p
atom A
place on init
place off
port t
trans t from on to off
trans t from off to on
atom O
place s init
port o
trans o from s to s
connector tick A.t
connector other O.o
prio other < tick when B at up
atom B
place up init

== condition_atom_dot
$ check --explain p
! plant line 13: fault 7 UnknownName
!   p:13:24
!   prio other < tick when A.on
!                          ^^^^ a name is not known here
!   a condition is written as ATOM at PLACE: write 'when A at on'
? 1
-- p
atom A
place on init
place off
port t
trans t from on to off
trans t from off to on
atom O
place s init
port o
trans o from s to s
connector tick A.t
connector other O.o
prio other < tick when A.on

== condition_atom_reserved
$ check --explain p
! plant line 13: fault 7 UnknownName
!   p:13:24
!   prio other < tick when at on
!                          ^^ a name is not known here
!   a condition is written as ATOM at PLACE, and compares nothing
? 1
-- p
atom A
place on init
place off
port t
trans t from on to off
trans t from off to on
atom O
place s init
port o
trans o from s to s
connector tick A.t
connector other O.o
prio other < tick when at on

== condition_begins_with_at
$ check --explain p
! plant line 21: fault 7 UnknownName
!   p:21:17
!   prio c < d when at A r
!                   ^^ a name is not known here
!   a condition is written as ATOM at PLACE: write 'when A at r'
? 1
-- p
atom A
place s init
place r
var n 0
var m 5
port t n
trans t from s to s
atom B
place x init
var k 0
var g 0
var h 0
var i 0
var j 0
port u k g h i
port v
trans u from x to x
trans v from x to x
connector c A.t
connector d B.v
prio c < d when at A r

== condition_comment
$ check --explain p
! plant line 13: fault 10 Shape
!   p:13:32
!   prio other < tick when A at on # while it is on
!                                  ^ a word is missing, misplaced or left over
!   nothing more may follow; a comment needs a line of its own
? 1
-- p
atom A
place on init
place off
port t
trans t from on to off
trans t from off to on
atom O
place s init
port o
trans o from s to s
connector tick A.t
connector other O.o
prio other < tick when A at on # while it is on

== condition_left_over
$ check --explain p
! plant line 13: fault 10 Shape
!   p:13:32
!   prio other < tick when A at on off
!                                  ^^^ a word is missing, misplaced or left over
!   nothing more may follow
? 1
-- p
atom A
place on init
place off
port t
trans t from on to off
trans t from off to on
atom O
place s init
port o
trans o from s to s
connector tick A.t
connector other O.o
prio other < tick when A at on off

== condition_maximal
$ check --explain p
! plant line 13: fault 10 Shape
!   p:13:14
!   maximal tick when A at on
!                ^^^^ a word is missing, misplaced or left over
!   nothing more may follow
? 1
-- p
atom A
place on init
place off
port t
trans t from on to off
trans t from off to on
atom O
place s init
port o
trans o from s to s
connector tick A.t
connector other O.o
maximal tick when A at on

== condition_no_at
$ check --explain p
! plant line 13: fault 10 Shape
!   p:13:25
!   prio other < tick when A
!                           ^ a word is missing, misplaced or left over
!   expected 'at', and the line ends
!   a condition is written as ATOM at PLACE, and compares nothing
? 1
-- p
atom A
place on init
place off
port t
trans t from on to off
trans t from off to on
atom O
place s init
port o
trans o from s to s
connector tick A.t
connector other O.o
prio other < tick when A

== condition_no_atom
$ check --explain p
! plant line 13: fault 10 Shape
!   p:13:23
!   prio other < tick when
!                         ^ a word is missing, misplaced or left over
!   expected an atom, and the line ends
? 1
-- p
atom A
place on init
place off
port t
trans t from on to off
trans t from off to on
atom O
place s init
port o
trans o from s to s
connector tick A.t
connector other O.o
prio other < tick when

== condition_no_place
$ check --explain p
! plant line 13: fault 10 Shape
!   p:13:28
!   prio other < tick when A at
!                              ^ a word is missing, misplaced or left over
!   expected a place, and the line ends
? 1
-- p
atom A
place on init
place off
port t
trans t from on to off
trans t from off to on
atom O
place s init
port o
trans o from s to s
connector tick A.t
connector other O.o
prio other < tick when A at

== condition_of_a_comparison
$ check --explain p
! plant line 21: fault 7 UnknownName
!   p:21:17
!   prio c < d when == A.n 3
!                   ^^ a name is not known here
!   a condition is written as ATOM at PLACE, and compares nothing
? 1
-- p
atom A
place s init
place r
var n 0
var m 5
port t n
trans t from s to s
atom B
place x init
var k 0
var g 0
var h 0
var i 0
var j 0
port u k g h i
port v
trans u from x to x
trans v from x to x
connector c A.t
connector d B.v
prio c < d when == A.n 3

== condition_of_a_variable
$ check --explain p
! plant line 21: fault 7 UnknownName
!   p:21:17
!   prio c < d when A.n
!                   ^^^ a name is not known here
!   a condition is written as ATOM at PLACE, and compares nothing
!   atom A has no place 'n'; it has: s, r
? 1
-- p
atom A
place s init
place r
var n 0
var m 5
port t n
trans t from s to s
atom B
place x init
var k 0
var g 0
var h 0
var i 0
var j 0
port u k g h i
port v
trans u from x to x
trans v from x to x
connector c A.t
connector d B.v
prio c < d when A.n

== condition_place
$ check --explain p
! plant line 13: fault 7 UnknownName
!   p:13:29
!   prio other < tick when A at offf
!                               ^^^^ a name is not known here
!   atom A has no place 'offf'; it has: on, off
!   did you mean 'off'?
? 1
-- p
atom A
place on init
place off
port t
trans t from on to off
trans t from off to on
atom O
place s init
port o
trans o from s to s
connector tick A.t
connector other O.o
prio other < tick when A at offf

== condition_place_behind
$ check --explain p
! plant line 13: fault 7 UnknownName
!   p:13:29
!   prio other < tick when O at t
!                               ^ a name is not known here
!   atom O has no place 't'; it has: s
? 1
-- p
atom A
place on init
place off
port t
trans t from on to off
trans t from off to on
atom O
place s init
port o
trans o from s to s
connector tick A.t
connector other O.o
prio other < tick when O at t
place t

== condition_place_of_another
$ check --explain p
! plant line 13: fault 7 UnknownName
!   p:13:29
!   prio other < tick when A at s
!                               ^ a name is not known here
!   atom A has no place 's'; it has: on, off
? 1
-- p
atom A
place on init
place off
port t
trans t from on to off
trans t from off to on
atom O
place s init
port o
trans o from s to s
connector tick A.t
connector other O.o
prio other < tick when A at s

== condition_twice
$ check --explain p
! plant line 13: fault 10 Shape
!   p:13:32
!   prio other < tick when A at on when A at off
!                                  ^^^^ a word is missing, misplaced or left over
!   nothing more may follow
? 1
-- p
atom A
place on init
place off
port t
trans t from on to off
trans t from off to on
atom O
place s init
port o
trans o from s to s
connector tick A.t
connector other O.o
prio other < tick when A at on when A at off

== condition_when
$ check --explain p
! plant line 13: fault 10 Shape
!   p:13:19
!   prio other < tick if A at on
!                     ^^ a word is missing, misplaced or left over
!   expected 'when', found 'if'
? 1
-- p
atom A
place on init
place off
port t
trans t from on to off
trans t from off to on
atom O
place s init
port o
trans o from s to s
connector tick A.t
connector other O.o
prio other < tick if A at on

== cycle_condition_of_another
$ check --explain p
! plant line 0: fault 12 Cycle(0)
!   the rules put connector tick, mask 1 below itself
!   line 15: prio tick < tick
? 1
-- p = examples/sample.plant and
connector third B.u
prio tick < tick
prio third < tick when A at s

== cycle_condition_of_one
$ check --explain p
! plant line 0: fault 12 Cycle(0)
!   the rules put connector tick, mask 1 below itself
!   line 14: prio tick < send
!   line 15: prio send < tick when A at s
!   conditions do not matter here: rules that lead round are refused even if they never count together
? 1
-- p = examples/sample.plant and
prio tick < send
prio send < tick when A at s

== cycle_of_rules_with_conditions
The rules that may lead round are shown with their conditions, whether these can hold together or not.
$ check --explain plant
! plant line 0: fault 12 Cycle(0)
!   the rules put connector tick, mask 1 below itself
!   line 13: prio other < tick when A at on
!   line 14: prio tick < other when A at off
!   conditions do not matter here: rules that lead round are refused even if they never count together
? 1
-- plant
atom A
place on init
place off
port t
trans t from on to off
trans t from off to on
atom O
place s init
port o
trans o from s to s
connector tick A.t
connector other O.o
prio other < tick when A at on
prio tick < other when A at off
