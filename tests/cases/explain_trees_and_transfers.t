`check --explain`: the line with the mark below it, and advice, where a connector, a port or a transfer is at fault.

== bracket_closed
$ check --explain p
! plant line 14: fault 10 Shape
!   p:14:17
!   connector c A.t ]
!                   ^ a word is missing, misplaced or left over
!   no '[' is open before this ']'
? 1
-- p = examples/sample.plant and
connector c A.t ]

== bracket_closed_too_often
A bracket that ends nothing is marked.
$ check --explain plant
! plant line 14: fault 10 Shape
!   plant:14:19
!   connector two A.t ]
!                     ^ a word is missing, misplaced or left over
!   no '[' is open before this ']'
? 1
-- plant = examples/sample.plant and
connector two A.t ]

== bracket_not_closed
Where a bracket is not closed the end of the line is marked.
$ check --explain plant
! plant line 11: fault 10 Shape
!   plant:11:22
!   connector c A.t [ B.u
!                        ^ a word is missing, misplaced or left over
!   expected ']', and the line ends
? 1
-- plant
atom A
place s init
var n 0
port t n
trans t from s to s
atom B
place s init
var m 0
port u m
trans u from s to s
connector c A.t [ B.u

== bracket_open
$ check --explain p
! plant line 14: fault 10 Shape
!   p:14:18
!   connector c [ A.t
!                    ^ a word is missing, misplaced or left over
!   expected ']', and the line ends
? 1
-- p = examples/sample.plant and
connector c [ A.t

== brackets
$ check --explain p
! plant line 7: fault 8 BadExpr
!   p:7:26
!   trans t from s to s when (< n 9)
!                            ^^ an expression is malformed
!   an expression has no brackets: an operator stands before its operands
!   here write 'when < n 9'
? 1
-- p
atom A
place s init
place r
var n 0
var m 5
port t n
trans t from s to s when (< n 9)

== brackets_infix
$ check --explain p
! plant line 7: fault 8 BadExpr
!   p:7:26
!   trans t from s to s when (n < 9) && (m > 3 || n == 1)
!                            ^^ an expression is malformed
!   an expression has no brackets: an operator stands before its operands
!   here write 'when && < n 9 || < 3 m == n 1'
? 1
-- p
atom A
place s init
place r
var n 0
var m 5
port t n
trans t from s to s when (n < 9) && (m > 3 || n == 1)

== brackets_left_open
$ check --explain p
! plant line 7: fault 8 BadExpr
!   p:7:26
!   trans t from s to s when ((n < 9)
!                            ^^^ an expression is malformed
!   an expression has no brackets: an operator stands before its operands
? 1
-- p
atom A
place s init
place r
var n 0
var m 5
port t n
trans t from s to s when ((n < 9)

== brackets_of_a_call
$ check --explain p
! plant line 7: fault 8 BadExpr
!   p:7:29
!   trans t from s to s do n := min(n, 9)
!                               ^^^^^^ an expression is malformed
!   an expression has no brackets: an operator stands before its operands
!   here write ':= min n 9'
? 1
-- p
atom A
place s init
place r
var n 0
var m 5
port t n
trans t from s to s do n := min(n, 9)

== brackets_of_a_tree
$ check --explain p
! plant line 8: fault 7 UnknownName
!   p:8:13
!   connector c (A.t )
!               ^^^^ a name is not known here
!   the brackets of a tree are '[' and ']', each a word of its own
? 1
-- p
atom A
place s init
place r
var n 0
var m 5
port t n
trans t from s to s
connector c (A.t )

== brackets_of_an_update
$ check --explain p
! plant line 7: fault 8 BadExpr
!   p:7:29
!   trans t from s to s do n := (+ n 1) ; m := 2
!                               ^^ an expression is malformed
!   an expression has no brackets: an operator stands before its operands
!   here write ':= + n 1'
? 1
-- p
atom A
place s init
place r
var n 0
var m 5
port t n
trans t from s to s do n := (+ n 1) ; m := 2

== connector
$ check --explain p
! plant line 14: fault 7 UnknownName
!   p:14:13
!   prio tick < sent
!               ^^^^ a name is not known here
!   there is no connector 'sent'; there are: tick, send
!   did you mean 'send'?
? 1
-- p = examples/sample.plant and
prio tick < sent

== connector_declared_below
$ check --explain p
! plant line 20: fault 7 UnknownName
!   p:20:10
!   prio c < d:1
!            ^^^ a name is not known here
!   there is no connector 'd'; there are: c
!   the line 'connector d B.v' below has to come above this one
? 1
-- p
atom A
place s init
place r
var n 0
var m 5
port t n
trans t from s to s
atom B
place x init
var k 0
var g 0
var h 0
var i 0
var j 0
port u k g h i
port v
trans u from x to x
trans v from x to x
connector c A.t
prio c < d:1
connector d B.v

== connector_without_a_tree
Where a connector has no tree the end of the line is marked.
$ check --explain plant
! plant line 14: fault 10 Shape
!   plant:14:12
!   connector c
!              ^ a word is missing, misplaced or left over
!   expected a port as ATOM.PORT, and the line ends
? 1
-- plant = examples/sample.plant and
connector c

== export
$ check --explain p
! plant line 14: fault 7 UnknownName
!   p:14:9
!   guard < A.m 3
!           ^^^ a name is not known here
!   atom A has no variable 'm'; it has: n
? 1
-- p = examples/sample.plant and
guard < A.m 3

== export_of_another_atom
An exported variable that the atom does not have is marked, and not the one before it.
$ check --explain plant
! plant line 14: fault 7 UnknownName
!   plant:14:10
!   port p m n
!            ^ a name is not known here
!   atom B has no variable 'n'; it has: m
? 1
-- plant = examples/sample.plant and
port p m n

== export_twice
A variable that is exported twice is marked where it stands again.
$ check --explain plant
! plant line 14: fault 6 Twice
!   plant:14:10
!   port p m m
!            ^ a name is declared already, or stands twice where it may stand once
!   'm' stands in this list already
? 1
-- plant = examples/sample.plant and
port p m m

== near_port
$ check --explain p
! plant line 4: fault 7 UnknownName
!   p:4:7
!   trans conveyer from s to s
!         ^^^^^^^^ a name is not known here
!   atom A has no port 'conveyer'; it has: conveyor
!   did you mean 'conveyor'?
? 1
-- p
atom A
place s init
port conveyor
trans conveyer from s to s

== near_port_of_tree
$ check --explain p
! plant line 12: fault 7 UnknownName
!   p:12:13
!   connector c A.pp'
!               ^^^^^ a name is not known here
!   atom A has no port 'pp'; it has: p0, p1, p2, p3, p4, p5, p6, p7, ..
!   did you mean 'p0'?
? 1
-- p
atom A
place s init
port p0
port p1
port p2
port p3
port p4
port p5
port p6
port p7
port p8
connector c A.pp'

== no_dot
$ check --explain p
! plant line 14: fault 7 UnknownName
!   p:14:7
!   guard n
!         ^ a name is not known here
!   a variable is written as ATOM.VAR here
? 1
-- p = examples/sample.plant and
guard n

== no_port_word
$ check --explain p
! plant line 14: fault 10 Shape
!   p:14:13
!   connector c A
!               ^ a word is missing, misplaced or left over
!   expected a port as ATOM.PORT, found 'A'
? 1
-- p = examples/sample.plant and
connector c A

== not_exported
$ check --explain p
! plant line 8: fault 7 UnknownName
!   p:8:7
!   guard A.n
!         ^^^ a name is not known here
!   no port of connector c exports 'A.n'
!   write line 4 as 'port t n'
? 1
-- p
atom A
place s
var n 0
port t
atom B
port u
connector c A.t B.u
guard A.n

== not_exported_beside_others
$ check --explain p
! plant line 20: fault 7 UnknownName
!   p:20:9
!   guard < A.m 3
!           ^^^ a name is not known here
!   no port of connector c exports 'A.m'
!   write line 6 as 'port t n m'
? 1
-- p
atom A
place s init
place r
var n 0
var m 5
port t n
trans t from s to s
atom B
place x init
var k 0
var g 0
var h 0
var i 0
var j 0
port u k g h i
port v
trans u from x to x
trans v from x to x
connector c [ A.t B.v ]'
guard < A.m 3

== not_exported_by_a_full_port
$ check --explain p
! plant line 20: fault 7 UnknownName
!   p:20:6
!   move B.j := A.n
!        ^^^ a name is not known here
!   no port of connector c exports 'B.j'
!   the port of line 15 exports 4 variables already, and no port more
? 1
-- p
atom A
place s init
place r
var n 0
var m 5
port t n
trans t from s to s
atom B
place x init
var k 0
var g 0
var h 0
var i 0
var j 0
port u k g h i
port v
trans u from x to x
trans v from x to x
connector c A.t B.u
move B.j := A.n

== not_exported_without_a_leaf
$ check --explain p
! plant line 20: fault 7 UnknownName
!   p:20:7
!   guard B.k
!         ^^^ a name is not known here
!   no port of connector c exports 'B.k'
!   connector c has no port of atom B
? 1
-- p
atom A
place s init
place r
var n 0
var m 5
port t n
trans t from s to s
atom B
place x init
var k 0
var g 0
var h 0
var i 0
var j 0
port u k g h i
port v
trans u from x to x
trans v from x to x
connector c A.t
guard B.k

== port_of_atom
$ check --explain p
! plant line 14: fault 7 UnknownName
!   p:14:17
!   connector c A.t B.t
!                   ^^^ a name is not known here
!   atom B has no port 't'; it has: u
? 1
-- p = examples/sample.plant and
connector c A.t B.t

== quote_behind_a_bracket
$ check --explain p
! plant line 19: fault 10 Shape
!   p:19:25
!   connector c [ A.t B.v ] '
!                           ^ a word is missing, misplaced or left over
!   a quote stands directly after its port or bracket: write ]'
? 1
-- p
atom A
place s init
place r
var n 0
var m 5
port t n
trans t from s to s
atom B
place x init
var k 0
var g 0
var h 0
var i 0
var j 0
port u k g h i
port v
trans u from x to x
trans v from x to x
connector c [ A.t B.v ] '

== stuck_assign
$ check --explain p
! plant line 5: fault 7 UnknownName
!   p:5:24
!   trans t from s to s do n:= 1
!                          ^^^ a name is not known here
!   put spaces round ':='
? 1
-- p
atom A
place s init
var n 0
port t n
trans t from s to s do n:= 1

== stuck_bracket
$ check --explain p
! plant line 14: fault 7 UnknownName
!   p:14:13
!   connector c [A.t]
!               ^^^^^ a name is not known here
!   put spaces round '['
? 1
-- p = examples/sample.plant and
connector c [A.t]

== transfer_twice
The target that has a transfer already is marked.
$ check --explain plant
! plant line 14: fault 6 Twice
!   plant:14:6
!   move B.m := 1
!        ^^^ a name is declared already, or stands twice where it may stand once
!   'B.m' stands on line 13 already
? 1
-- plant = examples/sample.plant and
move B.m := 1

== transfer_when
$ check --explain p
! plant line 14: fault 10 Shape
!   p:14:10
!   move A.n when 1
!            ^^^^ a word is missing, misplaced or left over
!   expected ':=', found 'when'
? 1
-- p = examples/sample.plant and
move A.n when 1

== unknown_port_of_a_transition
The port that the atom does not have is marked.
$ check --explain plant
! plant line 14: fault 7 UnknownName
!   plant:14:7
!   trans v from s to s
!         ^ a name is not known here
!   atom B has no port 'v'; it has: u
? 1
-- plant = examples/sample.plant and
trans v from s to s

== watch_brackets
$ trace --explain examples/sample.plant '--never=(< 9 A.n)'
! error: '--never (< 9 A.n)': an operand is missing, a place is unknown, or a word is no operator, number or name
!   an operator stands before its operands, with no brackets: write '< 9 A.n'
? 2
