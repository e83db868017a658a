`check --explain`: the line with the mark below it, and advice, where an expression lacks a word or has one that may not stand there, or a number is at fault.

== bad_expression_of_a_transition
A word of a guard that is no part of an expression is marked.
$ check --explain plant
! plant line 14: fault 8 BadExpr
!   plant:14:26
!   trans u from s to s when ?
!                            ^ an expression is malformed
!   '?' is no number, no operator and no name
? 1
-- plant = examples/sample.plant and
trans u from s to s when ?

== bad_number
A number that is too large is marked.
$ check --explain plant
! plant line 2: fault 9 BadNumber
!   plant:2:7
!   var n 9223372036854775808
!         ^^^^^^^^^^^^^^^^^^^ a number is within 64 signed bits
? 1
-- plant
atom A
var n 9223372036854775808

== bad_number_digits
$ check --explain p
! plant line 2: fault 9 BadNumber
!   p:2:7
!   var n 00000000000000000001
!         ^^^^^^^^^^^^^^^^^^^^ a number has at most 19 digits
? 1
-- p
atom A
var n 00000000000000000001

== bad_number_none
$ check --explain p
! plant line 2: fault 9 BadNumber
!   p:2:7
!   var n x
!         ^ a number is digits alone, with '-' before a negative one
? 1
-- p
atom A
var n x

== no_expression
$ check --explain p
! plant line 14: fault 8 BadExpr
!   p:14:6
!   guard
!        ^ an expression is malformed
!   expected an expression
? 1
-- p = examples/sample.plant and
guard

== no_word_of_an_expression
$ check --explain p
! plant line 5: fault 8 BadExpr
!   p:5:33
!   trans t from s to s do n := + n 12x
!                                   ^^^ an expression is malformed
!   '12x' is no number, no operator and no name
? 1
-- p
atom A
place s init
var n 0
port t n
trans t from s to s do n := + n 12x

== number_with_a_letter
A first value that is no number is marked.
$ check --explain plant
! plant line 14: fault 9 BadNumber
!   plant:14:7
!   var k 12x
!         ^^^ a number is digits alone, with '-' before a negative one
? 1
-- plant = examples/sample.plant and
var k 12x

== operand
$ check --explain p
! plant line 5: fault 8 BadExpr
!   p:5:32
!   trans t from s to s do n := + n
!                                  ^ an expression is malformed
!   '+' takes two operands, which follow it
? 1
-- p
atom A
place s init
var n 0
port t n
trans t from s to s do n := + n

== operand_inner
$ check --explain p
! plant line 5: fault 8 BadExpr
!   p:5:39
!   trans t from s to s when && < n 1 < n ; do n := 1
!                                         ^ an expression is malformed
!   '<' takes two operands, which follow it
? 1
-- p
atom A
place s init
var n 0
port t n
trans t from s to s when && < n 1 < n ; do n := 1

== operand_missing
Where an operand is missing the end of the line is marked.
$ check --explain plant
! plant line 12: fault 8 BadExpr
!   plant:12:18
!   move B.m := + A.n  
!                    ^ an expression is malformed
!   '+' takes two operands, which follow it
? 1
-- plant
atom A
place s init
var n 0
port t n
trans t from s to s
atom B
place s init
var m 0
port u m
trans u from s to s
connector c A.t B.u
move B.m := + A.n 	

== operand_not
$ check --explain p
! plant line 14: fault 8 BadExpr
!   p:14:8
!   guard !
!          ^ an expression is malformed
!   '!' takes one operand, which follows it
? 1
-- p = examples/sample.plant and
guard !

== operand_outer
$ check --explain p
! plant line 5: fault 8 BadExpr
!   p:5:36
!   trans t from s to s do n := + * n 2
!                                      ^ an expression is malformed
!   '+' takes two operands, which follow it
? 1
-- p
atom A
place s init
var n 0
port t n
trans t from s to s do n := + * n 2

== place_by_at_in_a_guard
$ check --explain p
! plant line 7: fault 8 BadExpr
!   p:7:26
!   trans t from s to s when at A r
!                            ^^ an expression is malformed
!   'at' asks for a place where a rule has its condition: 'prio a < b when ATOM at PLACE'
? 1
-- p
atom A
place s init
place r
var n 0
var m 5
port t n
trans t from s to s when at A r

== place_in_a_clause
$ check --explain p
! plant line 9: fault 7 UnknownName
!   p:9:7
!   guard A.r
!         ^^^ a name is not known here
!   'r' is a place of atom A, and an expression of a plant has variables alone
!   'from r' asks for a place in a transition, 'when A at r' in a rule
? 1
-- p
atom A
place s init
place r
var n 0
var m 5
port t n
trans t from s to s
connector c A.t
guard A.r

== place_in_a_guard
$ check --explain p
! plant line 7: fault 7 UnknownName
!   p:7:29
!   trans t from s to s when && r < n 9
!                               ^ a name is not known here
!   'r' is a place of atom A, and an expression of a plant has variables alone
!   'from r' asks for a place in a transition, 'when A at r' in a rule
? 1
-- p
atom A
place s init
place r
var n 0
var m 5
port t n
trans t from s to s when && r < n 9

== place_of_another_atom
$ check --explain p
! plant line 9: fault 7 UnknownName
!   p:9:26
!   trans t from s to s when B.x
!                            ^^^ a name is not known here
!   'x' is a place of atom B, and an expression of a plant has variables alone
!   'from x' asks for a place in a transition, 'when B at x' in a rule
? 1
-- p
atom B
place x init
atom A
place s init
place r
var n 0
var m 5
port t n
trans t from s to s when B.x

== unknown_name_in_an_expression
A variable that is not known is marked within its expression.
$ check --explain plant
! plant line 5: fault 7 UnknownName
!   plant:5:37
!   trans p from s to s do n := + n * 2 k
!                                       ^ a name is not known here
!   atom A has no variable 'k'; it has: n
? 1
-- plant
atom A
place s
port p
var n 0
trans p from s to s do n := + n * 2 k

== variable_of_another_atom
$ check --explain p
! plant line 10: fault 7 UnknownName
!   p:10:28
!   trans t from s to s when < B.k 9
!                              ^^^ a name is not known here
!   a transition reads the variables of its own atom alone, by their names; A has: n, m
? 1
-- p
atom B
place x init
var k 0
atom A
place s init
place r
var n 0
var m 5
port t n
trans t from s to s when < B.k 9

== variable_of_the_same_atom
$ check --explain p
! plant line 7: fault 7 UnknownName
!   p:7:28
!   trans t from s to s when < A.n 9
!                              ^^^ a name is not known here
!   a variable of the same atom is written without it: write 'n'
? 1
-- p
atom A
place s init
place r
var n 0
var m 5
port t n
trans t from s to s when < A.n 9
