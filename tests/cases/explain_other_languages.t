`check --explain`: the line with the mark below it, and advice, where an expression, a number or a list is written as in other languages.

== and
$ check --explain p
! plant line 5: fault 7 UnknownName
!   p:5:26
!   trans t from s to s when and n 1
!                            ^^^ a name is not known here
!   write '&&'
? 1
-- p
atom A
place s init
var n 0
port t n
trans t from s to s when and n 1

== assign_sign
$ check --explain p
! plant line 5: fault 10 Shape
!   p:5:26
!   trans t from s to s do n = + n 1
!                            ^ a word is missing, misplaced or left over
!   expected ':=', found '='
? 1
-- p
atom A
place s init
var n 0
port t n
trans t from s to s do n = + n 1

== bad_expression
A word that is no part of an expression is marked.
$ check --explain plant
! plant line 12: fault 8 BadExpr
!   plant:12:13
!   guard + A.n %
!               ^ an expression is malformed
!   there is no division
? 1
-- plant
atom A
place s init
var n 0
port t n
trans t from s to s
atom B
place s init
var m 0
port u m
trans u from s to s
connector c A.t B.u
guard + A.n %

== comma_apart
$ check --explain p
! plant line 7: fault 10 Shape
!   p:7:31
!   trans t from s to s do n := 1 , m := 3
!                                 ^ a word is missing, misplaced or left over
!   ';' stands between two updates, as a word of its own
!   here write 'do n := 1 ; m := 3'
? 1
-- p
atom A
place s init
place r
var n 0
var m 5
port t n
trans t from s to s do n := 1 , m := 3

== comma_behind_a_variable
$ check --explain p
! plant line 7: fault 8 BadExpr
!   p:7:29
!   trans t from s to s do n := m, m := 3
!                               ^^ an expression is malformed
!   ';' stands between two updates, as a word of its own
!   here write 'do n := m ; m := 3'
? 1
-- p
atom A
place s init
place r
var n 0
var m 5
port t n
trans t from s to s do n := m, m := 3

== comma_between_updates
$ check --explain p
! plant line 7: fault 8 BadExpr
!   p:7:29
!   trans t from s to s do n := 1, m := 3
!                               ^^ an expression is malformed
!   ';' stands between two updates, as a word of its own
!   here write 'do n := 1 ; m := 3'
? 1
-- p
atom A
place s init
place r
var n 0
var m 5
port t n
trans t from s to s do n := 1, m := 3

== comma_in_a_list
$ check --explain p
! plant line 7: fault 7 UnknownName
!   p:7:14
!   trans t from s, r to s
!                ^^ a name is not known here
!   spaces alone stand between words, and no comma
? 1
-- p
atom A
place s init
place r
var n 0
var m 5
port t n
trans t from s, r to s

== division
$ check --explain p
! plant line 5: fault 8 BadExpr
!   p:5:29
!   trans t from s to s do n := / n 2
!                               ^ an expression is malformed
!   there is no division
? 1
-- p
atom A
place s init
var n 0
port t n
trans t from s to s do n := / n 2

== equal
$ check --explain p
! plant line 5: fault 8 BadExpr
!   p:5:26
!   trans t from s to s when = n 1
!                            ^ an expression is malformed
!   write '=='
!   here write 'when == n 1'
? 1
-- p
atom A
place s init
var n 0
port t n
trans t from s to s when = n 1

== fraction
$ check --explain p
! plant line 7: fault 8 BadExpr
!   p:7:30
!   trans t from s to s when < n 9.5
!                                ^^^ an expression is malformed
!   a number is whole
? 1
-- p
atom A
place s init
place r
var n 0
var m 5
port t n
trans t from s to s when < n 9.5

== fraction_of_a_variable
$ check --explain p
! plant line 3: fault 9 BadNumber
!   p:3:7
!   var n -9.5
!         ^^^^ a number is digits alone, with '-' before a negative one
!   a number is whole
? 1
-- p
atom A
place s init
var n -9.5

== greater
$ check --explain p
! plant line 5: fault 8 BadExpr
!   p:5:26
!   trans t from s to s when > n 1
!                            ^ an expression is malformed
!   there is no operator '>': write '< b a'
? 1
-- p
atom A
place s init
var n 0
port t n
trans t from s to s when > n 1

== greater_equal
$ check --explain p
! plant line 5: fault 8 BadExpr
!   p:5:26
!   trans t from s to s when >= n 1
!                            ^^ an expression is malformed
!   there is no operator '>=': write '<= b a'
? 1
-- p
atom A
place s init
var n 0
port t n
trans t from s to s when >= n 1

== infix
$ check --explain p
! plant line 5: fault 10 Shape
!   p:5:31
!   trans t from s to s do n := n + 1
!                                 ^ a word is missing, misplaced or left over
!   an operator stands before its operands: write '+ a b'
!   here write ':= + n 1'
? 1
-- p
atom A
place s init
var n 0
port t n
trans t from s to s do n := n + 1

== infix_left_to_right
$ check --explain p
! plant line 7: fault 10 Shape
!   p:7:31
!   trans t from s to s do n := n - m - 2
!                                 ^ a word is missing, misplaced or left over
!   an operator stands before its operands: write '- a b'
!   here write ':= - - n m 2'
? 1
-- p
atom A
place s init
place r
var n 0
var m 5
port t n
trans t from s to s do n := n - m - 2

== infix_levels
$ check --explain p
! plant line 7: fault 10 Shape
!   p:7:28
!   trans t from s to s when n + m * 2 < 9 || ! n == 3
!                              ^ a word is missing, misplaced or left over
!   an operator stands before its operands: write '+ a b'
!   here write 'when || < + n * m 2 9 == ! n 3'
? 1
-- p
atom A
place s init
place r
var n 0
var m 5
port t n
trans t from s to s when n + m * 2 < 9 || ! n == 3

== infix_more
$ check --explain p
! plant line 5: fault 10 Shape
!   p:5:28
!   trans t from s to s when n > 1
!                              ^ a word is missing, misplaced or left over
!   there is no operator '>': write '< b a'
!   here write 'when < 1 n'
? 1
-- p
atom A
place s init
var n 0
port t n
trans t from s to s when n > 1

== infix_of_two_comparisons
$ check --explain p
! plant line 7: fault 10 Shape
!   p:7:28
!   trans t from s to s when 0 < n < 9
!                              ^ a word is missing, misplaced or left over
!   an operator stands before its operands: write '< a b'
? 1
-- p
atom A
place s init
place r
var n 0
var m 5
port t n
trans t from s to s when 0 < n < 9

== infix_stuck
$ check --explain p
! plant line 7: fault 8 BadExpr
!   p:7:26
!   trans t from s to s when n+1<=m
!                            ^^^^^^ an expression is malformed
!   put spaces round '<='
!   here write 'when <= + n 1 m'
? 1
-- p
atom A
place s init
place r
var n 0
var m 5
port t n
trans t from s to s when n+1<=m

== infix_with_minus
$ check --explain p
! plant line 7: fault 10 Shape
!   p:7:31
!   trans t from s to s do n := m * 2 - -n
!                                 ^ a word is missing, misplaced or left over
!   an operator stands before its operands: write '* a b'
? 1
-- p
atom A
place s init
place r
var n 0
var m 5
port t n
trans t from s to s do n := m * 2 - -n

== minus
$ check --explain p
! plant line 7: fault 8 BadExpr
!   p:7:29
!   trans t from s to s do n := -m
!                               ^^ an expression is malformed
!   there is no unary minus: write '- 0 a'
!   here write ':= - 0 m'
? 1
-- p
atom A
place s init
place r
var n 0
var m 5
port t n
trans t from s to s do n := -m

== minus_apart
$ check --explain p
! plant line 7: fault 8 BadExpr
!   p:7:32
!   trans t from s to s do n := - m
!                                  ^ an expression is malformed
!   '-' takes two operands, which follow it
!   here write ':= - 0 m'
? 1
-- p
atom A
place s init
place r
var n 0
var m 5
port t n
trans t from s to s do n := - m

== stuck_less
$ check --explain p
! plant line 14: fault 7 UnknownName
!   p:14:6
!   prio tick<send
!        ^^^^^^^^^ a name is not known here
!   put spaces round '<'
? 1
-- p = examples/sample.plant and
prio tick<send

== stuck_semicolon
$ check --explain p
! plant line 5: fault 8 BadExpr
!   p:5:29
!   trans t from s to s do n := 1; n := 2
!                               ^^ an expression is malformed
!   put spaces round ';'
? 1
-- p
atom A
place s init
var n 0
port t n
trans t from s to s do n := 1; n := 2

== truth
$ check --explain p
! plant line 7: fault 7 UnknownName
!   p:7:29
!   trans t from s to s do n := true
!                               ^^^^ a name is not known here
!   write 1: every number except 0 counts as true
? 1
-- p
atom A
place s init
place r
var n 0
var m 5
port t n
trans t from s to s do n := true

== truth_of_a_variable
$ check --explain p
! plant line 3: fault 9 BadNumber
!   p:3:7
!   var n false
!         ^^^^^ a number is digits alone, with '-' before a negative one
!   write 0: every number except 0 counts as true
? 1
-- p
atom A
place s init
var n false

== update_without_its_sign
Another sign in an update is marked.
$ check --explain plant
! plant line 14: fault 10 Shape
!   plant:14:26
!   trans u from s to s do m = 1
!                            ^ a word is missing, misplaced or left over
!   expected ':=', found '='
? 1
-- plant = examples/sample.plant and
trans u from s to s do m = 1
