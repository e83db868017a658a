`check`: guards and transfers of connectors, which read and set what its leaves export.

== bad_word_of_a_guard_before_an_unknown_variable
The first word with a fault is told: a word that is no part of an expression before an unknown variable.
$ check plant
! plant line 8: fault 8 BadExpr
? 1
-- plant
atom A
place p
var n 0
port t n
atom B
port u
connector c A.t B.u
guard < 1x C.n

== export_of_another_atom
A port exports variables of its own atom alone.
$ check plant
! plant line 4: fault 7 UnknownName
? 1
-- plant
atom A
var n 0
atom B
port u n

== guard_before_connectors
A guard before any connector.
$ check plant
! plant line 2: fault 4 Misplaced
? 1
-- plant
atom A
guard 1

== guard_before_updates
The first word with a fault is told: one of the guard before one of the updates.
$ check plant
! plant line 5: fault 8 BadExpr
? 1
-- plant
atom A
place p
var n 0
port t n
trans t from p to p when < n do no := 1

== guard_first
A guard stands before any atom.
$ check plant
! plant line 1: fault 4 Misplaced
? 1
-- plant
guard 1

== guard_of_a_plain_name
A guard names a variable by its atom.
$ check plant
! plant line 8: fault 7 UnknownName
? 1
-- plant
atom A
place p
var n 0
port t n
atom B
port u
connector c A.t B.u
guard < n 1

== guard_of_a_variable_not_exported
A guard that names a variable that the leaf's port does not export.
$ check plant
! plant line 7: fault 7 UnknownName
? 1
-- plant
atom A
place s init
var n 0
port t
trans t from s to s
connector c A.t
guard < A.n 1

== guard_of_a_variable_of_another_atom
The variable is there, but another atom has it.
$ check plant
! plant line 14: fault 7 UnknownName
? 1
-- plant = examples/sample.plant and
guard B.n

== guard_of_an_atom_away
A guard that names an atom without a leaf in the connector.
$ check plant
! plant line 14: fault 7 UnknownName
? 1
-- plant
atom A
place s init
var n 0
port t n
trans t from s to s do n := + n 1
atom B
place s init
var m 0
port u m
trans u from s to s
connector tick A.t
connector send A.t B.u
connector last A.t
guard < B.m 1

== guard_of_no_atom
A guard with a variable of an atom that is not there.
$ check plant
! plant line 8: fault 7 UnknownName
? 1
-- plant
atom A
place p
var n 0
port t n
atom B
port u
connector c A.t B.u
guard C.n

== guard_unknown_name_before_an_operator
The first word with a fault is told: an unknown variable before a word that is no part of an expression.
$ check plant
! plant line 8: fault 7 UnknownName
? 1
-- plant
atom A
place p
var n 0
port t n
atom B
port u
connector c A.t B.u
guard < A.m %

== missing_operand_of_a_guard
An operator in a guard of a connector lacks an operand.
$ check plant
! plant line 8: fault 8 BadExpr
? 1
-- plant
atom A
place p
var n 0
port t n
atom B
port u
connector c A.t B.u
guard < A.n

== move_before_connectors
A transfer before any connector.
$ check plant
! plant line 2: fault 4 Misplaced
? 1
-- plant
atom A
move A.n := 1

== move_first
A transfer stands before any atom.
$ check plant
! plant line 1: fault 4 Misplaced
? 1
-- plant
move A.n := 1

== transfer_bad_number_before_a_word_left_over
The first word with a fault is told: a number that is too small before a word left over.
$ check plant
! plant line 8: fault 9 BadNumber
? 1
-- plant
atom A
place p
var n 0
port t n
atom B
port u
connector c A.t B.u
move A.n := -9223372036854775809 1

== transfer_from_an_atom_away
A transfer from an atom without a leaf in the connector.
$ check plant
! plant line 8: fault 7 UnknownName
? 1
-- plant
atom A
var n 0
port t n
atom C
var n 0
port t n
connector c A.t
move A.n := C.n

== transfer_sign_before_an_expression
The first word with a fault is told: another sign before an expression that is none.
$ check plant
! plant line 8: fault 10 Shape
? 1
-- plant
atom A
place p
var n 0
port t n
atom B
port u
connector c A.t B.u
move A.n = %

== transfer_to_a_name_of_three_parts
A target has one dot.
$ check plant
! plant line 8: fault 7 UnknownName
? 1
-- plant
atom A
place p
var n 0
port t n
atom B
port u
connector c A.t B.u
move A.n.x := 1

== transfer_to_a_plain_name
A target is ATOM.VAR.
$ check plant
! plant line 8: fault 7 UnknownName
? 1
-- plant
atom A
place p
var n 0
port t n
atom B
port u
connector c A.t B.u
move n := 1

== transfer_to_an_atom_away
A transfer to an atom without a leaf in the connector; and the first word with a fault is told, before another sign.
$ check plant
! plant line 8: fault 7 UnknownName
? 1
-- plant
atom A
var n 0
port t n
atom C
var n 0
port t n
connector c A.t
move C.n = 1

== transfer_to_an_unknown_variable
A transfer to a variable that is not there.
$ check plant
! plant line 14: fault 7 UnknownName
? 1
-- plant = examples/sample.plant and
move A.m := 1

== transfer_twice
Two transfers to one variable.
$ check plant
! plant line 14: fault 6 Twice
? 1
-- plant = examples/sample.plant and
move B.m := 1

== transfer_twice_before_a_missing_sign
The first word with a fault is told: a target that has a transfer already before the sign that is missing.
$ check plant
! plant line 9: fault 6 Twice
? 1
-- plant
atom A
place p
var n 0
port t n
atom B
port u
connector c A.t B.u
move A.n := 1
move A.n

== transfer_twice_before_its_expression
The first word with a fault is told: a target that has a transfer already before an expression that is none.
$ check plant
! plant line 9: fault 6 Twice
? 1
-- plant
atom A
place p
var n 0
port t n
atom B
port u
connector c A.t B.u
move A.n := 1
move A.n := %

== transfer_twice_before_its_sign
The first word with a fault is told: a target that has a transfer already before another sign.
$ check plant
! plant line 9: fault 6 Twice
? 1
-- plant
atom A
place p
var n 0
port t n
atom B
port u
connector c A.t B.u
move A.n := 1
move A.n = x

== transfer_with_a_variable_for_its_sign
A variable stands where the sign must.
$ check plant
! plant line 8: fault 10 Shape
? 1
-- plant
atom A
place p
var n 0
port t n
atom B
port u
connector c A.t B.u
move A.n A.n

== transfer_with_a_word_left_over
A word is left over.
$ check plant
! plant line 8: fault 10 Shape
? 1
-- plant
atom A
place p
var n 0
port t n
atom B
port u
connector c A.t B.u
move A.n := 1 2

== transfer_without_an_expression
A transfer without an expression.
$ check plant
! plant line 8: fault 8 BadExpr
? 1
-- plant
atom A
place p
var n 0
port t n
atom B
port u
connector c A.t B.u
move A.n :=

== transfer_without_its_sign
A word is missing.
$ check plant
! plant line 8: fault 10 Shape
? 1
-- plant
atom A
place p
var n 0
port t n
atom B
port u
connector c A.t B.u
move A.n

== transfer_without_its_target
The sign stands where a target must: it names none.
$ check plant
! plant line 8: fault 7 UnknownName
? 1
-- plant
atom A
place p
var n 0
port t n
atom B
port u
connector c A.t B.u
move := A.n

== transfer_without_words
A word is missing.
$ check plant
! plant line 8: fault 10 Shape
? 1
-- plant
atom A
place p
var n 0
port t n
atom B
port u
connector c A.t B.u
move

== two_transfers_in_one_line
A line has one transfer.
$ check plant
! plant line 8: fault 10 Shape
? 1
-- plant
atom A
place p
var n 0
port t n
atom B
port u
connector c A.t B.u
move A.n := 1 ; A.n := 1

== unknown_target_before_its_sign
The first word with a fault is told: an unknown target before another sign.
$ check plant
! plant line 8: fault 7 UnknownName
? 1
-- plant
atom A
place p
var n 0
port t n
atom B
port u
connector c A.t B.u
move A.m = 1

== word_behind_a_guard
A word is left over behind an expression.
$ check plant
! plant line 7: fault 10 Shape
? 1
-- plant
atom A
place s init
var n 0
port t n
trans t from s to s do n := + n 1
connector c A.t
guard < A.n 1 2
