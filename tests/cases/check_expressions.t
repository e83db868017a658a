`check`: expressions and numbers, of guards, updates and first values.

== all_operators
Each operator, in a guard and in updates.
$ check plant
atoms 1 connectors 1 interactions 1 rules 0
-- plant
atom A
place p init
var n 1
port t
trans t from p to p when || && < n 2 <= n 2 ! != n 2 do n := * min n 3 max n - 4 n ; n := == n -1
connector c A.t

== bad_number_before_a_word_left_over
The first word with a fault is told: a bad number before a word that is left over.
$ check plant
! plant line 5: fault 9 BadNumber
? 1
-- plant
atom A
place p
var n 0
port t n
var m 1x 2

== dash_as_the_last_operand
A dash alone is an operator, also where an operand stands.
$ check plant
! plant line 5: fault 8 BadExpr
? 1
-- plant
atom A
place p
var n 0
port t n
trans t from p to p when + 1 -

== dash_without_operands
A dash alone is an operator, and its operands are missing.
$ check plant
! plant line 5: fault 8 BadExpr
? 1
-- plant
atom A
place p
var n 0
port t n
trans t from p to p when -

== first_value_no_number
A first value that is no number.
$ check plant
! plant line 2: fault 9 BadNumber
? 1
-- plant
atom A
var n zero

== first_value_of_a_dash
A dash without digits is no number.
$ check plant
! plant line 2: fault 9 BadNumber
? 1
-- plant
atom A
var n -

== first_value_of_two_dashes
A number has one dash at most.
$ check plant
! plant line 2: fault 9 BadNumber
? 1
-- plant
atom A
var n --1

== first_value_too_large
One more than the largest number.
$ check plant
! plant line 2: fault 9 BadNumber
? 1
-- plant
atom A
var n 9223372036854775808

== first_value_too_small
One less than the least number.
$ check plant
! plant line 2: fault 9 BadNumber
? 1
-- plant
atom A
var n -9223372036854775809

== missing_expression
A guard without an expression.
$ check plant
! plant line 7: fault 8 BadExpr
? 1
-- plant
atom A
place s init
var n 0
port t n
trans t from s to s do n := + n 1
connector c A.t
guard

== missing_operand
An operand is missing.
$ check plant
! plant line 5: fault 8 BadExpr
? 1
-- plant
atom A
place p
var n 0
port t
trans t from p to p when < n

== name_with_a_dash
A name has letters, digits and _ alone.
$ check plant
! plant line 2: fault 5 BadName
? 1
-- plant
atom A
var n-m 0

== name_with_a_quote_in_an_expression
A quote marks triggers in a tree alone.
$ check plant
! plant line 5: fault 8 BadExpr
? 1
-- plant
atom A
place p
var n 0
port t n
trans t from p to p when < n A.n'

== name_with_nothing_behind_its_dot
A word of two parts has something on both sides of its dot.
$ check plant
! plant line 5: fault 8 BadExpr
? 1
-- plant
atom A
place p
var n 0
port t n
trans t from p to p when < n A.

== number_before_a_missing_operand
The first word with a fault is told: a number that is too large before the operand that is missing.
$ check plant
! plant line 5: fault 9 BadNumber
? 1
-- plant
atom A
place p
var n 0
port t n
trans t from p to p when < 9223372036854775808

== number_of_20_digits
A number has at most 19 digits.
$ check plant
! plant line 2: fault 9 BadNumber
? 1
-- plant
atom A
var n 00000000000000000001

== number_of_20_digits_below_zero_in_an_expression
A number below zero has 19 digits at most, too.
$ check plant
! plant line 5: fault 9 BadNumber
? 1
-- plant
atom A
place p
var n 0
port t n
trans t from p to p when < n -00000000000000000001

== number_of_20_digits_in_an_expression
A number has at most 19 digits, also where they say a small one.
$ check plant
! plant line 5: fault 9 BadNumber
? 1
-- plant
atom A
place s
var n 0
port t
trans t from s to s when < n 00000000000000000001

== number_of_two_dashes_in_an_expression
A number has one dash at most.
$ check plant
! plant line 5: fault 8 BadExpr
? 1
-- plant
atom A
place p
var n 0
port t n
trans t from p to p when < n --1

== number_too_large_in_an_expression
One more than the greatest number, in an update.
$ check plant
! plant line 5: fault 9 BadNumber
? 1
-- plant
atom A
place s
var n 0
port t
trans t from s to s do n := + n 9223372036854775808

== number_too_small_in_an_expression
One less than the least number, in a guard.
$ check plant
! plant line 7: fault 9 BadNumber
? 1
-- plant
atom A
place s init
var n 0
port t n
trans t from s to s do n := + n 1
connector c A.t
guard < A.n -9223372036854775809

== number_with_a_letter_in_an_expression
A word that begins with a digit is a number or no part of an expression.
$ check plant
! plant line 5: fault 8 BadExpr
? 1
-- plant
atom A
place p
var n 0
port t n
trans t from p to p when < n 12x

== number_with_a_plus
A number has no plus.
$ check plant
! plant line 2: fault 9 BadNumber
? 1
-- plant
atom A
var n +1

== operand_missing_behind_an_expression
The operator that stands first has one whole operand and lacks the other.
$ check plant
! plant line 5: fault 8 BadExpr
? 1
-- plant
atom A
place p
var n 0
port t n
trans t from p to p when && < n 10

== operator_before_an_unknown_variable
The first word with a fault is told: an unknown operator before an unknown variable.
$ check plant
! plant line 5: fault 8 BadExpr
? 1
-- plant
atom A
place p
var n 0
port t n
trans t from p to p when % no n

== unknown_operator
A word that is no part of an expression.
$ check plant
! plant line 5: fault 8 BadExpr
? 1
-- plant
atom A
place p
var n 0
port t
trans t from p to p when > n 1

== unknown_variable
An expression with an unknown variable.
$ check plant
! plant line 4: fault 7 UnknownName
? 1
-- plant
atom A
place p
port t
trans t from p to p when < n 1

== unknown_variable_before_a_number
The first word with a fault is told: an unknown variable before a number that is too large.
$ check plant
! plant line 5: fault 7 UnknownName
? 1
-- plant
atom A
place p
var n 0
port t n
trans t from p to p when < no 9223372036854775808

== unknown_variable_of_an_update
An update from a variable that no line declares.
$ check plant
! plant line 5: fault 7 UnknownName
? 1
-- plant
atom A
place p
var n 0
port t n
trans t from p to p do n := + n m

== update_without_an_expression
An update without an expression.
$ check plant
! plant line 5: fault 8 BadExpr
? 1
-- plant
atom A
place p
var n 0
port t n
trans t from p to p do n :=

== variable_of_another_atom
An atom speaks of its own variables alone, by their own names.
$ check plant
! plant line 5: fault 7 UnknownName
? 1
-- plant
atom A
place p
var n 0
port t n
trans t from p to p when < A.n 1
