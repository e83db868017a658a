`--explain` of `trace --never` and `--until`: advice where the expression that a run is watched for is at fault.

== watch_infix
$ trace --explain examples/sample.plant '--never=A.n > 9'
! error: '--never A.n > 9': a word stands behind its end
!   an operator stands before its operands, with no brackets: write '< 9 A.n'
? 2

== watch_infix_of_an_unknown_variable
$ trace --explain examples/sample.plant '--never=A.k > 9'
! error: '--never A.k > 9': a name is of no variable, which is written ATOM.VAR, and a place is written at ATOM PLACE
!   atom A has no variable 'k'; it has: n
? 2

== watch_infix_of_two
$ trace --explain examples/sample.plant '--never=A.n > 9 && at B s'
! error: '--never A.n > 9 && at B s': a word stands behind its end
!   an operator stands before its operands, with no brackets: write '&& < 9 A.n at B s'
? 2

== watch_of_a_fraction
$ trace --explain examples/sample.plant '--never=< A.n 9.5'
! error: '--never < A.n 9.5': an operand is missing, a place is unknown, or a word is no operator, number or name
!   a number is whole
? 2

== watch_of_a_place_by_a_dot
$ trace --explain examples/sample.plant --never=A.s
! error: '--never A.s': a name is of no variable, which is written ATOM.VAR, and a place is written at ATOM PLACE
!   a place is asked for by 'at': write 'at A s'
? 2

== watch_of_a_place_of_an_unknown_atom
$ trace --explain examples/sample.plant '--never=! at C s'
! error: '--never ! at C s': an operand is missing, a place is unknown, or a word is no operator, number or name
!   there is no atom 'C'; there are: A, B
? 2

== watch_of_an_unknown_atom
$ trace --explain examples/sample.plant '--never=== C.n 3'
! error: '--never == C.n 3': a name is of no variable, which is written ATOM.VAR, and a place is written at ATOM PLACE
!   there is no atom 'C'; there are: A, B
? 2

== watch_of_an_unknown_place
$ trace --explain examples/sample.plant '--never=at A t'
! error: '--never at A t': an operand is missing, a place is unknown, or a word is no operator, number or name
!   atom A has no place 't'; it has: s
? 2

== watch_of_no_words
$ trace --explain examples/sample.plant --never=
! error: '--never ': an operand is missing, a place is unknown, or a word is no operator, number or name
!   expected an expression
? 2

== watch_stuck_and_more
$ trace --explain examples/sample.plant '--never=stuck A.n'
! error: '--never stuck A.n': a word stands behind its end
!   'stuck' stands alone
? 2

== watch_without_a_place
$ trace --explain examples/sample.plant '--never=at A'
! error: '--never at A': an operand is missing, a place is unknown, or a word is no operator, number or name
!   'at' takes an atom and a place: at ATOM PLACE
? 2

== watch_without_advice
$ trace examples/sample.plant '--never=A.n > 9'
! error: '--never A.n > 9': a word stands behind its end
? 2

== watch_without_an_operand
$ trace --explain examples/sample.plant '--never=< A.n'
! error: '--never < A.n': an operand is missing, a place is unknown, or a word is no operator, number or name
!   '<' takes two operands, which follow it
? 2

== watch_without_its_atom
$ trace --explain examples/sample.plant '--never=== n 3'
! error: '--never == n 3': a name is of no variable, which is written ATOM.VAR, and a place is written at ATOM PLACE
!   a variable is written as ATOM.VAR here, and a place as at ATOM PLACE
? 2
