`check --explain`: the line with the mark below it, and advice, where a name is malformed, reserved, declared twice or only further below, or not known.

== atom
$ check --explain p
! plant line 14: fault 7 UnknownName
!   p:14:13
!   connector c X.t
!               ^^^ a name is not known here
!   there is no atom 'X'; there are: A, B
? 1
-- p = examples/sample.plant and
connector c X.t

== atom_twice
The name of an atom that stands again is marked.
$ check --explain plant
! plant line 14: fault 6 Twice
!   plant:14:6
!   atom A
!        ^ a name is declared already, or stands twice where it may stand once
!   'A' stands on line 1 already
? 1
-- plant = examples/sample.plant and
atom A

== bad_name
A reserved word that stands as a name is marked.
$ check --explain plant
! plant line 2: fault 5 BadName
!   plant:2:7
!   place from init
!         ^^^^ a name is malformed or reserved
!   the word is reserved, one of: from, to, when, do, init, at, min, max
? 1
-- plant
atom A
place from init

== bad_name_char
$ check --explain p
! plant line 1: fault 5 BadName
!   p:1:6
!   atom a-b
!        ^^^ a name is malformed or reserved
!   a name has letters, digits and '_' alone
? 1
-- p
atom a-b

== bad_name_digit
$ check --explain p
! plant line 1: fault 5 BadName
!   p:1:6
!   atom 1A
!        ^^ a name is malformed or reserved
!   a name begins with a letter
? 1
-- p
atom 1A

== bad_name_long
$ check --explain p
! plant line 1: fault 5 BadName
!   p:1:6
!   atom AAAAAAAAAAAAAAAAAAAAAAAAAAAAAAAAA
!        ^^^^^^^^^^^^^^^^^^^^^^^^^^^^^^^^^ a name is malformed or reserved
!   a name has at most 32 bytes
? 1
-- p
atom AAAAAAAAAAAAAAAAAAAAAAAAAAAAAAAAA

== bad_name_operator
$ check --explain p
! plant line 14: fault 5 BadName
!   p:14:11
!   connector max A.t
!             ^^^ a name is malformed or reserved
!   the word is reserved, one of: from, to, when, do, init, at, min, max
? 1
-- p = examples/sample.plant and
connector max A.t

== bad_name_reserved
$ check --explain p
! plant line 1: fault 5 BadName
!   p:1:6
!   atom from
!        ^^^^ a name is malformed or reserved
!   the word is reserved, one of: from, to, when, do, init, at, min, max
? 1
-- p
atom from

== declared_below
$ check --explain p
! plant line 3: fault 7 UnknownName
!   p:3:8
!   port t n
!          ^ a name is not known here
!   atom A has no variable 'n'; it has none
!   the line 'var n 0' below has to come above this one
? 1
-- p
atom A
place s init
port t n
var n 0
trans t from s to s

== declared_below_of_another_atom
$ check --explain p
! plant line 3: fault 7 UnknownName
!   p:3:8
!   port t n
!          ^ a name is not known here
!   atom A has no variable 'n'; it has none
? 1
-- p
atom A
place s init
port t n
atom B
var n 0

== many
$ check --explain p
! plant line 12: fault 7 UnknownName
!   p:12:14
!   trans t from a0 to p0
!                ^^ a name is not known here
!   atom A has no place 'a0'; it has: p0, p1, p2, p3, p4, p5, p6, p7, ..
!   did you mean 'p0'?
? 1
-- p
atom A
place p0
place p1
place p2
place p3
place p4
place p5
place p6
place p7
place p8
port t
trans t from a0 to p0

== name_of_an_atom_reserved
A reserved word that stands as the name of an atom is marked.
$ check --explain plant
! plant line 14: fault 5 BadName
!   plant:14:6
!   atom to
!        ^^ a name is malformed or reserved
!   the word is reserved, one of: from, to, when, do, init, at, min, max
? 1
-- plant = examples/sample.plant and
atom to

== no_variable
$ check --explain p
! plant line 3: fault 7 UnknownName
!   p:3:8
!   port p q
!          ^ a name is not known here
!   atom A has no variable 'q'; it has none
? 1
-- p
atom A
place s
port p q

== place
$ check --explain p
! plant line 4: fault 7 UnknownName
!   p:4:19
!   trans p from s to q
!                     ^ a name is not known here
!   atom A has no place 'q'; it has: s
? 1
-- p
atom A
place s init
port p
trans p from s to q

== place_declared_below
$ check --explain p
! plant line 4: fault 7 UnknownName
!   p:4:19
!   trans t from s to r
!                     ^ a name is not known here
!   atom A has no place 'r'; it has: s
!   the line 'place r' below has to come above this one
? 1
-- p
atom A
place s init
port t
trans t from s to r
place r

== place_twice_in_a_list
A place that is listed twice is marked where it stands again.
$ check --explain plant
! plant line 4: fault 6 Twice
!   plant:4:21
!   trans p from s to s s
!                       ^ a name is declared already, or stands twice where it may stand once
!   's' stands in this list already
? 1
-- plant
atom A
place s
port p
trans p from s to s s

== twice
The second one of a name is marked.
$ check --explain plant
! plant line 3: fault 6 Twice
!   plant:3:8
!   place  s init
!          ^ a name is declared already, or stands twice where it may stand once
!   's' stands on line 2 already
? 1
-- plant
atom A
place s
place  s init

== twice_list
$ check --explain p
! plant line 5: fault 6 Twice
!   p:5:16
!   trans t from s s to s
!                  ^ a name is declared already, or stands twice where it may stand once
!   's' stands in this list already
? 1
-- p
atom A
place s init
var n 0
port t n
trans t from s s to s

== twice_place
$ check --explain p
! plant line 5: fault 6 Twice
!   p:5:7
!   place s
!         ^ a name is declared already, or stands twice where it may stand once
!   's' stands on line 4 already
? 1
-- p
atom A
place s
atom B
place s
place s

== unknown_name
A word that no line declares is marked, also between others.
$ check --explain plant
! plant line 11: fault 7 UnknownName
!   plant:11:17
!   connector c A.t B.q A.u
!                   ^^^ a name is not known here
!   atom B has no port 'q'; it has: u
? 1
-- plant
atom A
place s init
var n 0
port t n
trans t from s to s
atom B
place s init
var m 0
port u m
trans u from s to s
connector c A.t B.q A.u

== unknown_source
A source that is no place is marked, and not the one before it.
$ check --explain plant
! plant line 14: fault 7 UnknownName
!   plant:14:16
!   trans u from s r to s
!                  ^ a name is not known here
!   atom B has no place 'r'; it has: s
? 1
-- plant = examples/sample.plant and
trans u from s r to s
