`check --explain`: the line with the mark below it, and advice, where a byte may not be, or there is too much of something.

== atom_too_many
Where a plant has an atom too many the first word of its line is marked.
$ check --explain plant
! plant line 65: fault 13 Limit
!   plant:65:1
!   atom A64
!   ^^^^ a limit of plants is passed
!   a plant has at most 64 atoms
? 1
-- plant = tests/fixtures/sixty_five_atoms.plant

== byte_order_mark
$ check --explain p
! plant line 1: fault 1 NotAscii
!   p:1:1
!   \xef\xbb\xbfatom A
!   ^^^^ the text begins with a byte order mark: save it as plain ASCII
? 1
-- p
\\xef\xbb\xbfatom A

== control
$ check --explain p
! plant line 2: fault 1 NotAscii
!   p:2:1
!   \x07
!   ^^^^ the control byte \x07 may not stand in a text
? 1
-- p
atom A
\\x07

== empty_bracket
The end of an empty bracket is marked.
$ check --explain plant
! plant line 11: fault 11 Empty
!   plant:11:19
!   connector c A.t [ ]' B.u
!                     ^^ a connector and its brackets may not be empty
? 1
-- plant
atom A
place s init
var n 0
port t n
trans t from s to s
atom B
place s init
var m 0
port u m
trans u from s to s
connector c A.t [ ]' B.u

== export_too_many
The export of a port that is one too many is marked.
$ check --explain plant
! plant line 7: fault 13 Limit
!   plant:7:16
!   port p a b c d e
!                  ^ a limit of plants is passed
!   a port has at most 4 variables
? 1
-- plant
atom A
var a 0
var b 0
var c 0
var d 0
var e 0
port p a b c d e

== illegal_byte_behind_tabs
A tab is shown as one space, so that the mark stands under its byte.
$ check --explain plant
! plant line 1: fault 1 NotAscii
!   plant:1:8
!   atom A \x7f
!          ^^^^ the control byte \x7f may not stand in a text
? 1
-- plant
\atom	A	\x7f

== illegal_byte_left_over
The byte is marked, and not the word before it.
$ check --explain plant
! plant line 14: fault 1 NotAscii
!   plant:14:8
!   atom C \x7f
!          ^^^^ the control byte \x7f may not stand in a text
? 1
-- plant = examples/sample.plant and
\atom C \x7f

== illegal_byte_of_a_name
Of the bytes that may not stand in a text the first one is marked.
$ check --explain plant
! plant line 14: fault 1 NotAscii
!   plant:14:7
!   atom B\xc3\xa9
!         ^^^^ the byte \xc3 is not ASCII
? 1
-- plant = examples/sample.plant and
\atom B\xc3\xa9

== interaction_too_many
Where a connector brings too many interactions its tree is marked.
$ check --explain plant
! plant line 22: fault 13 Limit
!   plant:22:13
!   connector e A3.t [ A4.t A5.t ]
!               ^^^^^^^^^^^^^^^^^^ a limit of plants is passed
!   a plant has at most 1024 interactions
? 1
-- plant
atom A0
port t
atom A1
port t
atom A2
port t
atom A3
port t
atom A4
port t
atom A5
port t
atom A6
port t
atom A7
port t
connector c0 A0.t' A1.t' A2.t' A3.t' A4.t' A5.t' A6.t' A7.t'
connector c1 A0.t' A1.t' A2.t' A3.t' A4.t' A5.t' A6.t' A7.t'
connector c2 A0.t' A1.t' A2.t' A3.t' A4.t' A5.t' A6.t' A7.t'
connector c3 A0.t' A1.t' A2.t' A3.t' A4.t' A5.t' A6.t' A7.t'
connector d A0.t' A1.t A2.t
connector e A3.t [ A4.t A5.t ]

== limit_places
$ check --explain p
! plant line 66: fault 13 Limit
!   p:66:1
!   place p64
!   ^^^^^ a limit of plants is passed
!   an atom has at most 64 places
? 1
-- p = tests/fixtures/limit_places.p

== not_ascii
A byte that may not stand in a text is shown by its number, and marked.
$ check --explain plant
! plant line 2: fault 1 NotAscii
!   plant:2:6
!   # caf\xc3\xa9 \x1b[2J
!        ^^^^ the byte \xc3 is not ASCII
!   a comment is plain ASCII too: the digest of a plant is of all its bytes
? 1
-- plant
atom A
\# caf\xc3\xa9 \x1b[2J

== not_ascii_in_a_comment
$ check --explain p
! plant line 2: fault 1 NotAscii
!   p:2:6
!   # caf\xc3\xa9
!        ^^^^ the byte \xc3 is not ASCII
!   a comment is plain ASCII too: the digest of a plant is of all its bytes
? 1
-- p
atom A
\# caf\xc3\xa9

== return
$ check --explain p
! plant line 1: fault 1 NotAscii
!   p:1:7
!   atom A\x0dB
!         ^^^^ a carriage return may only stand before the end of a line
? 1
-- p
\atom A\x0dB

== same_atom
The second port of an atom is marked.
$ check --explain plant
! plant line 11: fault 11 SameAtom
!   plant:11:21
!   connector c A.t B.u A.t'
!                       ^^^^ an atom may stand only once in a connector
? 1
-- plant
atom A
place s init
var n 0
port t n
trans t from s to s
atom B
place s init
var m 0
port u m
trans u from s to s
connector c A.t B.u A.t'

== too_deep
The bracket that opens a ninth level is marked.
$ check --explain plant
! plant line 11: fault 11 TooDeep
!   plant:11:27
!   connector c [ [ [ [ [ [ [ [ A.t ] ] ] ] ] ] ] ]
!                             ^ a connector may nest at most 8 levels, the root included
? 1
-- plant
atom A
place s init
var n 0
port t n
trans t from s to s
atom B
place s init
var m 0
port u m
trans u from s to s
connector c [ [ [ [ [ [ [ [ A.t ] ] ] ] ] ] ] ]

== too_long
A text that is too long has no line to show.
@ plant ends with 1048577 line feeds
$ check --explain plant
! plant line 0: fault 2 TooLong
!   the text has more than 1048576 bytes
? 1

== too_many_leaves
The seventeenth leaf of a connector is marked.
$ check --explain plant
! plant line 35: fault 11 TooManyLeaves
!   plant:35:103
!   ... A0.t A1.t A2.t [ A3.t A4.t ] A5.t A6.t A7.t A8.t A9.t A10.t A11.t A12.t A13.t A14.t A15.t A16.t'
!                                                                                                 ^^^^^^ a connector may have at most 16 ports
? 1
-- plant
atom A0
port t
atom A1
port t
atom A2
port t
atom A3
port t
atom A4
port t
atom A5
port t
atom A6
port t
atom A7
port t
atom A8
port t
atom A9
port t
atom A10
port t
atom A11
port t
atom A12
port t
atom A13
port t
atom A14
port t
atom A15
port t
atom A16
port t
connector c A0.t A1.t A2.t [ A3.t A4.t ] A5.t A6.t A7.t A8.t A9.t A10.t A11.t A12.t A13.t A14.t A15.t A16.t'

== too_many_leaves_of_the_same_atoms
Of eighteen leaves the seventeenth is marked, though atoms stand twice before it.
$ check --explain plant
! plant line 14: fault 11 TooManyLeaves
!   plant:14:77
!   connector c A.t A.t A.t A.t A.t A.t A.t A.t A.t A.t A.t A.t A.t A.t A.t A.t B.u B.u
!                                                                               ^^^ a connector may have at most 16 ports
? 1
-- plant = examples/sample.plant and
connector c A.t A.t A.t A.t A.t A.t A.t A.t A.t A.t A.t A.t A.t A.t A.t A.t B.u B.u

== unknown_word_before_an_illegal_byte
A word at fault is marked, and the byte behind it that may not stand in a text is shown by its number.
$ check --explain plant
! plant line 14: fault 3 UnknownWord
!   plant:14:1
!   machine \x7f
!   ^^^^^^^ no line begins with this word
!   a line begins with atom, place, var, port, trans, connector, guard, move, prio, maximal or #
? 1
-- plant = examples/sample.plant and
\machine \x7f

== window_begin
$ check --explain p
! plant line 1: fault 1 NotAscii
!   p:1:2
!   #\xffyyyyyyyyyyyyyyyyyyyyyyyyyyyyyyyyyyyyyyyyyyyyyyyyyyyyyyyyyyyyyyyyyyyyyyyyyyyyyyyyyyyyyyyyyyyy...
!    ^^^^ the byte \xff is not ASCII
!   a comment is plain ASCII too: the digest of a plant is of all its bytes
? 1
-- p
\#\xffyyyyyyyyyyyyyyyyyyyyyyyyyyyyyyyyyyyyyyyyyyyyyyyyyyyyyyyyyyyyyyyyyyyyyyyyyyyyyyyyyyyyyyyyyyyyyyyyyyyyyyyyyyyyyyyyyyyyyyyyyyyyyyyyyyyyyyyyyyyyyyyyyyyyyy

== window_end
$ check --explain p
! plant line 1: fault 1 NotAscii
!   p:1:153
!   ...xxxxxxxxxxxxxxxxxxxxxxxxxxxxxxxxxxxxxxxxxxxxxxxxxxxxxxxxxxxxxxxxxxxxxxxxxxxxxxxxxxxxxxxxxxxxx\xff
!                                                                                                   ^^^^ the byte \xff is not ASCII
!   a comment is plain ASCII too: the digest of a plant is of all its bytes
? 1
-- p
\# xxxxxxxxxxxxxxxxxxxxxxxxxxxxxxxxxxxxxxxxxxxxxxxxxxxxxxxxxxxxxxxxxxxxxxxxxxxxxxxxxxxxxxxxxxxxxxxxxxxxxxxxxxxxxxxxxxxxxxxxxxxxxxxxxxxxxxxxxxxxxxxxxxxxxx\xff

== window_middle
$ check --explain p
! plant line 1: fault 1 NotAscii
!   p:1:153
!   ...xxxxxxxxxxxxxxxxxxxx\xffyyyyyyyyyyyyyyyyyyyyyyyyyyyyyyyyyyyyyyyyyyyyyyyyyyyyyyyyyyyyyyyyyyyyyy...
!                          ^^^^ the byte \xff is not ASCII
!   a comment is plain ASCII too: the digest of a plant is of all its bytes
? 1
-- p
\# xxxxxxxxxxxxxxxxxxxxxxxxxxxxxxxxxxxxxxxxxxxxxxxxxxxxxxxxxxxxxxxxxxxxxxxxxxxxxxxxxxxxxxxxxxxxxxxxxxxxxxxxxxxxxxxxxxxxxxxxxxxxxxxxxxxxxxxxxxxxxxxxxxxxxx\xffyyyyyyyyyyyyyyyyyyyyyyyyyyyyyyyyyyyyyyyyyyyyyyyyyyyyyyyyyyyyyyyyyyyyyyyyyyyyyyyyyyyyyyyyyyyyyyyyyyyyyyyyyyyyyyyyyyyyyyyyyyyyyyyyyyyyyyyyyyyyyyyyyyyyyy
