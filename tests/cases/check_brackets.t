`check`: the brackets of a connector's tree.

== bracket_closed_before_it_opens
A bracket that ends and a bracket that begins are no pair.
$ check plant
! plant line 8: fault 10 Shape
? 1
-- plant
atom A
place p
var n 0
port t n
atom B
port u
connector c A.t B.u
connector d ]' A.t [

== bracket_closed_twice
A bracket ends once.
$ check plant
! plant line 8: fault 10 Shape
? 1
-- plant
atom A
place p
var n 0
port t n
atom B
port u
connector c A.t B.u
connector d [ A.t ] ]'

== bracket_with_a_quote_at_its_begin
The quote of a bracket stands at its end.
$ check plant
! plant line 8: fault 10 Shape
? 1
-- plant
atom A
place p
var n 0
port t n
atom B
port u
connector c A.t B.u
connector d A.t [' B.u ]

== bracket_with_two_quotes
A bracket has one quote.
$ check plant
! plant line 8: fault 10 Shape
? 1
-- plant
atom A
place p
var n 0
port t n
atom B
port u
connector c A.t B.u
connector d [ A.t ]''

== bracket_without_a_blank
A bracket is a word of its own: with a leaf behind it, it names no atom.
$ check plant
! plant line 8: fault 7 UnknownName
? 1
-- plant
atom A
place p
var n 0
port t n
atom B
port u
connector c A.t B.u
connector d [A.t ]

== brackets
A bracket of three synchrons acts as a whole with its trigger: 2 interactions; a chain of triggers: 4.
$ check plant
atoms 4 connectors 2 interactions 6 rules 0
-- plant
atom A0
port t
atom A1
port t
atom A2
port t
atom A3
port t
connector c A0.t' [ A1.t A2.t A3.t ]
connector d A0.t' [ A1.t' [ A2.t' A3.t ] ]

== closed_bracket
A bracket too many is closed.
$ check plant
! plant line 6: fault 10 Shape
? 1
-- plant
atom A
place s init
var n 0
port t n
trans t from s to s do n := + n 1
connector c A.t ]

== closed_bracket_alone
A bracket that was never open, and nothing else.
$ check plant
! plant line 8: fault 10 Shape
? 1
-- plant
atom A
place p
var n 0
port t n
atom B
port u
connector c A.t B.u
connector d ]

== closed_bracket_before_an_unknown_leaf
The first word with a fault is told: a bracket that closes nothing before an unknown leaf.
$ check plant
! plant line 8: fault 10 Shape
? 1
-- plant
atom A
place p
var n 0
port t n
atom B
port u
connector c A.t B.u
connector d A.t ] no.t

== empty_bracket
A bracket without children.
$ check plant
! plant line 6: fault 11 Empty
? 1
-- plant
atom A
place s init
var n 0
port t n
trans t from s to s do n := + n 1
connector c A.t [ ]

== empty_bracket_alone
A tree of one bracket that holds nothing.
$ check plant
! plant line 8: fault 11 Empty
? 1
-- plant
atom A
place p
var n 0
port t n
atom B
port u
connector c A.t B.u
connector d [ ]

== empty_bracket_in_a_bracket
A bracket that holds nothing, within another one.
$ check plant
! plant line 8: fault 11 Empty
? 1
-- plant
atom A
place p
var n 0
port t n
atom B
port u
connector c A.t B.u
connector d A.t [ B.u [ ]' ]

== one_of_two_brackets_open
Of two brackets one stays open.
$ check plant
! plant line 8: fault 10 Shape
? 1
-- plant
atom A
place p
var n 0
port t n
atom B
port u
connector c A.t B.u
connector d [ [ A.t ]

== open_bracket
A bracket is not closed.
$ check plant
! plant line 6: fault 10 Shape
? 1
-- plant
atom A
place s init
var n 0
port t n
trans t from s to s do n := + n 1
connector c [ A.t

== open_bracket_alone
A bracket that stays open, and nothing else.
$ check plant
! plant line 8: fault 10 Shape
? 1
-- plant
atom A
place p
var n 0
port t n
atom B
port u
connector c A.t B.u
connector d [

== open_bracket_before_the_same_atom
A bracket that stays open is told before faults of the tree.
$ check plant
! plant line 8: fault 10 Shape
? 1
-- plant
atom A
place p
var n 0
port t n
atom B
port u
connector c A.t B.u
connector d [ A.t A.t

== same_atom_in_a_bracket
Two leaves of one atom, by different ports and one of them in a bracket.
$ check plant
! plant line 6: fault 11 SameAtom
? 1
-- plant
atom A
port t
port v
atom B
port u
connector c A.t B.u [ A.v ]

== unknown_leaf_before_a_closed_bracket
The first word with a fault is told: an unknown leaf before a bracket that was never open.
$ check plant
! plant line 8: fault 7 UnknownName
? 1
-- plant
atom A
place p
var n 0
port t n
atom B
port u
connector c A.t B.u
connector d no.t ] A.t

== unknown_leaf_before_an_open_bracket
The first word with a fault is told: an unknown leaf before the bracket that stays open.
$ check plant
! plant line 8: fault 7 UnknownName
? 1
-- plant
atom A
place p
var n 0
port t n
atom B
port u
connector c A.t B.u
connector d [ no.t
