`check`: the trees of connectors. Leaves, levels and triggers.

== bad_name_before_a_missing_tree
The first word with a fault is told: a bad name before the tree that is missing.
$ check plant
! plant line 8: fault 5 BadName
? 1
-- plant
atom A
place p
var n 0
port t n
atom B
port u
connector c A.t B.u
connector 1

== broadcast_by_a_trigger
A trigger acts with any of three synchrons: 8 interactions.
$ check plant
atoms 4 connectors 1 interactions 8 rules 0
-- plant
atom A0
port t
atom A1
port t
atom A2
port t
atom A3
port t
connector c A0.t' A1.t A2.t A3.t

== connector_with_blanks_for_a_tree
A connector needs a tree: blanks are none.
$ check plant
! plant line 8: fault 10 Shape
? 1
-- plant
atom A
place p
var n 0
port t n
atom B
port u
connector c A.t B.u
connector d 	

== connector_without_a_tree
A connector needs a tree.
$ check plant
! plant line 6: fault 10 Shape
? 1
-- plant
atom A
place s init
var n 0
port t n
trans t from s to s do n := + n 1
connector c

== connector_without_words
A word is missing.
$ check plant
! plant line 8: fault 10 Shape
? 1
-- plant
atom A
place p
var n 0
port t n
atom B
port u
connector c A.t B.u
connector

== eight_leaves
Eight leaves, all triggers: 255 interactions.
$ check plant
atoms 8 connectors 1 interactions 255 rules 0
-- plant
atom A0
port t
atom A1
port t
atom A2
port t
atom A3
port t
atom A4
port t
atom A5
port t
atom A6
port t
atom A7
port t
connector c A0.t' A1.t' A2.t' A3.t' A4.t' A5.t' A6.t' A7.t'

== eight_levels
Seven brackets in one another make eight levels.
$ check plant
atoms 1 connectors 1 interactions 1 rules 0
-- plant
atom A
port t
connector c [ [ [ [ [ [ [ A.t ] ] ] ] ] ] ]

== four_triggers
Of four triggers any act together: 15 interactions.
$ check plant
atoms 4 connectors 1 interactions 15 rules 0
-- plant
atom A0
port t
atom A1
port t
atom A2
port t
atom A3
port t
connector c A0.t' A1.t' A2.t' A3.t'

== leaf_of_a_dot_and_a_quote
A leaf has something between its dot and its quote.
$ check plant
! plant line 8: fault 10 Shape
? 1
-- plant
atom A
place p
var n 0
port t n
atom B
port u
connector c A.t B.u
connector d A.'

== leaf_with_two_dots
A leaf has one dot.
$ check plant
! plant line 8: fault 10 Shape
? 1
-- plant
atom A
place p
var n 0
port t n
atom B
port u
connector c A.t B.u
connector d A.t.u

== leaf_with_two_quotes
Of two quotes the first belongs to the port's name, which no port has.
$ check plant
! plant line 8: fault 7 UnknownName
? 1
-- plant
atom A
place p
var n 0
port t n
atom B
port u
connector c A.t B.u
connector d A.t''

== leaf_without_a_dot
A leaf is ATOM.PORT.
$ check plant
! plant line 6: fault 10 Shape
? 1
-- plant
atom A
place s init
var n 0
port t n
trans t from s to s do n := + n 1
connector c A

== leaf_without_a_port
A leaf has something behind its dot.
$ check plant
! plant line 8: fault 10 Shape
? 1
-- plant
atom A
place p
var n 0
port t n
atom B
port u
connector c A.t B.u
connector d A.

== leaf_without_an_atom
A leaf has something before its dot.
$ check plant
! plant line 8: fault 10 Shape
? 1
-- plant
atom A
place p
var n 0
port t n
atom B
port u
connector c A.t B.u
connector d .t

== one_trigger_and_fifteen_synchrons
Such a connector has 2^15 interactions, more than a plant may have.
$ check plant
! plant line 33: fault 13 Limit
? 1
-- plant
atom A0
port t
atom A1
port t
atom A2
port t
atom A3
port t
atom A4
port t
atom A5
port t
atom A6
port t
atom A7
port t
atom A8
port t
atom A9
port t
atom A10
port t
atom A11
port t
atom A12
port t
atom A13
port t
atom A14
port t
atom A15
port t
connector c A0.t' A1.t A2.t A3.t A4.t A5.t A6.t A7.t A8.t A9.t A10.t A11.t A12.t A13.t A14.t A15.t

== quote_of_its_own
A quote stands directly behind its port.
$ check plant
! plant line 8: fault 10 Shape
? 1
-- plant
atom A
place p
var n 0
port t n
atom B
port u
connector c A.t B.u
connector d A.t '

== same_atom
Two leaves of one atom.
$ check plant
! plant line 14: fault 11 SameAtom
? 1
-- plant = examples/sample.plant and
connector two A.t A.t

== same_atom_before_empty
Of the faults of a tree the first of its order is told: an atom twice before an empty bracket.
$ check plant
! plant line 8: fault 11 SameAtom
? 1
-- plant
atom A
place p
var n 0
port t n
atom B
port u
connector c A.t B.u
connector d [ ] A.t A.t

== seventeen_leaves
More leaves than a connector may have.
$ check plant
! plant line 35: fault 11 TooManyLeaves
? 1
-- plant
atom A0
port t
atom A1
port t
atom A2
port t
atom A3
port t
atom A4
port t
atom A5
port t
atom A6
port t
atom A7
port t
atom A8
port t
atom A9
port t
atom A10
port t
atom A11
port t
atom A12
port t
atom A13
port t
atom A14
port t
atom A15
port t
atom A16
port t
connector c A0.t A1.t A2.t A3.t A4.t A5.t A6.t A7.t A8.t A9.t A10.t A11.t A12.t A13.t A14.t A15.t A16.t

== sixteen_leaves
$ check plant
atoms 16 connectors 1 interactions 1 rules 0
-- plant
atom A0
port t
atom A1
port t
atom A2
port t
atom A3
port t
atom A4
port t
atom A5
port t
atom A6
port t
atom A7
port t
atom A8
port t
atom A9
port t
atom A10
port t
atom A11
port t
atom A12
port t
atom A13
port t
atom A14
port t
atom A15
port t
connector c A0.t A1.t A2.t A3.t A4.t A5.t A6.t A7.t A8.t A9.t A10.t A11.t A12.t A13.t A14.t A15.t

== too_deep
Eight brackets in one another make nine levels.
$ check plant
! plant line 3: fault 11 TooDeep
? 1
-- plant
atom A
port t
connector c [ [ [ [ [ [ [ [ A.t ] ] ] ] ] ] ] ]

== too_deep_before_the_same_atom
Of the faults of a tree the first of its order is told: nine levels before an atom twice.
$ check plant
! plant line 8: fault 11 TooDeep
? 1
-- plant
atom A
place p
var n 0
port t n
atom B
port u
connector c A.t B.u
connector d A.t A.t [ [ [ [ [ [ [ [ B.u ] ] ] ] ] ] ] ]

== too_many_leaves_before_empty
Of the faults of a tree the first of its order is told: seventeen leaves before an empty bracket.
$ check plant
! plant line 35: fault 11 TooManyLeaves
? 1
-- plant
atom A0
port t
atom A1
port t
atom A2
port t
atom A3
port t
atom A4
port t
atom A5
port t
atom A6
port t
atom A7
port t
atom A8
port t
atom A9
port t
atom A10
port t
atom A11
port t
atom A12
port t
atom A13
port t
atom A14
port t
atom A15
port t
atom A16
port t
connector c [ ] [ A0.t A1.t A2.t A3.t A4.t A5.t A6.t A7.t A8.t A9.t A10.t A11.t A12.t A13.t A14.t A15.t A16.t ]

== too_many_leaves_before_too_deep
Of the faults of a tree the first of its order is told: seventeen leaves before nine levels.
$ check plant
! plant line 8: fault 11 TooManyLeaves
? 1
-- plant
atom A
place p
var n 0
port t n
atom B
port u
connector c A.t B.u
connector d A.t A.t A.t A.t A.t A.t A.t A.t A.t A.t A.t A.t A.t A.t A.t A.t A.t [ [ [ [ [ [ [ [ B.u ] ] ] ] ] ] ] ]

== tree_fault_before_the_interactions
A fault of the tree is told before there are too many interactions.
$ check plant
! plant line 22: fault 11 SameAtom
? 1
-- plant
atom A0
port t
atom A1
port t
atom A2
port t
atom A3
port t
atom A4
port t
atom A5
port t
atom A6
port t
atom A7
port t
connector c0 A0.t' A1.t' A2.t' A3.t' A4.t' A5.t' A6.t' A7.t'
connector c1 A0.t' A1.t' A2.t' A3.t' A4.t' A5.t' A6.t' A7.t'
connector c2 A0.t' A1.t' A2.t' A3.t' A4.t' A5.t' A6.t' A7.t'
connector c3 A0.t' A1.t' A2.t' A3.t' A4.t' A5.t' A6.t' A7.t'
connector d A0.t' A1.t A2.t
connector e A3.t A3.t

== twice_before_an_unknown_leaf
The first word with a fault is told: a name that is declared already before an unknown leaf.
$ check plant
! plant line 8: fault 6 Twice
? 1
-- plant
atom A
place p
var n 0
port t n
atom B
port u
connector c A.t B.u
connector c no.t

== unknown_atom_of_a_connector
A leaf of an unknown atom.
$ check plant
! plant line 6: fault 7 UnknownName
? 1
-- plant
atom A
place s init
var n 0
port t n
trans t from s to s do n := + n 1
connector c B.t

== unknown_leaf_behind_eight_leaves
The faults of a tree are told only where no word has a fault: the ninth leaf is unknown.
$ check plant
! plant line 17: fault 7 UnknownName
? 1
-- plant
atom A0
port t
atom A1
port t
atom A2
port t
atom A3
port t
atom A4
port t
atom A5
port t
atom A6
port t
atom A7
port t
connector c A0.t A1.t A2.t A3.t A4.t A5.t A6.t A7.t A8.t

== unknown_name_before_a_fault_of_the_tree
The faults of a tree are told only where no word has a fault.
$ check plant
! plant line 14: fault 7 UnknownName
? 1
-- plant = examples/sample.plant and
connector two A.t A.t C.t

== unknown_port_before_a_missing_word
The first word with a fault is told: an unknown port before the word that is missing.
$ check plant
! plant line 5: fault 7 UnknownName
? 1
-- plant
atom A
place p
var n 0
port t n
trans no

== unknown_port_before_the_interactions
A fault of a word is told before there are too many interactions.
$ check plant
! plant line 22: fault 7 UnknownName
? 1
-- plant
atom A0
port t
atom A1
port t
atom A2
port t
atom A3
port t
atom A4
port t
atom A5
port t
atom A6
port t
atom A7
port t
connector c0 A0.t' A1.t' A2.t' A3.t' A4.t' A5.t' A6.t' A7.t'
connector c1 A0.t' A1.t' A2.t' A3.t' A4.t' A5.t' A6.t' A7.t'
connector c2 A0.t' A1.t' A2.t' A3.t' A4.t' A5.t' A6.t' A7.t'
connector c3 A0.t' A1.t' A2.t' A3.t' A4.t' A5.t' A6.t' A7.t'
connector d A0.t' A1.t A2.t
connector e A3.u

== unknown_port_of_a_connector
A leaf with an unknown port.
$ check plant
! plant line 6: fault 7 UnknownName
? 1
-- plant
atom A
place s init
var n 0
port t n
trans t from s to s do n := + n 1
connector c A.u
