`check`: how many of each there may be, and one more than that.

== atom_at_all_limits
An atom at each of its limits: 64 places, 16 variables, 32 ports with 4 exports, 128 transitions, of which one has all
places, a guard of 64 words and 16 updates of 64 words; its names have 32 bytes.
$ check plant
atoms 1 connectors 0 interactions 0 rules 0
-- plant = tests/fixtures/atom_at_all_limits.plant

== expressions_of_64_words
64 words in a guard of a transition and of a connector, in an update and in a transfer.
$ check plant
atoms 1 connectors 1 interactions 1 rules 0
-- plant
atom A
place s init
var n 0
var k 0
port t n
trans t from s to s when ! ! ! ! ! ! ! ! ! ! ! ! ! ! ! ! ! ! ! ! ! ! ! ! ! ! ! ! ! ! ! ! ! ! ! ! ! ! ! ! ! ! ! ! ! ! ! ! ! ! ! ! ! ! ! ! ! ! ! ! ! ! ! 0 do k := + 1 + 1 + 1 + 1 + 1 + 1 + 1 + 1 + 1 + 1 + 1 + 1 + 1 + 1 + 1 + 1 + 1 + 1 + 1 + 1 + 1 + 1 + 1 + 1 + 1 + 1 + 1 + 1 + 1 + 1 + 1 ! n
connector c A.t
guard ! ! ! ! ! ! ! ! ! ! ! ! ! ! ! ! ! ! ! ! ! ! ! ! ! ! ! ! ! ! ! ! ! ! ! ! ! ! ! ! ! ! ! ! ! ! ! ! ! ! ! ! ! ! ! ! ! ! ! ! ! ! ! 0
move A.n := + 1 + 1 + 1 + 1 + 1 + 1 + 1 + 1 + 1 + 1 + 1 + 1 + 1 + 1 + 1 + 1 + 1 + 1 + 1 + 1 + 1 + 1 + 1 + 1 + 1 + 1 + 1 + 1 + 1 + 1 + 1 ! A.n

== fault_before_the_sixty_fifth_word
A fault in an earlier word is told before the 65th.
$ check plant
! plant line 5: fault 7 UnknownName
? 1
-- plant
atom A
place s init
var n 0
port t n
trans t from s to s when ! ! ! ! ! ! ! ! ! ! ! ! ! ! ! ! ! ! ! ! ! ! ! ! ! ! ! ! ! ! ! ! ! ! ! ! ! ! ! ! ! ! ! ! ! ! ! ! ! ! ! ! ! ! ! ! ! ! ! ! + no ! ! ! ! ! 1

== fifth_export
One variable more than a port may export.
$ check plant
! plant line 7: fault 13 Limit
? 1
-- plant
atom A
var n0 0
var n1 0
var n2 0
var n3 0
var n4 0
port t n0 n1 n2 n3 n4

== fifth_export_of_an_unknown_name
A fifth export is one too many, also where its name is unknown.
$ check plant
! plant line 8: fault 13 Limit
? 1
-- plant
atom A
place p
var n 0
port t n
var m 0
var k 0
var j 0
port u n m k j no

== fifth_export_that_stands_twice
A fifth export is one too many, also where it stands twice.
$ check plant
! plant line 8: fault 13 Limit
? 1
-- plant
atom A
place p
var n 0
port t n
var m 0
var k 0
var j 0
port u n m k j n

== interaction_too_many
The connector that has the interaction too many is told at its own line.
$ check plant
! plant line 22: fault 13 Limit
? 1
-- plant
atom A0
port t
atom A1
port t
atom A2
port t
atom A3
port t
atom A4
port t
atom A5
port t
atom A6
port t
atom A7
port t
connector c0 A0.t' A1.t' A2.t' A3.t' A4.t' A5.t' A6.t' A7.t'
connector c1 A0.t' A1.t' A2.t' A3.t' A4.t' A5.t' A6.t' A7.t'
connector c2 A0.t' A1.t' A2.t' A3.t' A4.t' A5.t' A6.t' A7.t'
connector c3 A0.t' A1.t' A2.t' A3.t' A4.t' A5.t' A6.t' A7.t'
connector d A0.t' A1.t A2.t
connector e A3.t

== interactions_past_the_limit_at_once
A connector with 8 interactions where only 4 are left; a later line with a fault is not told.
$ check plant
! plant line 21: fault 13 Limit
? 1
-- plant
atom A0
port t
atom A1
port t
atom A2
port t
atom A3
port t
atom A4
port t
atom A5
port t
atom A6
port t
atom A7
port t
connector c0 A0.t' A1.t' A2.t' A3.t' A4.t' A5.t' A6.t' A7.t'
connector c1 A0.t' A1.t' A2.t' A3.t' A4.t' A5.t' A6.t' A7.t'
connector c2 A0.t' A1.t' A2.t' A3.t' A4.t' A5.t' A6.t' A7.t'
connector c3 A0.t' A1.t' A2.t' A3.t' A4.t' A5.t' A6.t' A7.t'
connector d A0.t' A1.t A2.t A3.t
connector d

== limit_before_a_bad_name
A part too many is told at the first word of its line, before its name.
$ check plant
! plant line 20: fault 13 Limit
? 1
-- plant
atom A
place p
var n 0
port t n
var n0 0
var n1 0
var n2 0
var n3 0
var n4 0
var n5 0
var n6 0
var n7 0
var n8 0
var n9 0
var n10 0
var n11 0
var n12 0
var n13 0
var n14 0
var 1 x

== lines_behind_the_last_rule
Behind as many rules as a plant may have there may be other lines.
$ check plant
atoms 3 connectors 3 interactions 4 rules 1024
-- plant = tests/fixtures/lines_behind_the_last_rule.plant

== most_interactions
The greatest number of interactions: four times 255, and 4 by a trigger with two synchrons.
$ check plant
atoms 8 connectors 5 interactions 1024 rules 0
-- plant
atom A0
port t
atom A1
port t
atom A2
port t
atom A3
port t
atom A4
port t
atom A5
port t
atom A6
port t
atom A7
port t
connector c0 A0.t' A1.t' A2.t' A3.t' A4.t' A5.t' A6.t' A7.t'
connector c1 A0.t' A1.t' A2.t' A3.t' A4.t' A5.t' A6.t' A7.t'
connector c2 A0.t' A1.t' A2.t' A3.t' A4.t' A5.t' A6.t' A7.t'
connector c3 A0.t' A1.t' A2.t' A3.t' A4.t' A5.t' A6.t' A7.t'
connector d A0.t' A1.t A2.t

== most_rules
The greatest number of rules, of both kinds together.
$ check plant
atoms 2 connectors 2 interactions 3 rules 1024
-- plant = tests/fixtures/most_rules.plant

== most_transitions
The greatest number of transitions of an atom.
$ check plant
atoms 1 connectors 0 interactions 0 rules 0
-- plant = tests/fixtures/most_transitions.plant

== ninth_guard
One guard clause more than a connector may have.
$ check plant
! plant line 15: fault 13 Limit
? 1
-- plant
atom A
place s init
var n 0
port t n
trans t from s to s do n := + n 1
connector c A.t
guard 1
guard 1
guard 1
guard 1
guard 1
guard 1
guard 1
guard 1
guard 1

== ninth_guard_with_a_fault
A clause too many is told at the first word of its line, before its expression.
$ check plant
! plant line 15: fault 13 Limit
? 1
-- plant
atom A
place s init
var n 0
port t n
trans t from s to s do n := + n 1
connector c A.t
guard 1
guard 1
guard 1
guard 1
guard 1
guard 1
guard 1
guard 1
guard x

== rule_past_the_limit_with_a_fault
A rule too many is told before all else of its line.
$ check plant
! plant line 1031: fault 13 Limit
? 1
-- plant = tests/fixtures/rule_past_the_limit_with_a_fault.plant

== rule_too_many
One rule more than a plant may have.
$ check plant
! plant line 1031: fault 13 Limit
? 1
-- plant = tests/fixtures/rule_too_many.plant

== seventeen_updates
One update more than a transition may have.
$ check plant
! plant line 5: fault 13 Limit
? 1
-- plant
atom A
place s
var n 0
port t
trans t from s to s do n := + n 1 ; n := + n 1 ; n := + n 1 ; n := + n 1 ; n := + n 1 ; n := + n 1 ; n := + n 1 ; n := + n 1 ; n := + n 1 ; n := + n 1 ; n := + n 1 ; n := + n 1 ; n := + n 1 ; n := + n 1 ; n := + n 1 ; n := + n 1 ; n := + n 1

== seventeenth_update_with_a_fault
The sign before the seventeenth update is told before what stands behind it.
$ check plant
! plant line 5: fault 13 Limit
? 1
-- plant
atom A
place s
var n 0
port t
trans t from s to s do n := 1 ; n := 1 ; n := 1 ; n := 1 ; n := 1 ; n := 1 ; n := 1 ; n := 1 ; n := 1 ; n := 1 ; n := 1 ; n := 1 ; n := 1 ; n := 1 ; n := 1 ; n := 1 ; no := 1

== seventeenth_variable
One variable more than an atom may have.
$ check plant
! plant line 18: fault 13 Limit
? 1
-- plant
atom A
var n0 0
var n1 0
var n2 0
var n3 0
var n4 0
var n5 0
var n6 0
var n7 0
var n8 0
var n9 0
var n10 0
var n11 0
var n12 0
var n13 0
var n14 0
var n15 0
var n16 0

== sixteen_variables
The greatest number of variables of an atom.
$ check plant
atoms 1 connectors 0 interactions 0 rules 0
-- plant
atom A
var n0 0
var n1 1
var n2 2
var n3 3
var n4 4
var n5 5
var n6 6
var n7 7
var n8 8
var n9 9
var n10 10
var n11 11
var n12 12
var n13 13
var n14 14
var n15 15

== sixteenth_update_with_a_fault
A fault in the sixteenth update stands before the sign of the seventeenth.
$ check plant
! plant line 5: fault 7 UnknownName
? 1
-- plant
atom A
place s
var n 0
port t
trans t from s to s do n := 1 ; n := 1 ; n := 1 ; n := 1 ; n := 1 ; n := 1 ; n := 1 ; n := 1 ; n := 1 ; n := 1 ; n := 1 ; n := 1 ; n := 1 ; n := 1 ; n := 1 ; no := 1 ; n := 1

== sixty_fifth_atom_with_a_fault
An atom too many is told at the first word of its line, before its name.
$ check plant
! plant line 65: fault 13 Limit
? 1
-- plant = tests/fixtures/sixty_fifth_atom_with_a_fault.plant

== sixty_fifth_connector_with_a_fault
A connector too many is told at the first word of its line, before its name and its tree.
$ check plant
! plant line 67: fault 13 Limit
? 1
-- plant = tests/fixtures/sixty_fifth_connector_with_a_fault.plant

== sixty_fifth_place_without_a_name
A place too many is told at the first word of its line, before the name that is missing.
$ check plant
! plant line 66: fault 13 Limit
? 1
-- plant = tests/fixtures/sixty_fifth_place_without_a_name.plant

== sixty_fifth_word_before_what_it_is
The 65th word is one too many, whatever it is.
$ check plant
! plant line 5: fault 13 Limit
? 1
-- plant
atom A
place s init
var n 0
port t n
trans t from s to s when ! ! ! ! ! ! ! ! ! ! ! ! ! ! ! ! ! ! ! ! ! ! ! ! ! ! ! ! ! ! ! ! ! ! ! ! ! ! ! ! ! ! ! ! ! ! ! ! ! ! ! ! ! ! ! ! ! ! ! ! ! ! ! ! no

== sixty_five_atoms
One atom more than a plant may have.
$ check plant
! plant line 65: fault 13 Limit
? 1
-- plant = tests/fixtures/sixty_five_atoms.plant

== sixty_five_connectors
One connector more than a plant may have.
$ check plant
! plant line 67: fault 13 Limit
? 1
-- plant = tests/fixtures/sixty_five_connectors.plant

== sixty_five_places
One place more than an atom may have.
$ check plant
! plant line 66: fault 13 Limit
? 1
-- plant = tests/fixtures/sixty_five_places.plant

== sixty_five_words_of_a_guard
One word more than an expression may have, in a guard of a connector.
$ check plant
! plant line 7: fault 13 Limit
? 1
-- plant
atom A
place s init
var n 0
port t n
trans t from s to s
connector c A.t
guard + 1 + 1 + 1 + 1 + 1 + 1 + 1 + 1 + 1 + 1 + 1 + 1 + 1 + 1 + 1 + 1 + 1 + 1 + 1 + 1 + 1 + 1 + 1 + 1 + 1 + 1 + 1 + 1 + 1 + 1 + 1 + 1 A.n

== sixty_five_words_of_a_transfer
One word more than an expression may have, in a transfer.
$ check plant
! plant line 7: fault 13 Limit
? 1
-- plant
atom A
place s init
var n 0
port t n
trans t from s to s
connector c A.t
move A.n := + 1 + 1 + 1 + 1 + 1 + 1 + 1 + 1 + 1 + 1 + 1 + 1 + 1 + 1 + 1 + 1 + 1 + 1 + 1 + 1 + 1 + 1 + 1 + 1 + 1 + 1 + 1 + 1 + 1 + 1 + 1 + 1 A.n

== sixty_five_words_of_a_transition_guard
One word more than an expression may have, in the guard of a transition.
$ check plant
! plant line 5: fault 13 Limit
? 1
-- plant
atom A
place s init
var n 0
port t n
trans t from s to s when + 1 + 1 + 1 + 1 + 1 + 1 + 1 + 1 + 1 + 1 + 1 + 1 + 1 + 1 + 1 + 1 + 1 + 1 + 1 + 1 + 1 + 1 + 1 + 1 + 1 + 1 + 1 + 1 + 1 + 1 + 1 + 1 n

== sixty_five_words_of_an_update
One word more than an expression may have, in an update.
$ check plant
! plant line 5: fault 13 Limit
? 1
-- plant
atom A
place s init
var n 0
port t n
trans t from s to s do n := + 1 + 1 + 1 + 1 + 1 + 1 + 1 + 1 + 1 + 1 + 1 + 1 + 1 + 1 + 1 + 1 + 1 + 1 + 1 + 1 + 1 + 1 + 1 + 1 + 1 + 1 + 1 + 1 + 1 + 1 + 1 + 1 n

== sixty_four_atoms
The greatest number of atoms.
$ check plant
atoms 64 connectors 0 interactions 0 rules 0
-- plant = tests/fixtures/sixty_four_atoms.plant

== sixty_four_connectors
The greatest number of connectors.
$ check plant
atoms 1 connectors 64 interactions 64 rules 0
-- plant = tests/fixtures/sixty_four_connectors.plant

== sixty_four_places
The greatest number of places, all of them sources and targets of one transition.
$ check plant
atoms 1 connectors 0 interactions 0 rules 0
-- plant = tests/fixtures/sixty_four_places.plant

== sixty_four_signs_without_an_operand
64 words that want an operand, and no word behind them: it is missing.
$ check plant
! plant line 5: fault 8 BadExpr
? 1
-- plant
atom A
place s init
var n 0
port t n
trans t from s to s when ! ! ! ! ! ! ! ! ! ! ! ! ! ! ! ! ! ! ! ! ! ! ! ! ! ! ! ! ! ! ! ! ! ! ! ! ! ! ! ! ! ! ! ! ! ! ! ! ! ! ! ! ! ! ! ! ! ! ! ! ! ! ! !

== thirty_three_ports
One port more than an atom may have.
$ check plant
! plant line 34: fault 13 Limit
? 1
-- plant
atom A
port p0
port p1
port p2
port p3
port p4
port p5
port p6
port p7
port p8
port p9
port p10
port p11
port p12
port p13
port p14
port p15
port p16
port p17
port p18
port p19
port p20
port p21
port p22
port p23
port p24
port p25
port p26
port p27
port p28
port p29
port p30
port p31
port p32

== thirty_three_transfers
One transfer more than a connector may have is told before its target, which has one already.
$ check plant
! plant line 98: fault 13 Limit
? 1
-- plant = tests/fixtures/thirty_three_transfers.plant

== thirty_two_ports
The greatest number of ports of an atom.
$ check plant
atoms 1 connectors 0 interactions 0 rules 0
-- plant
atom A
port p0
port p1
port p2
port p3
port p4
port p5
port p6
port p7
port p8
port p9
port p10
port p11
port p12
port p13
port p14
port p15
port p16
port p17
port p18
port p19
port p20
port p21
port p22
port p23
port p24
port p25
port p26
port p27
port p28
port p29
port p30
port p31

== transition_too_many
One transition more than an atom may have.
$ check plant
! plant line 133: fault 13 Limit
? 1
-- plant = tests/fixtures/transition_too_many.plant
