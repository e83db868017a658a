`check`: interactions that a rule names by their masks.

== bad_mask_before_an_unknown_atom
The mask is the first word at fault; the atom of the condition comes later.
$ check plant
! plant line 13: fault 9 BadNumber
? 1
-- plant
atom A
place on init
place off
port t
trans t from on to off
trans t from off to on
atom O
place s init
port o
trans o from s to s
connector tick A.t
connector other O.o
prio other < tick:x when B at on

== greatest_mask_of_64_bits
The greatest mask that is a number is no interaction.
$ check plant
! plant line 7: fault 7 UnknownName
? 1
-- plant
atom A
port t
atom B
port u
connector tick A.t
connector bc A.t' B.u
prio bc:18446744073709551615 < tick

== mask_in_a_word_of_its_own
A name and its mask are one word.
$ check plant
! plant line 7: fault 10 Shape
? 1
-- plant
atom A
port t
atom B
port u
connector tick A.t
connector bc A.t' B.u
prio bc :1 < tick

== mask_in_hexadecimal
A mask is a decimal number.
$ check plant
! plant line 7: fault 9 BadNumber
? 1
-- plant
atom A
port t
atom B
port u
connector tick A.t
connector bc A.t' B.u
prio tick < bc:0x3

== mask_missing
A side with nothing behind its colon names no connector.
$ check plant
! plant line 7: fault 7 UnknownName
? 1
-- plant
atom A
port t
atom B
port u
connector tick A.t
connector bc A.t' B.u
prio bc: < tick

== mask_of_16_bits
The greatest mask that can be written is a number, and no interaction of the connector.
$ check plant
! plant line 7: fault 7 UnknownName
? 1
-- plant
atom A
port t
atom B
port u
connector tick A.t
connector bc A.t' B.u
prio bc:65535 < tick

== mask_of_an_unknown_connector
The name is judged before its mask.
$ check plant
! plant line 7: fault 7 UnknownName
? 1
-- plant
atom A
port t
atom B
port u
connector tick A.t
connector bc A.t' B.u
prio no:x < tick

== mask_of_letters
A mask is a decimal number.
$ check plant
! plant line 7: fault 9 BadNumber
? 1
-- plant
atom A
port t
atom B
port u
connector tick A.t
connector bc A.t' B.u
prio bc:x < tick

== mask_of_no_interaction
The second leaf alone is no interaction of the connector, as the first is the trigger.
$ check plant
! plant line 7: fault 7 UnknownName
? 1
-- plant
atom A
port t
atom B
port u
connector tick A.t
connector bc A.t' B.u
prio bc:2 < tick

== mask_of_no_interaction_on_the_right
A mask that is no interaction of the connector, on the right side.
$ check plant
! plant line 7: fault 7 UnknownName
? 1
-- plant
atom A
port t
atom B
port u
connector tick A.t
connector bc A.t' B.u
prio tick < bc:2

== mask_past_16_bits
A mask past 16 bits is a number, and no interaction of the connector.
$ check plant
! plant line 7: fault 7 UnknownName
? 1
-- plant
atom A
port t
atom B
port u
connector tick A.t
connector bc A.t' B.u
prio bc:65536 < tick

== mask_past_16_bits_on_the_right
A mask past 16 bits is no interaction, though its last 16 bits are one.
$ check plant
! plant line 7: fault 7 UnknownName
? 1
-- plant
atom A
port t
atom B
port u
connector tick A.t
connector bc A.t' B.u
prio tick < bc:65537

== mask_past_64_bits
18446744073709551617 is past 64 bits: no number, and its low bits are not taken.
$ check plant
! plant line 7: fault 9 BadNumber
? 1
-- plant
atom A
port t
atom B
port u
connector tick A.t
connector bc A.t' B.u
prio tick < bc:18446744073709551617

== mask_past_8_bits
257 is 256 and 1: a bit past 8 leaves, and its low bits are not taken.
$ check plant
! plant line 7: fault 7 UnknownName
? 1
-- plant
atom A
port t
atom B
port u
connector tick A.t
connector bc A.t' B.u
prio bc:257 < tick

== mask_past_the_leaves
A bit past the leaves of the connector.
$ check plant
! plant line 7: fault 7 UnknownName
? 1
-- plant
atom A
port t
atom B
port u
connector tick A.t
connector bc A.t' B.u
prio tick:3 < bc

== mask_twice
A side with two colons names no connector.
$ check plant
! plant line 7: fault 7 UnknownName
? 1
-- plant
atom A
port t
atom B
port u
connector tick A.t
connector bc A.t' B.u
prio bc:1:3 < tick

== mask_with_a_colon_behind
A word with two colons names nothing.
$ check plant
! plant line 7: fault 7 UnknownName
? 1
-- plant
atom A
port t
atom B
port u
connector tick A.t
connector bc A.t' B.u
prio bc:3: < tick

== mask_with_a_minus
A mask is digits alone.
$ check plant
! plant line 7: fault 9 BadNumber
? 1
-- plant
atom A
port t
atom B
port u
connector tick A.t
connector bc A.t' B.u
prio bc:-1 < tick

== mask_with_a_plus
A mask is digits alone.
$ check plant
! plant line 7: fault 9 BadNumber
? 1
-- plant
atom A
port t
atom B
port u
connector tick A.t
connector bc A.t' B.u
prio bc:+1 < tick

== mask_with_leading_zeros
Leading zeros say nothing, however many.
$ check plant
atoms 2 connectors 2 interactions 3 rules 1
-- plant
atom A
port t
atom B
port u
connector tick A.t
connector bc A.t' B.u
prio bc:0000000000000000000000000000003 < tick:01

== mask_without_a_connector
A side with nothing before its colon names no connector.
$ check plant
! plant line 7: fault 7 UnknownName
? 1
-- plant
atom A
port t
atom B
port u
connector tick A.t
connector bc A.t' B.u
prio :1 < tick

== mask_zero
No connector has an interaction without ports.
$ check plant
! plant line 7: fault 7 UnknownName
? 1
-- plant
atom A
port t
atom B
port u
connector tick A.t
connector bc A.t' B.u
prio bc:0 < tick

== masks_of_trees
Each interaction of each tree is named by its mask in one of the rules, and no other one is: all are listed by hand, 24 of them.
$ check plant
atoms 9 connectors 9 interactions 24 rules 12
-- plant
atom S
port t
atom A
port t
atom B
port t
atom C
port t
atom D
port t
atom E
port t
atom F
port t
atom G
port t
atom H
port t
connector all S.t A.t B.t C.t
connector lead S.t' A.t B.t C.t
connector together S.t' [ A.t B.t C.t ]
connector chain S.t' [ A.t' [ B.t' C.t ] ]
connector inner [ A.t' B.t ] C.t
connector outer [ A.t' B.t ]' C.t
connector eight A.t B.t C.t D.t E.t F.t G.t H.t
connector beside [ A.t ] [ B.t ] [ C.t ] [ D.t ] [ E.t ] [ F.t ] [ G.t ] [ H.t ]
connector deep [ [ [ [ [ [ [ A.t ] ] ] ] ] ] ] B.t
prio all:15 < lead:1
prio lead:3 < lead:5
prio lead:7 < lead:9
prio lead:11 < lead:13
prio lead:15 < together:1
prio together:15 < chain:1
prio chain:3 < chain:7
prio chain:15 < inner:5
prio inner:7 < outer:1
prio outer:3 < outer:5
prio outer:7 < eight:255
prio beside:255 < deep:3

== maximal_with_a_mask
A connector is maximal, not one of its interactions.
$ check plant
! plant line 7: fault 7 UnknownName
? 1
-- plant
atom A
port t
atom B
port u
connector tick A.t
connector bc A.t' B.u
maximal bc:1

== prio_mask_before_an_unknown_name
The first word with a fault is told: a mask that is no number before an unknown right side.
$ check plant
! plant line 7: fault 9 BadNumber
? 1
-- plant
atom A
port t
atom B
port u
connector tick A.t
connector bc A.t' B.u
prio bc:x < no

== prio_of_a_leaf
A port is no side of a rule.
$ check plant
! plant line 7: fault 7 UnknownName
? 1
-- plant
atom A
port t
atom B
port u
connector tick A.t
connector bc A.t' B.u
prio A.t < tick
