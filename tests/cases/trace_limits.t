`trace`: the largest plants.

== a_hundred_and_twenty_eight_interactions
A sends to any of seven others, of which three can move once: 128 choices, and 16 behind the first step.
$ trace plant 127 15 14 16
1 send A.t/0 B.t/0 C.t/0 D.t/0 E.t/0 F.t/0 G.t/0 H.t/0
2 send A.t/0 E.t/0 F.t/0 G.t/0 H.t/0
3 send A.t/0 F.t/0 G.t/0 H.t/0
4 send A.t/0
state A [s] n=4
state B [s] n=1
state C [s] n=1
state D [s] n=1
state E [s] n=2
state F [s] n=3
state G [s] n=3
state H [s] n=3
-- plant
atom A
place s init
var n 0
port t n
trans t from s to s when < n 9 do n := + n 1
atom B
place s init
var n 0
port t n
trans t from s to s when < n 1 do n := + n 1
atom C
place s init
var n 0
port t n
trans t from s to s when < n 1 do n := + n 1
atom D
place s init
var n 0
port t n
trans t from s to s when < n 1 do n := + n 1
atom E
place s init
var n 0
port t n
trans t from s to s when < n 9 do n := + n 1
atom F
place s init
var n 0
port t n
trans t from s to s when < n 9 do n := + n 1
atom G
place s init
var n 0
port t n
trans t from s to s when < n 9 do n := + n 1
atom H
place s init
var n 0
port t n
trans t from s to s when < n 9 do n := + n 1
connector send A.t' B.t C.t D.t E.t F.t G.t H.t

== condition_at_the_last_place_of_the_last_atom
As many atoms as a plant may have, and the last one with as many places: the rule counts while the last of these is marked.
$ trace plant 0 1 0 0
= tests/fixtures/condition_at_the_last_place_of_the_last_atom.stdout
-- plant = tests/fixtures/condition_at_the_last_place_of_the_last_atom.plant

== eight_guards
As many clauses as a connector may have, and the last one counts.
$ trace plant 0 0
1 c A.t/0
stuck
state A [s] n=1
-- plant
atom A
place s init
var n 0
port t n
trans t from s to s do n := + n 1
connector c A.t
guard 1
guard 1
guard 1
guard 1
guard 1
guard 1
guard 1
guard < A.n 1

== eight_levels_of_triggers
Seven brackets in one another make eight levels: each atom acts with those before it.
$ trace plant 7 0 3
1 c A0.t/0 A1.t/0 A2.t/0 A3.t/0 A4.t/0 A5.t/0 A6.t/0 A7.t/0
2 c A0.t/0
3 c A0.t/0 A1.t/0 A2.t/0 A3.t/0
state A0 [s] n=3
state A1 [s] n=2
state A2 [s] n=2
state A3 [s] n=2
state A4 [s] n=1
state A5 [s] n=1
state A6 [s] n=1
state A7 [s] n=1
-- plant
atom A0
place s init
var n 0
port t
trans t from s to s do n := + n 1
atom A1
place s init
var n 0
port t
trans t from s to s do n := + n 1
atom A2
place s init
var n 0
port t
trans t from s to s do n := + n 1
atom A3
place s init
var n 0
port t
trans t from s to s do n := + n 1
atom A4
place s init
var n 0
port t
trans t from s to s do n := + n 1
atom A5
place s init
var n 0
port t
trans t from s to s do n := + n 1
atom A6
place s init
var n 0
port t
trans t from s to s do n := + n 1
atom A7
place s init
var n 0
port t
trans t from s to s do n := + n 1
connector c A0.t' [ A1.t' [ A2.t' [ A3.t' [ A4.t' [ A5.t' [ A6.t' [ A7.t ] ] ] ] ] ] ]

== every_second_of_the_most_transitions
Of 128 transitions those of even numbers are never offered: choice k is transition 2 k + 1, and pick 64 is the first again.
$ trace plant 0 31 32 63 64
1 c A.t/1
2 c A.t/63
3 c A.t/65
4 c A.t/127
5 c A.t/1
state A [s]
-- plant = tests/fixtures/every_second_of_the_most_transitions.plant

== expressions_of_64_words
64 words in a guard of a transition and of a connector, in an update and in a transfer: 63 times `!` of 0 is 1, and 31 times 1 and `! n` are 32 where n is 0.
$ trace plant 0
1 c A.t/0
state A [s] n=32 k=31
-- plant
atom A
place s init
var n 0
var k 0
port t n
trans t from s to s when ! ! ! ! ! ! ! ! ! ! ! ! ! ! ! ! ! ! ! ! ! ! ! ! ! ! ! ! ! ! ! ! ! ! ! ! ! ! ! ! ! ! ! ! ! ! ! ! ! ! ! ! ! ! ! ! ! ! ! ! ! ! ! 0 do k := + 1 + 1 + 1 + 1 + 1 + 1 + 1 + 1 + 1 + 1 + 1 + 1 + 1 + 1 + 1 + 1 + 1 + 1 + 1 + 1 + 1 + 1 + 1 + 1 + 1 + 1 + 1 + 1 + 1 + 1 + 1 ! n
connector c A.t
guard ! ! ! ! ! ! ! ! ! ! ! ! ! ! ! ! ! ! ! ! ! ! ! ! ! ! ! ! ! ! ! ! ! ! ! ! ! ! ! ! ! ! ! ! ! ! ! ! ! ! ! ! ! ! ! ! ! ! ! ! ! ! ! 0
move A.n := + 1 + 1 + 1 + 1 + 1 + 1 + 1 + 1 + 1 + 1 + 1 + 1 + 1 + 1 + 1 + 1 + 1 + 1 + 1 + 1 + 1 + 1 + 1 + 1 + 1 + 1 + 1 + 1 + 1 + 1 + 1 ! A.n

== four_exports
A port exports as many variables as it may, and each gets what is delivered to it.
$ trace plant 0
1 c A.t/0 B.t/0
state A [s] a=9 b=2 c=3 d=4
state B [s] a=4 b=3 c=2 d=1
-- plant
atom A
place s init
var a 1
var b 2
var c 3
var d 4
port t d c b a
trans t from s to s
atom B
place s init
var a 0
var b 0
var c 0
var d 0
port t a b c d
trans t from s to s
connector c A.t B.t
move B.d := A.a
move B.c := A.b
move B.b := A.c
move B.a := A.d
move A.a := 9

== least_and_greatest_numbers
Both ends of 64 bits, as first values and in expressions; -0 and leading zeros are numbers.
$ trace plant 0
1 c A.t/0
state A [s] least=9223372036854775807 greatest=-9223372036854775808 zero=-9223372036854775808 seven=7
-- plant
atom A
place s init
var least -9223372036854775808
var greatest 9223372036854775807
var zero -0
var seven 0000000000000000007
port t
trans t from s to s when && == least -9223372036854775808 == greatest 9223372036854775807 do least := - least 1 ; greatest := + greatest 1 ; zero := * -9223372036854775808 -1
connector c A.t

== longest_chain
1,024 interactions in one chain of 1,023 rules, written in a mixed order, and a connector that is maximal besides: only the last one is a choice.
$ trace plant 0 1023
= tests/fixtures/longest_chain.stdout
-- plant = tests/fixtures/longest_chain.plant

== longest_text
As many bytes as a text may have, most of them line feeds before the plant.
@ plant begins with 1048513 line feeds
$ trace plant 0
1 c A.t/0
state A [s]
-- plant
atom A
place s init
port t
trans t from s to s
connector c A.t

== most_rules_between_the_widest_connectors
As many rules as a plant may have, each of the first 1,020 between two connectors of 255 interactions: all 8 atoms by the last connector are the only choice.
$ trace plant 0 1
1 c3 A0.t/0 A1.t/0 A2.t/0 A3.t/0 A4.t/0 A5.t/0 A6.t/0 A7.t/0
2 c3 A0.t/0 A1.t/0 A2.t/0 A3.t/0 A4.t/0 A5.t/0 A6.t/0 A7.t/0
state A0 [s]
state A1 [s]
state A2 [s]
state A3 [s]
state A4 [s]
state A5 [s]
state A6 [s]
state A7 [s]
-- plant = tests/fixtures/memory_runs_out.plant

== most_transitions
Each of 128 transitions is a choice of its own; the pick 128 is the first again.
$ trace plant 127 128 64
1 c A.t/127
2 c A.t/0
3 c A.t/64
state A [s] n=64
-- plant = tests/fixtures/trace.most_transitions.plant

== names_of_32_bytes
The longest names of every kind, and a variable of an atom in a guard and a transfer.
$ trace plant 0 0
1 c_999999999999999999999999999999 A_999999999999999999999999999999.t_999999999999999999999999999999/0
stuck
state A_999999999999999999999999999999 [p_999999999999999999999999999999] v_999999999999999999999999999999=1
-- plant
atom A_999999999999999999999999999999
place p_999999999999999999999999999999 init
var v_999999999999999999999999999999 0
port t_999999999999999999999999999999 v_999999999999999999999999999999
trans t_999999999999999999999999999999 from p_999999999999999999999999999999 to p_999999999999999999999999999999
connector c_999999999999999999999999999999 A_999999999999999999999999999999.t_999999999999999999999999999999'
guard < A_999999999999999999999999999999.v_999999999999999999999999999999 1
move A_999999999999999999999999999999.v_999999999999999999999999999999 := + 1 A_999999999999999999999999999999.v_999999999999999999999999999999

== sixteen_updates
As many updates as a transition may have.
$ trace plant 0
1 c A.t/0
state A [s] n=16
-- plant
atom A
place s init
var n 0
port t
trans t from s to s do n := + n 1 ; n := + n 1 ; n := + n 1 ; n := + n 1 ; n := + n 1 ; n := + n 1 ; n := + n 1 ; n := + n 1 ; n := + n 1 ; n := + n 1 ; n := + n 1 ; n := + n 1 ; n := + n 1 ; n := + n 1 ; n := + n 1 ; n := + n 1
connector c A.t

== sixteen_variables
The greatest number of variables, each with its value; the last one is the sixteenth.
$ trace plant 0
1 c A.t/0
state A [s] n0=0 n1=1 n2=2 n3=3 n4=4 n5=5 n6=6 n7=7 n8=8 n9=9 n10=10 n11=11 n12=12 n13=13 n14=14 n15=29
-- plant
atom A
place s init
var n0 0
var n1 1
var n2 2
var n3 3
var n4 4
var n5 5
var n6 6
var n7 7
var n8 8
var n9 9
var n10 10
var n11 11
var n12 12
var n13 13
var n14 14
var n15 15
port t n15 n0
trans t from s to s do n15 := + n15 n14
connector c A.t

== sixty_four_connectors
The last of 64 connectors is a choice like the others.
$ trace plant 63 64
1 c63 A.t/0
2 c0 A.t/0
state A [s]
-- plant = tests/fixtures/trace.sixty_four_connectors.plant

== sixty_four_connectors_of_eight_leaves
64 atoms, and 64 connectors of 8 leaves with 16 interactions each: 1,024 choices. The last connector begins with the last atom and goes on with the first.
$ trace plant 1023 1024 0 8 15 500
= tests/fixtures/sixty_four_connectors_of_eight_leaves.stdout
-- plant = tests/fixtures/sixty_four_connectors_of_eight_leaves.plant

== sixty_four_places
All 64 places are marked: the transition takes every token and puts one into the last place.
$ trace plant 0 0
1 c A.t/0
stuck
state A [p63]
-- plant = tests/fixtures/trace.sixty_four_places.plant

== thirty_two_ports
The last of 32 ports fires its own transition.
$ trace plant 0
1 c A.p31/1
state A [s]
-- plant
atom A
place s init
port p0
port p1
port p2
port p3
port p4
port p5
port p6
port p7
port p8
port p9
port p10
port p11
port p12
port p13
port p14
port p15
port p16
port p17
port p18
port p19
port p20
port p21
port p22
port p23
port p24
port p25
port p26
port p27
port p28
port p29
port p30
port p31
trans p0 from s to s
trans p31 from s to s
connector c A.p31

== thirty_two_transfers
As many transfers as a connector may have: every variable gets the value of the next atom, from before the firing.
$ trace plant 0
1 c A0.t/0 A1.t/0 A2.t/0 A3.t/0 A4.t/0 A5.t/0 A6.t/0 A7.t/0
state A0 [s] a=10 b=11 c=12 d=13
state A1 [s] a=20 b=21 c=22 d=23
state A2 [s] a=30 b=31 c=32 d=33
state A3 [s] a=40 b=41 c=42 d=43
state A4 [s] a=50 b=51 c=52 d=53
state A5 [s] a=60 b=61 c=62 d=63
state A6 [s] a=70 b=71 c=72 d=73
state A7 [s] a=0 b=1 c=2 d=3
-- plant = tests/fixtures/thirty_two_transfers.plant

== two_to_the_112_choices
A connector of 9 leaves with 128 transitions each has 2^63 choices, and one of 16 has 2^112. A pick is written with 128 as base, the digit of the last atom last, behind the connector.
$ trace plant 9223372036854775807 9223372036854775808 18446744073709551615 12345678901234567890 1
1 c0 A0.t/127 A1.t/127 A2.t/127 A3.t/127 A4.t/127 A5.t/127 A6.t/127 A7.t/127 A8.t/127
2 c1 A0.t/0 A1.t/0 A2.t/0 A3.t/0 A4.t/0 A5.t/0 A6.t/0 A7.t/0 A8.t/0 A9.t/0 A10.t/0 A11.t/0 A12.t/0 A13.t/0 A14.t/0 A15.t/0
3 c1 A0.t/0 A1.t/0 A2.t/0 A3.t/0 A4.t/0 A5.t/0 A6.t/0 A7.t/127 A8.t/127 A9.t/127 A10.t/127 A11.t/127 A12.t/127 A13.t/127 A14.t/127 A15.t/127
4 c1 A0.t/0 A1.t/0 A2.t/0 A3.t/0 A4.t/0 A5.t/0 A6.t/0 A7.t/43 A8.t/42 A9.t/42 A10.t/49 A11.t/78 A12.t/88 A13.t/124 A14.t/21 A15.t/82
5 c0 A0.t/0 A1.t/0 A2.t/0 A3.t/0 A4.t/0 A5.t/0 A6.t/0 A7.t/0 A8.t/1
state A0 [s]
state A1 [s]
state A2 [s]
state A3 [s]
state A4 [s]
state A5 [s]
state A6 [s]
state A7 [s]
state A8 [s]
state A9 [s]
state A10 [s]
state A11 [s]
state A12 [s]
state A13 [s]
state A14 [s]
state A15 [s]
-- plant = tests/fixtures/sixteen_atoms_with_the_most_transitions.plant

== two_to_the_62_choices
64 connectors of 8 leaves with 128 transitions each: 2^62 choices. A pick is written with 128 as base, the digit of the last atom last, behind the connector.
$ trace plant 4611686018427387903 4611686018427387904 18446744073709551615 9223372036854775937 123456789012345678
1 c63 A0.t/127 A1.t/127 A2.t/127 A3.t/127 A4.t/127 A5.t/127 A6.t/127 A7.t/127
2 c0 A0.t/0 A1.t/0 A2.t/0 A3.t/0 A4.t/0 A5.t/0 A6.t/0 A7.t/0
3 c63 A0.t/127 A1.t/127 A2.t/127 A3.t/127 A4.t/127 A5.t/127 A6.t/127 A7.t/127
4 c0 A0.t/0 A1.t/0 A2.t/0 A3.t/0 A4.t/0 A5.t/0 A6.t/1 A7.t/1
5 c1 A0.t/91 A1.t/38 A2.t/105 A3.t/58 A4.t/49 A5.t/67 A6.t/102 A7.t/78
state A0 [s]
state A1 [s]
state A2 [s]
state A3 [s]
state A4 [s]
state A5 [s]
state A6 [s]
state A7 [s]
-- plant = tests/fixtures/two_to_the_62_choices.plant
