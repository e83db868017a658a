`check`: the lines `prio` and `maximal`.

== fault_before_a_rule
Of two lines with a fault the first is told: an atom before a rule.
$ check plant
! plant line 7: fault 6 Twice
? 1
-- plant
atom A
port t
atom B
port u
connector tick A.t
connector bc A.t' B.u
atom A
maximal no

== interactions_before_a_rule
Too many interactions are told at the connector, before a later rule that names it.
$ check plant
! plant line 21: fault 13 Limit
? 1
-- plant
atom A0
port t
atom A1
port t
atom A2
port t
atom A3
port t
atom A4
port t
atom A5
port t
atom A6
port t
atom A7
port t
connector c0 A0.t' A1.t' A2.t' A3.t' A4.t' A5.t' A6.t' A7.t'
connector c1 A0.t' A1.t' A2.t' A3.t' A4.t' A5.t' A6.t' A7.t'
connector c2 A0.t' A1.t' A2.t' A3.t' A4.t' A5.t' A6.t' A7.t'
connector c3 A0.t' A1.t' A2.t' A3.t' A4.t' A5.t' A6.t' A7.t'
connector d A0.t' A1.t A2.t A3.t
prio d < c0

== maximal_before_its_connector
A rule names connectors of earlier lines alone.
$ check plant
! plant line 4: fault 7 UnknownName
? 1
-- plant
atom A
port t
connector tick A.t
maximal late
connector late A.t

== maximal_first
A rule before any connector names what is not there.
$ check plant
! plant line 1: fault 7 UnknownName
? 1
-- plant
maximal a

== maximal_first_without_a_name
A rule before any connector, and a word is missing.
$ check plant
! plant line 1: fault 10 Shape
? 1
-- plant
maximal

== maximal_of_an_atom
Atoms and connectors have names of their own, and a rule names connectors.
$ check plant
! plant line 7: fault 7 UnknownName
? 1
-- plant
atom A
port t
atom B
port u
connector tick A.t
connector bc A.t' B.u
maximal A

== maximal_of_an_unknown_name
A connector that no line declares.
$ check plant
! plant line 7: fault 7 UnknownName
? 1
-- plant
atom A
port t
atom B
port u
connector tick A.t
connector bc A.t' B.u
maximal no

== maximal_of_two_names
A word is left over.
$ check plant
! plant line 7: fault 10 Shape
? 1
-- plant
atom A
port t
atom B
port u
connector tick A.t
connector bc A.t' B.u
maximal bc tick

== maximal_that_orders
$ check --warn plant
atoms 2 connectors 1 interactions 2 rules 1
-- plant
atom A
place s init
port p
trans p from s to s
atom B
place s init
port q
trans q from s to s
connector c A.p' B.q
maximal c

== maximal_unknown_name_before_a_word_left_over
The first word with a fault is told: an unknown name before a word that is left over.
$ check plant
! plant line 7: fault 7 UnknownName
? 1
-- plant
atom A
port t
atom B
port u
connector tick A.t
connector bc A.t' B.u
maximal no bc

== maximal_without_a_name
A word is missing.
$ check plant
! plant line 7: fault 10 Shape
? 1
-- plant
atom A
port t
atom B
port u
connector tick A.t
connector bc A.t' B.u
maximal

== prio_before_its_connector
A rule names connectors of earlier lines alone.
$ check plant
! plant line 4: fault 7 UnknownName
? 1
-- plant
atom A
port t
connector tick A.t
prio tick < late
connector late A.t

== prio_behind_an_atom
A rule before any connector, where an atom has the name.
$ check plant
! plant line 2: fault 7 UnknownName
? 1
-- plant
atom A
prio A < A

== prio_first
A rule before any connector names what is not there.
$ check plant
! plant line 1: fault 7 UnknownName
? 1
-- plant
prio a < b

== prio_first_without_words
A rule before any connector, and a word is missing.
$ check plant
! plant line 1: fault 10 Shape
? 1
-- plant
prio

== prio_in_one_word
A sign without blanks around it makes one word, which names no connector.
$ check plant
! plant line 7: fault 7 UnknownName
? 1
-- plant
atom A
port t
atom B
port u
connector tick A.t
connector bc A.t' B.u
prio tick<bc

== prio_of_an_atom
Atoms and connectors have names of their own, and a rule names connectors.
$ check plant
! plant line 7: fault 7 UnknownName
? 1
-- plant
atom A
port t
atom B
port u
connector tick A.t
connector bc A.t' B.u
prio A < tick

== prio_of_an_unknown_left_side
A left side that no line declares.
$ check plant
! plant line 7: fault 7 UnknownName
? 1
-- plant
atom A
port t
atom B
port u
connector tick A.t
connector bc A.t' B.u
prio no < tick

== prio_of_an_unknown_right_side
A right side that no line declares.
$ check plant
! plant line 7: fault 7 UnknownName
? 1
-- plant
atom A
port t
atom B
port u
connector tick A.t
connector bc A.t' B.u
prio tick < no

== prio_of_three_sides
A word is left over behind the right side.
$ check plant
! plant line 7: fault 10 Shape
? 1
-- plant
atom A
port t
atom B
port u
connector tick A.t
connector bc A.t' B.u
prio tick < bc < tick

== prio_sign_before_an_unknown_name
The first word with a fault is told: another sign before an unknown right side.
$ check plant
! plant line 7: fault 10 Shape
? 1
-- plant
atom A
port t
atom B
port u
connector tick A.t
connector bc A.t' B.u
prio tick > no

== prio_unknown_name_before_a_word_left_over
The first word with a fault is told: an unknown right side before a word that is left over.
$ check plant
! plant line 7: fault 7 UnknownName
? 1
-- plant
atom A
port t
atom B
port u
connector tick A.t
connector bc A.t' B.u
prio tick < no x

== prio_unknown_name_before_the_sign
The first word with a fault is told: an unknown left side before another sign.
$ check plant
! plant line 7: fault 7 UnknownName
? 1
-- plant
atom A
port t
atom B
port u
connector tick A.t
connector bc A.t' B.u
prio no > tick x

== prio_with_another_sign
Between the sides stands `<` and no other word.
$ check plant
! plant line 7: fault 10 Shape
? 1
-- plant
atom A
port t
atom B
port u
connector tick A.t
connector bc A.t' B.u
prio tick <= bc

== prio_without_a_sign_between
A side stands where the sign must.
$ check plant
! plant line 7: fault 10 Shape
? 1
-- plant
atom A
port t
atom B
port u
connector tick A.t
connector bc A.t' B.u
prio tick bc

== prio_without_its_left_side
The sign stands where a side must: it names no connector.
$ check plant
! plant line 7: fault 7 UnknownName
? 1
-- plant
atom A
port t
atom B
port u
connector tick A.t
connector bc A.t' B.u
prio < tick

== prio_without_its_right_side
The right side is missing.
$ check plant
! plant line 7: fault 10 Shape
? 1
-- plant
atom A
port t
atom B
port u
connector tick A.t
connector bc A.t' B.u
prio tick <

== prio_without_its_sign
The sign between the sides is missing.
$ check plant
! plant line 7: fault 10 Shape
? 1
-- plant
atom A
port t
atom B
port u
connector tick A.t
connector bc A.t' B.u
prio tick

== prio_without_words
A word is missing.
$ check plant
! plant line 7: fault 10 Shape
? 1
-- plant
atom A
port t
atom B
port u
connector tick A.t
connector bc A.t' B.u
prio

== prio_word_left_over
A word is left over.
$ check plant
! plant line 7: fault 10 Shape
? 1
-- plant
atom A
port t
atom B
port u
connector tick A.t
connector bc A.t' B.u
prio tick < bc x

== rule_fault_before_a_later_fault
Of two lines with a fault the first is told: a rule before an atom.
$ check plant
! plant line 7: fault 7 UnknownName
? 1
-- plant
atom A
port t
atom B
port u
connector tick A.t
connector bc A.t' B.u
maximal no
atom A

== rule_of_the_longest_name
A name of 32 bytes with the mask of all 8 leaves.
$ check plant
atoms 8 connectors 2 interactions 2 rules 1
-- plant
atom A0
port t
atom A1
port t
atom A2
port t
atom A3
port t
atom A4
port t
atom A5
port t
atom A6
port t
atom A7
port t
connector cccccccccccccccccccccccccccccccc A0.t A1.t A2.t A3.t A4.t A5.t A6.t A7.t
connector d A0.t
prio cccccccccccccccccccccccccccccccc:255 < d

== rule_without_an_atom
A text without an atom has no connector either: its rule is at fault before that is.
$ check plant
! plant line 2: fault 7 UnknownName
? 1
-- plant
# no atom
maximal c

== rules_around_blanks
Words of a rule stand between spaces and tabs, and a comment between rules says nothing.
$ check plant
atoms 2 connectors 2 interactions 3 rules 2
-- plant
atom A
port t
atom B
port u
connector tick A.t
connector bc A.t' B.u
	prio  tick	<  bc 

# maximal no
 maximal	bc	

== rules_between_lines
Lines of rules stand between others: behind them the latest atom and the latest connector are what they were.
$ check plant
atoms 1 connectors 2 interactions 2 rules 4
-- plant
atom A
port t
connector tick A.t
maximal tick
place s init
var n 0
port u n
trans t from s to s
connector other A.u
prio tick < other
guard < A.n 1
prio tick < other:1
move A.n := 2
maximal other

== rules_counted
Each line of a rule counts, of both kinds, also one that says what another said.
$ check plant
atoms 2 connectors 2 interactions 3 rules 6
-- plant
atom A
port t
atom B
port u
connector tick A.t
connector bc A.t' B.u
prio tick < bc
prio tick < bc
prio bc:1 < bc:3
maximal bc
maximal bc
maximal tick
