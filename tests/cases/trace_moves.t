`trace`: which transitions can be fired, by which port and in which order; files and outputs.

== choices_in_their_order
All choices of two connectors: by connector, then by the transitions of atoms A and B, the last one's varying fastest. The leaves stand in the other order of the atoms.
$ trace plant 0 1 2 3 4 5 6 7 8 9
1 both A.t/0 B.u/0
2 both A.t/0 B.u/1
3 both A.t/0 B.u/2
4 both A.t/1 B.u/0
5 both A.t/1 B.u/1
6 both A.t/1 B.u/2
7 alone B.u/0
8 alone B.u/1
9 alone B.u/2
10 both A.t/0 B.u/0
state A [s]
state B [s]
-- plant
atom A
place s init
port t
trans t from s to s
trans t from s to s
atom B
place s init
port u
trans u from s to s
trans u from s to s
trans u from s to s
connector both B.u A.t
connector alone B.u

== every_kind_of_line
The plant that docs/PLANT_TEXT.md shows with every kind of line.
$ trace kinds.plant 0 0 0
1 say S.say/0 A.hear/0 B.hear/0
2 rest S.rest/1
3 say S.say/0 A.hear/0 B.hear/0
state S [sent] n=2 sum=3
state A [on] heard=1
state B [on]
-- kinds.plant = tests/fixtures/every_kind_of_line.plant

== judged_again_where_an_atom_moved
Each step of A takes a choice away, three, two and then one, while B stays as it is; the picks count modulo these.
$ trace plant 3 2 5 7
1 tick A.t/0
2 tick A.t/2
3 rest B.u/0
4 rest B.u/0
state B [s]
state A [s] n=2
-- plant
atom B
place s init
port u
trans u from s to s
atom A
place s init
var n 0
port t n
trans t from s to s when < n 1 do n := + n 1
trans t from s to s when < n 0 do n := + n 1
trans t from s to s when < n 2 do n := + n 1
connector tick A.t
connector rest B.u

== last_atoms_transition_fastest
Of the choices of one interaction, the transition of the last atom varies fastest.
$ trace plant 1 2
1 c A.t/0 B.t/1
2 c A.t/1 B.t/0
state A [s] n=2
state B [s] n=2
-- plant
atom A
place s init
var n 0
port t
trans t from s to s do n := + n 1
trans t from s to s do n := + n 1
atom B
place s init
var n 0
port t
trans t from s to s do n := + n 1
trans t from s to s do n := + n 1
connector c A.t B.t

== marked_target
A target that is no source and is marked: nothing is possible.
$ trace plant 0 0
stuck
state A [p q]
-- plant
atom A
place p init
place q init
port t
trans t from p to q
connector c A.t

== markings_move
Sources lose and targets get their token; a marked place is printed by its name, in the order of the places.
$ trace plant 0
1 c A.t/0
state A [q r s]
-- plant
atom A
place p init
place q
place r init
place s
port t
trans t from r p to s q r
connector c A.t

== missing_file
$ trace none.plant 0
! file none.plant
? 3

== no_connectors
A plant without connectors is stuck.
$ trace plant 0
stuck
state A [s]
-- plant
atom A
place s init

== output_closed
@ standard output closed
$ trace examples/sample.plant 0
? 3

== output_full
More lines than a buffer holds.
@ standard output full
$= tests/fixtures/output_full.words
? 3

== output_of_no_reader
@ pipe is a pipe
@ standard output of no reader
$ trace examples/sample.plant 0
? 3

== participant_not_ready
A is ready and B has no token: what needs both cannot happen.
$ trace plant 0
stuck
state A [s] n=0
state B [] m=0
-- plant
atom A
place s init
var n 0
port t n
trans t from s to s do n := + n 1
atom B
place s
var m 0
port u m
trans u from s to s
connector send A.t B.u
move B.m := A.n

== participants_by_their_atoms
Participants are printed in rising order of their atoms, and not of the leaves.
$ trace plant 0
1 c A.t/0 B.u/0
state A [s] n=1
state B [s] m=0
-- plant
atom A
place s init
var n 0
port t n
trans t from s to s do n := + n 1
atom B
place s init
var m 0
port u m
trans u from s to s
connector c B.u A.t

== refused_plant
$ trace - 0
< atom A
< atom A
! plant line 2: fault 6 Twice
? 1

== source_not_marked
A source that is not marked: nothing is possible.
$ trace plant 0
stuck
state A []
-- plant
atom A
place p
place q
port t
trans t from p to q
connector c A.t

== standard_input
$ trace - 0 1 0 1
< atom A
< place s init
< var n 0
< port t n
< trans t from s to s do n := + n 1
< atom B
< place s init
< var m 0
< port u m
< trans u from s to s
< connector tick A.t
< connector send A.t B.u
< move B.m := A.n
1 tick A.t/0
2 send A.t/0 B.u/0
3 tick A.t/0
4 send A.t/0 B.u/0
state A [s] n=4
state B [s] m=3

== transition_by_its_port_and_number
A transition is told by its own port, and by its number among all transitions of the atom.
$ trace plant 0
1 go W.b/1
state W [p q] n=10 m=-2
-- plant
atom W
place p init
place q
place r init
var n 10
var m -2
port a
port b m
trans a from p to q
trans b from r to q
connector go W.b

== transition_not_offered_is_no_choice
Transitions below 1, below 0 and below 2: at first the first and the last one are choices, then the last alone, then none.
$ trace plant 1 7 0
1 tick A.t/2
2 tick A.t/2
stuck
state A [s] n=2
-- plant
atom A
place s init
var n 0
port t n
trans t from s to s when < n 1 do n := + n 1
trans t from s to s when < n 0 do n := + n 1
trans t from s to s when < n 2 do n := + n 1
connector tick A.t

== transitions_of_two_ports
Transitions of two ports that stand in turn: each port has its own, and of t the one with the guard 0 is never offered.
$ trace plant 0 1 2 3 4
1 c A.t/0
2 c A.t/4
3 d A.u/1
4 d A.u/3
5 c A.t/0
state A [s]
-- plant
atom A
place s init
port t
port u
trans t from s to s
trans u from s to s
trans t from s to s when 0
trans u from s to s
trans t from s to s
connector c A.t
connector d A.u
