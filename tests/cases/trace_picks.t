`trace`: picks by number and by name, of the words and of a file, read and saved.

== no_pick_and_a_place_not_marked
Without picks the places that are marked at first are told, and the first values.
$ trace plant
state W [p r] n=10 m=-2
-- plant
atom W
place p init
place q
place r init
var n 10
var m -2
port a
port b m
trans a from p to q
trans b from r to q
connector go W.b

== no_pick_and_no_place_marked
Where no place is marked the brackets are empty; without picks nothing is stuck.
$ trace plant
state A []
-- plant
atom A
place p
place q
port t
trans t from p to q
connector c A.t

== no_picks
Without picks the first states are printed.
$ trace examples/sample.plant
state A [s] n=0
state B [s] m=0

== pick_of_a_long_word
Of a word of more than 72 bytes these are shown.
$ trace examples/sample.plant --picks p.txt
! error: p.txt:1: 'xxxxxxxxxxxxxxxxxxxxxxxxxxxxxxxxxxxxxxxxxxxxxxxxxxxxxxxxxxxxxxxxxxxxxxxx..' is no connector, and no number within 64 bits that stands alone
? 1
-- p.txt
xxxxxxxxxxxxxxxxxxxxxxxxxxxxxxxxxxxxxxxxxxxxxxxxxxxxxxxxxxxxxxxxxxxxxxxxx A.t/0

== pick_of_a_nearly_right_name
$ trace --picks p.txt --explain examples/sample.plant
1 tick A.t/0
! error: p.txt:2: 'sent' is no connector, and no number within 64 bits that stands alone
!   did you mean 'send'?
? 1
-- p.txt
0
sent A.t/0 B.u/0

== pick_of_a_nearly_right_name_without_advice
Advice stands on a terminal alone, or where it is asked for.
$ trace --picks p.txt examples/sample.plant
! error: p.txt:1: 'tik' is no connector, and no number within 64 bits that stands alone
? 1
-- p.txt
tik A.t/0

== pick_of_a_numbered_line
A fired line with its number names no connector.
$ trace examples/sample.plant --picks p.txt
! error: p.txt:1: '1' is no connector, and no number within 64 bits that stands alone
? 1
-- p.txt
1 tick A.t/0

== pick_of_a_word_of_72_bytes
A word of 72 bytes is shown whole.
$ trace examples/sample.plant --picks p.txt
! error: p.txt:1: 'bbbbbbbbbbbbbbbbbbbbbbbbbbbbbbbbbbbbbbbbbbbbbbbbbbbbbbbbbbbbbbbbbbbbbbbb' is no connector, and no number within 64 bits that stands alone
? 1
-- p.txt
bbbbbbbbbbbbbbbbbbbbbbbbbbbbbbbbbbbbbbbbbbbbbbbbbbbbbbbbbbbbbbbbbbbbbbbb

== pick_of_a_word_of_73_bytes
$ trace examples/sample.plant --picks p.txt
! error: p.txt:1: 'bbbbbbbbbbbbbbbbbbbbbbbbbbbbbbbbbbbbbbbbbbbbbbbbbbbbbbbbbbbbbbbbbbbbbbbb..' is no connector, and no number within 64 bits that stands alone
? 1
-- p.txt
bbbbbbbbbbbbbbbbbbbbbbbbbbbbbbbbbbbbbbbbbbbbbbbbbbbbbbbbbbbbbbbbbbbbbbbbb

== pick_of_an_unknown_connector
$ trace examples/sample.plant --picks p.txt
1 tick A.t/0
! error: p.txt:2: 'tock' is no connector, and no number within 64 bits that stands alone
? 1
-- p.txt
tick A.t/0
tock A.t/0
tick A.t/0

== pick_of_an_unknown_transition
$ trace examples/sample.plant --picks p.txt
! error: p.txt:1: 'A.t/1' is no transition of the plant: ATOM.PORT/NUMBER is wanted
? 1
-- p.txt
tick A.t/1

== pick_of_bytes_that_are_not_printed
A byte that is no printable ASCII is shown as a question mark.
$ trace examples/sample.plant --picks p.txt
! error: p.txt:1: 't???k' is no connector, and no number within 64 bits that stands alone
? 1
-- p.txt
\t\x1b\xc3\xa9k

== pick_of_no_interaction
$ trace examples/sample.plant --picks p.txt
! error: p.txt:1: these participants are no interaction of the connector
? 1
-- p.txt
tick A.t/0 B.u/0

== pick_of_no_near_name
$ trace --picks p.txt --explain examples/sample.plant
! error: p.txt:1: 'burn' is no connector, and no number within 64 bits that stands alone
? 1
-- p.txt
burn A.t/0

== pick_of_two_unknown_transitions
$ trace examples/sample.plant --picks p.txt
! error: p.txt:1: 'A.t/9' is no transition of the plant: ATOM.PORT/NUMBER is wanted
? 1
-- p.txt
send A.t/9 B.u/9

== pick_that_cannot_be_fired_now
The button is down: it must be released before the second push.
$ trace examples/light.plant --picks p.txt
1 push Button.push/0 Light.switch/0 Counter.count/0
! error: p.txt:2: this can't be fired now
? 1
-- p.txt
push Button.push/0 Light.switch/0 Counter.count/0
push Button.push/0 Light.switch/1 Counter.count/0

== pick_with_an_unknown_participant
The first word that is no transition of the plant is told.
$ trace examples/sample.plant --picks p.txt
! error: p.txt:1: 'B.v/0' is no transition of the plant: ATOM.PORT/NUMBER is wanted
? 1
-- p.txt
send A.t/0 B.v/0

== pick_with_bytes_that_are_not_printable
An escape, the two bytes of a letter that is no ASCII and a carriage return are shown as `?`.
$ trace examples/sample.plant --picks p.txt
1 tick A.t/0
! error: p.txt:2: 'A.?/???' is no transition of the plant: ATOM.PORT/NUMBER is wanted
? 1
-- p.txt
tick A.t/0
\tick A.\x1b/\xc3\xa9\x0d\x0d

== pick_with_two_unknown_participants
Of two words the first is told.
$ trace examples/sample.plant --picks p.txt
! error: p.txt:1: 'A.t/9' is no transition of the plant: ATOM.PORT/NUMBER is wanted
? 1
-- p.txt
send A.t/9 B

== picks_as_fired_lines
A pick is an interaction, as a run prints it behind its number.
$ trace examples/sample.plant --picks p.txt
1 tick A.t/0
2 send A.t/0 B.u/0
state A [s] n=2
state B [s] m=1
-- p.txt
tick A.t/0
send A.t/0 B.u/0

== picks_between_comments
Lines without words and comments are passed over; blanks stand before and behind a pick.
$ trace examples/sample.plant --picks p.txt
1 tick A.t/0
2 send A.t/0 B.u/0
state A [s] n=2
state B [s] m=1
-- p.txt
# a tick

\  0	\x0d
 	 
	# send, and no line feed behind it
1
\ no line feed

== picks_modulo
A pick takes the choice at the pick modulo their number: 2 is 0 and 18446744073709551615 is 1, of two choices.
$ trace examples/sample.plant 00002 18446744073709551615
1 tick A.t/0
2 send A.t/0 B.u/0
state A [s] n=2
state B [s] m=1

== picks_of_a_file
A pick is a number on a line of its own.
$ trace --picks p.txt examples/sample.plant
1 tick A.t/0
2 send A.t/0 B.u/0
3 tick A.t/0
4 send A.t/0 B.u/0
state A [s] n=4
state B [s] m=3
-- p.txt
0
1
0
1

== picks_of_a_file_and_no_random_ones
None random ones come after those of the file.
$ trace plant --picks p.txt --random 0
1 a A.a/0
state A [p]
-- p.txt
a A.a/0
-- plant
atom A
place p init
place q
port a
port b
port c
trans a from p to p
trans b from p to q
trans c from q to q
connector a A.a
connector b A.b
connector c A.c

== picks_of_a_file_and_then_random_ones
The two picks of the file come first. Behind them A is in q, where c alone is possible, whatever is picked.
$ trace plant --picks p.txt --random 3 --seed 5
1 a A.a/0
2 b A.b/1
3 c A.c/2
4 c A.c/2
5 c A.c/2
state A [q]
-- p.txt
a A.a/0
b A.b/1
-- plant
atom A
place p init
place q
port a
port b
port c
trans a from p to p
trans b from p to q
trans c from q to q
connector a A.a
connector b A.b
connector c A.c

== picks_of_a_file_past_the_list
Of two choices 7 takes the second: 7 modulo 2 is 1.
$ trace examples/sample.plant --picks p.txt
1 send A.t/0 B.u/0
state A [s] n=1
state B [s] m=0
-- p.txt
7

== picks_of_a_file_stuck
Where nothing is possible, the run ends, and the lines that follow are not judged.
$ trace plant --picks p.txt
1 c A.t/0
stuck
state A [q]
-- p.txt
0
0
no such connector
-- plant
atom A
place p init
place q
port t
trans t from p to q
connector c A.t

== picks_of_a_file_watched
The lines behind the end of the run are not judged.
$ trace examples/sample.plant --picks p.txt --until '== B.m 1'
1 tick A.t/0
2 send A.t/0 B.u/0
state A [s] n=2
state B [s] m=1
reached 2
-- p.txt
0
send A.t/0 B.u/0
no such connector

== picks_of_a_folder
$ trace examples/sample.plant --picks examples
! file examples
? 3

== picks_of_a_missing_file
$ trace examples/sample.plant --picks none.txt
! file none.txt
? 3

== picks_of_an_empty_file
Without picks the states alone are printed.
$ trace examples/sample.plant --picks p.txt
state A [s] n=0
state B [s] m=0
-- p.txt

== picks_on_the_standard_input
$ trace examples/sample.plant --picks -
< 0
< ?
1 tick A.t/0
! error: -:2: '?' is no connector, and no number within 64 bits that stands alone
? 1

== picks_saved
What is saved is what was fired: 3 took the second of two choices.
$ trace examples/sample.plant --save-picks run.txt 0 3
1 tick A.t/0
2 send A.t/0 B.u/0
state A [s] n=2
state B [s] m=1
++ run.txt
tick A.t/0
send A.t/0 B.u/0

== picks_saved_in_a_missing_folder
$ trace examples/sample.plant --save-picks none/run.txt 0
! file none/run.txt
? 3

== picks_saved_of_a_refused_plant
The file is made only where the plant was read.
$ trace plant --save-picks run.txt 0
! plant line 1: fault 3 UnknownWord
? 1
-- plant
plant A
++ run.txt absent

== picks_saved_of_a_refused_run
$ trace examples/sample.plant --picks p.txt --strict --save-picks run.txt
1 tick A.t/0
! error: p.txt:2: pick 2, but there are 2 choices (0 to 1)
? 1
-- p.txt
0
2
++ run.txt
tick A.t/0

== picks_saved_of_a_stuck_run
$ trace plant --save-picks run.txt 0 0
1 c A.t/0
stuck
state A [q]
-- plant
atom A
place p init
place q
port t
trans t from p to q
connector c A.t
++ run.txt
c A.t/0

== picks_saved_of_missing_picks
The file is made only where the picks were opened.
$ trace examples/sample.plant --picks none.txt --save-picks run.txt
! file none.txt
? 3
++ run.txt absent

== picks_saved_on_a_full_device
$ trace examples/sample.plant --save-picks /dev/full 0 1
1 tick A.t/0
2 send A.t/0 B.u/0
state A [s] n=2
state B [s] m=1
! file /dev/full
? 3

== picks_saved_over_an_older_file
$ trace examples/sample.plant --save-picks run.txt 0
1 tick A.t/0
state A [s] n=1
state B [s] m=0
-- run.txt
0
1
2
3
4
5
6
7
8
9
++ run.txt
tick A.t/0

== refused_pick_of_a_file_before_random_ones
The connector c can't be fired in p: the pick is refused, and no random pick comes.
$ trace plant --picks p.txt --random 3
1 a A.a/0
! error: p.txt:2: this can't be fired now
? 1
-- p.txt
a A.a/0
c A.c/2
-- plant
atom A
place p init
place q
port a
port b
port c
trans a from p to p
trans b from p to q
trans c from q to q
connector a A.a
connector b A.b
connector c A.c

== saved_pick_of_the_longest_names_read_back
A saved line of 16 participants with the longest names has 32 + 16 times 68 = 1,120 bytes.
$ trace plant --picks run.txt --save-picks again.txt
1 cccccccccccccccccccccccccccccccc Annnnnnnnnnnnnnnnnnnnnnnnnnnnnnn.pppppppppppppppppppppppppppppppp/1 Bnnnnnnnnnnnnnnnnnnnnnnnnnnnnnnn.pppppppppppppppppppppppppppppppp/1 Cnnnnnnnnnnnnnnnnnnnnnnnnnnnnnnn.pppppppppppppppppppppppppppppppp/1 Dnnnnnnnnnnnnnnnnnnnnnnnnnnnnnnn.pppppppppppppppppppppppppppppppp/1 Ennnnnnnnnnnnnnnnnnnnnnnnnnnnnnn.pppppppppppppppppppppppppppppppp/1 Fnnnnnnnnnnnnnnnnnnnnnnnnnnnnnnn.pppppppppppppppppppppppppppppppp/1 Gnnnnnnnnnnnnnnnnnnnnnnnnnnnnnnn.pppppppppppppppppppppppppppppppp/1 Hnnnnnnnnnnnnnnnnnnnnnnnnnnnnnnn.pppppppppppppppppppppppppppppppp/1 Innnnnnnnnnnnnnnnnnnnnnnnnnnnnnn.pppppppppppppppppppppppppppppppp/1 Jnnnnnnnnnnnnnnnnnnnnnnnnnnnnnnn.pppppppppppppppppppppppppppppppp/1 Knnnnnnnnnnnnnnnnnnnnnnnnnnnnnnn.pppppppppppppppppppppppppppppppp/1 Lnnnnnnnnnnnnnnnnnnnnnnnnnnnnnnn.pppppppppppppppppppppppppppppppp/1 Mnnnnnnnnnnnnnnnnnnnnnnnnnnnnnnn.pppppppppppppppppppppppppppppppp/1 Nnnnnnnnnnnnnnnnnnnnnnnnnnnnnnnn.pppppppppppppppppppppppppppppppp/1 Onnnnnnnnnnnnnnnnnnnnnnnnnnnnnnn.pppppppppppppppppppppppppppppppp/1 Pnnnnnnnnnnnnnnnnnnnnnnnnnnnnnnn.pppppppppppppppppppppppppppppppp/1
2 cccccccccccccccccccccccccccccccc Annnnnnnnnnnnnnnnnnnnnnnnnnnnnnn.pppppppppppppppppppppppppppppppp/0 Bnnnnnnnnnnnnnnnnnnnnnnnnnnnnnnn.pppppppppppppppppppppppppppppppp/0 Cnnnnnnnnnnnnnnnnnnnnnnnnnnnnnnn.pppppppppppppppppppppppppppppppp/0 Dnnnnnnnnnnnnnnnnnnnnnnnnnnnnnnn.pppppppppppppppppppppppppppppppp/0 Ennnnnnnnnnnnnnnnnnnnnnnnnnnnnnn.pppppppppppppppppppppppppppppppp/0 Fnnnnnnnnnnnnnnnnnnnnnnnnnnnnnnn.pppppppppppppppppppppppppppppppp/0 Gnnnnnnnnnnnnnnnnnnnnnnnnnnnnnnn.pppppppppppppppppppppppppppppppp/0 Hnnnnnnnnnnnnnnnnnnnnnnnnnnnnnnn.pppppppppppppppppppppppppppppppp/0 Innnnnnnnnnnnnnnnnnnnnnnnnnnnnnn.pppppppppppppppppppppppppppppppp/0 Jnnnnnnnnnnnnnnnnnnnnnnnnnnnnnnn.pppppppppppppppppppppppppppppppp/0 Knnnnnnnnnnnnnnnnnnnnnnnnnnnnnnn.pppppppppppppppppppppppppppppppp/0 Lnnnnnnnnnnnnnnnnnnnnnnnnnnnnnnn.pppppppppppppppppppppppppppppppp/0 Mnnnnnnnnnnnnnnnnnnnnnnnnnnnnnnn.pppppppppppppppppppppppppppppppp/0 Nnnnnnnnnnnnnnnnnnnnnnnnnnnnnnnn.pppppppppppppppppppppppppppppppp/0 Onnnnnnnnnnnnnnnnnnnnnnnnnnnnnnn.pppppppppppppppppppppppppppppppp/0 Pnnnnnnnnnnnnnnnnnnnnnnnnnnnnnnn.pppppppppppppppppppppppppppppppp/1
state Annnnnnnnnnnnnnnnnnnnnnnnnnnnnnn [s]
state Bnnnnnnnnnnnnnnnnnnnnnnnnnnnnnnn [s]
state Cnnnnnnnnnnnnnnnnnnnnnnnnnnnnnnn [s]
state Dnnnnnnnnnnnnnnnnnnnnnnnnnnnnnnn [s]
state Ennnnnnnnnnnnnnnnnnnnnnnnnnnnnnn [s]
state Fnnnnnnnnnnnnnnnnnnnnnnnnnnnnnnn [s]
state Gnnnnnnnnnnnnnnnnnnnnnnnnnnnnnnn [s]
state Hnnnnnnnnnnnnnnnnnnnnnnnnnnnnnnn [s]
state Innnnnnnnnnnnnnnnnnnnnnnnnnnnnnn [s]
state Jnnnnnnnnnnnnnnnnnnnnnnnnnnnnnnn [s]
state Knnnnnnnnnnnnnnnnnnnnnnnnnnnnnnn [s]
state Lnnnnnnnnnnnnnnnnnnnnnnnnnnnnnnn [s]
state Mnnnnnnnnnnnnnnnnnnnnnnnnnnnnnnn [s]
state Nnnnnnnnnnnnnnnnnnnnnnnnnnnnnnnn [s]
state Onnnnnnnnnnnnnnnnnnnnnnnnnnnnnnn [s]
state Pnnnnnnnnnnnnnnnnnnnnnnnnnnnnnnn [s]
$ trace plant --picks again.txt
1 cccccccccccccccccccccccccccccccc Annnnnnnnnnnnnnnnnnnnnnnnnnnnnnn.pppppppppppppppppppppppppppppppp/1 Bnnnnnnnnnnnnnnnnnnnnnnnnnnnnnnn.pppppppppppppppppppppppppppppppp/1 Cnnnnnnnnnnnnnnnnnnnnnnnnnnnnnnn.pppppppppppppppppppppppppppppppp/1 Dnnnnnnnnnnnnnnnnnnnnnnnnnnnnnnn.pppppppppppppppppppppppppppppppp/1 Ennnnnnnnnnnnnnnnnnnnnnnnnnnnnnn.pppppppppppppppppppppppppppppppp/1 Fnnnnnnnnnnnnnnnnnnnnnnnnnnnnnnn.pppppppppppppppppppppppppppppppp/1 Gnnnnnnnnnnnnnnnnnnnnnnnnnnnnnnn.pppppppppppppppppppppppppppppppp/1 Hnnnnnnnnnnnnnnnnnnnnnnnnnnnnnnn.pppppppppppppppppppppppppppppppp/1 Innnnnnnnnnnnnnnnnnnnnnnnnnnnnnn.pppppppppppppppppppppppppppppppp/1 Jnnnnnnnnnnnnnnnnnnnnnnnnnnnnnnn.pppppppppppppppppppppppppppppppp/1 Knnnnnnnnnnnnnnnnnnnnnnnnnnnnnnn.pppppppppppppppppppppppppppppppp/1 Lnnnnnnnnnnnnnnnnnnnnnnnnnnnnnnn.pppppppppppppppppppppppppppppppp/1 Mnnnnnnnnnnnnnnnnnnnnnnnnnnnnnnn.pppppppppppppppppppppppppppppppp/1 Nnnnnnnnnnnnnnnnnnnnnnnnnnnnnnnn.pppppppppppppppppppppppppppppppp/1 Onnnnnnnnnnnnnnnnnnnnnnnnnnnnnnn.pppppppppppppppppppppppppppppppp/1 Pnnnnnnnnnnnnnnnnnnnnnnnnnnnnnnn.pppppppppppppppppppppppppppppppp/1
2 cccccccccccccccccccccccccccccccc Annnnnnnnnnnnnnnnnnnnnnnnnnnnnnn.pppppppppppppppppppppppppppppppp/0 Bnnnnnnnnnnnnnnnnnnnnnnnnnnnnnnn.pppppppppppppppppppppppppppppppp/0 Cnnnnnnnnnnnnnnnnnnnnnnnnnnnnnnn.pppppppppppppppppppppppppppppppp/0 Dnnnnnnnnnnnnnnnnnnnnnnnnnnnnnnn.pppppppppppppppppppppppppppppppp/0 Ennnnnnnnnnnnnnnnnnnnnnnnnnnnnnn.pppppppppppppppppppppppppppppppp/0 Fnnnnnnnnnnnnnnnnnnnnnnnnnnnnnnn.pppppppppppppppppppppppppppppppp/0 Gnnnnnnnnnnnnnnnnnnnnnnnnnnnnnnn.pppppppppppppppppppppppppppppppp/0 Hnnnnnnnnnnnnnnnnnnnnnnnnnnnnnnn.pppppppppppppppppppppppppppppppp/0 Innnnnnnnnnnnnnnnnnnnnnnnnnnnnnn.pppppppppppppppppppppppppppppppp/0 Jnnnnnnnnnnnnnnnnnnnnnnnnnnnnnnn.pppppppppppppppppppppppppppppppp/0 Knnnnnnnnnnnnnnnnnnnnnnnnnnnnnnn.pppppppppppppppppppppppppppppppp/0 Lnnnnnnnnnnnnnnnnnnnnnnnnnnnnnnn.pppppppppppppppppppppppppppppppp/0 Mnnnnnnnnnnnnnnnnnnnnnnnnnnnnnnn.pppppppppppppppppppppppppppppppp/0 Nnnnnnnnnnnnnnnnnnnnnnnnnnnnnnnn.pppppppppppppppppppppppppppppppp/0 Onnnnnnnnnnnnnnnnnnnnnnnnnnnnnnn.pppppppppppppppppppppppppppppppp/0 Pnnnnnnnnnnnnnnnnnnnnnnnnnnnnnnn.pppppppppppppppppppppppppppppppp/1
state Annnnnnnnnnnnnnnnnnnnnnnnnnnnnnn [s]
state Bnnnnnnnnnnnnnnnnnnnnnnnnnnnnnnn [s]
state Cnnnnnnnnnnnnnnnnnnnnnnnnnnnnnnn [s]
state Dnnnnnnnnnnnnnnnnnnnnnnnnnnnnnnn [s]
state Ennnnnnnnnnnnnnnnnnnnnnnnnnnnnnn [s]
state Fnnnnnnnnnnnnnnnnnnnnnnnnnnnnnnn [s]
state Gnnnnnnnnnnnnnnnnnnnnnnnnnnnnnnn [s]
state Hnnnnnnnnnnnnnnnnnnnnnnnnnnnnnnn [s]
state Innnnnnnnnnnnnnnnnnnnnnnnnnnnnnn [s]
state Jnnnnnnnnnnnnnnnnnnnnnnnnnnnnnnn [s]
state Knnnnnnnnnnnnnnnnnnnnnnnnnnnnnnn [s]
state Lnnnnnnnnnnnnnnnnnnnnnnnnnnnnnnn [s]
state Mnnnnnnnnnnnnnnnnnnnnnnnnnnnnnnn [s]
state Nnnnnnnnnnnnnnnnnnnnnnnnnnnnnnnn [s]
state Onnnnnnnnnnnnnnnnnnnnnnnnnnnnnnn [s]
state Pnnnnnnnnnnnnnnnnnnnnnnnnnnnnnnn [s]
-- plant = tests/fixtures/saved_pick_of_the_longest_names_read_back.plant
-- run.txt
cccccccccccccccccccccccccccccccc Annnnnnnnnnnnnnnnnnnnnnnnnnnnnnn.pppppppppppppppppppppppppppppppp/1 Bnnnnnnnnnnnnnnnnnnnnnnnnnnnnnnn.pppppppppppppppppppppppppppppppp/1 Cnnnnnnnnnnnnnnnnnnnnnnnnnnnnnnn.pppppppppppppppppppppppppppppppp/1 Dnnnnnnnnnnnnnnnnnnnnnnnnnnnnnnn.pppppppppppppppppppppppppppppppp/1 Ennnnnnnnnnnnnnnnnnnnnnnnnnnnnnn.pppppppppppppppppppppppppppppppp/1 Fnnnnnnnnnnnnnnnnnnnnnnnnnnnnnnn.pppppppppppppppppppppppppppppppp/1 Gnnnnnnnnnnnnnnnnnnnnnnnnnnnnnnn.pppppppppppppppppppppppppppppppp/1 Hnnnnnnnnnnnnnnnnnnnnnnnnnnnnnnn.pppppppppppppppppppppppppppppppp/1 Innnnnnnnnnnnnnnnnnnnnnnnnnnnnnn.pppppppppppppppppppppppppppppppp/1 Jnnnnnnnnnnnnnnnnnnnnnnnnnnnnnnn.pppppppppppppppppppppppppppppppp/1 Knnnnnnnnnnnnnnnnnnnnnnnnnnnnnnn.pppppppppppppppppppppppppppppppp/1 Lnnnnnnnnnnnnnnnnnnnnnnnnnnnnnnn.pppppppppppppppppppppppppppppppp/1 Mnnnnnnnnnnnnnnnnnnnnnnnnnnnnnnn.pppppppppppppppppppppppppppppppp/1 Nnnnnnnnnnnnnnnnnnnnnnnnnnnnnnnn.pppppppppppppppppppppppppppppppp/1 Onnnnnnnnnnnnnnnnnnnnnnnnnnnnnnn.pppppppppppppppppppppppppppppppp/1 Pnnnnnnnnnnnnnnnnnnnnnnnnnnnnnnn.pppppppppppppppppppppppppppppppp/1
1
++ again.txt
cccccccccccccccccccccccccccccccc Annnnnnnnnnnnnnnnnnnnnnnnnnnnnnn.pppppppppppppppppppppppppppppppp/1 Bnnnnnnnnnnnnnnnnnnnnnnnnnnnnnnn.pppppppppppppppppppppppppppppppp/1 Cnnnnnnnnnnnnnnnnnnnnnnnnnnnnnnn.pppppppppppppppppppppppppppppppp/1 Dnnnnnnnnnnnnnnnnnnnnnnnnnnnnnnn.pppppppppppppppppppppppppppppppp/1 Ennnnnnnnnnnnnnnnnnnnnnnnnnnnnnn.pppppppppppppppppppppppppppppppp/1 Fnnnnnnnnnnnnnnnnnnnnnnnnnnnnnnn.pppppppppppppppppppppppppppppppp/1 Gnnnnnnnnnnnnnnnnnnnnnnnnnnnnnnn.pppppppppppppppppppppppppppppppp/1 Hnnnnnnnnnnnnnnnnnnnnnnnnnnnnnnn.pppppppppppppppppppppppppppppppp/1 Innnnnnnnnnnnnnnnnnnnnnnnnnnnnnn.pppppppppppppppppppppppppppppppp/1 Jnnnnnnnnnnnnnnnnnnnnnnnnnnnnnnn.pppppppppppppppppppppppppppppppp/1 Knnnnnnnnnnnnnnnnnnnnnnnnnnnnnnn.pppppppppppppppppppppppppppppppp/1 Lnnnnnnnnnnnnnnnnnnnnnnnnnnnnnnn.pppppppppppppppppppppppppppppppp/1 Mnnnnnnnnnnnnnnnnnnnnnnnnnnnnnnn.pppppppppppppppppppppppppppppppp/1 Nnnnnnnnnnnnnnnnnnnnnnnnnnnnnnnn.pppppppppppppppppppppppppppppppp/1 Onnnnnnnnnnnnnnnnnnnnnnnnnnnnnnn.pppppppppppppppppppppppppppppppp/1 Pnnnnnnnnnnnnnnnnnnnnnnnnnnnnnnn.pppppppppppppppppppppppppppppppp/1
cccccccccccccccccccccccccccccccc Annnnnnnnnnnnnnnnnnnnnnnnnnnnnnn.pppppppppppppppppppppppppppppppp/0 Bnnnnnnnnnnnnnnnnnnnnnnnnnnnnnnn.pppppppppppppppppppppppppppppppp/0 Cnnnnnnnnnnnnnnnnnnnnnnnnnnnnnnn.pppppppppppppppppppppppppppppppp/0 Dnnnnnnnnnnnnnnnnnnnnnnnnnnnnnnn.pppppppppppppppppppppppppppppppp/0 Ennnnnnnnnnnnnnnnnnnnnnnnnnnnnnn.pppppppppppppppppppppppppppppppp/0 Fnnnnnnnnnnnnnnnnnnnnnnnnnnnnnnn.pppppppppppppppppppppppppppppppp/0 Gnnnnnnnnnnnnnnnnnnnnnnnnnnnnnnn.pppppppppppppppppppppppppppppppp/0 Hnnnnnnnnnnnnnnnnnnnnnnnnnnnnnnn.pppppppppppppppppppppppppppppppp/0 Innnnnnnnnnnnnnnnnnnnnnnnnnnnnnn.pppppppppppppppppppppppppppppppp/0 Jnnnnnnnnnnnnnnnnnnnnnnnnnnnnnnn.pppppppppppppppppppppppppppppppp/0 Knnnnnnnnnnnnnnnnnnnnnnnnnnnnnnn.pppppppppppppppppppppppppppppppp/0 Lnnnnnnnnnnnnnnnnnnnnnnnnnnnnnnn.pppppppppppppppppppppppppppppppp/0 Mnnnnnnnnnnnnnnnnnnnnnnnnnnnnnnn.pppppppppppppppppppppppppppppppp/0 Nnnnnnnnnnnnnnnnnnnnnnnnnnnnnnnn.pppppppppppppppppppppppppppppppp/0 Onnnnnnnnnnnnnnnnnnnnnnnnnnnnnnn.pppppppppppppppppppppppppppppppp/0 Pnnnnnnnnnnnnnnnnnnnnnnnnnnnnnnn.pppppppppppppppppppppppppppppppp/1

== saved_picks_of_a_plant_that_was_edited
A connector before the others moves the numbers of their choices by one, and not what a saved line takes.
$ trace examples/sample.plant --save-picks run.txt 0 1 > ignored
$ trace plant --picks run.txt
1 tick A.t/0
2 send A.t/0 B.u/0
state A [s] n=2
state B [s] m=1
-- plant
atom A
place s init
var n 0
port t n
trans t from s to s do n := + n 1
atom B
place s init
var m 0
port u m
trans u from s to s
connector first B.u
connector tick A.t
connector send A.t B.u
move B.m := A.n

== saved_picks_of_a_watched_run_read_back
What is saved leads to the state in which the run ended.
$ trace examples/sample.plant --save-picks run.txt --never '== A.n 3' 0 1 0 1
1 tick A.t/0
2 send A.t/0 B.u/0
3 tick A.t/0
state A [s] n=3
state B [s] m=1
reached 3
? 1
$ trace examples/sample.plant --picks run.txt
1 tick A.t/0
2 send A.t/0 B.u/0
3 tick A.t/0
state A [s] n=3
state B [s] m=1
++ run.txt
tick A.t/0
send A.t/0 B.u/0
tick A.t/0

== saved_picks_read_back
$ trace examples/sample.plant --save-picks run.txt 0 1 0 1 > ignored
$ trace examples/sample.plant --picks run.txt
1 tick A.t/0
2 send A.t/0 B.u/0
3 tick A.t/0
4 send A.t/0 B.u/0
state A [s] n=4
state B [s] m=3

== strict_pick_past_one_choice
$ trace --strict --picks p.txt examples/light.plant
1 push Button.push/0 Light.switch/0 Counter.count/0
! error: p.txt:2: pick 7, but there is 1 choice (0)
? 1
-- p.txt
0
7

== strict_pick_past_the_list
What was fired before is printed, and no state behind it. The line is counted with the comment before it.
$ trace examples/sample.plant --picks p.txt --strict
1 tick A.t/0
! error: p.txt:3: pick 5, but there are 2 choices (0 to 1)
? 1
-- p.txt
0
# past the list
5
1

== strict_pick_where_no_choice_is
$ trace plant --picks p.txt --strict
1 c A.t/0
! error: p.txt:2: pick 0, but there is no choice
? 1
-- p.txt
0
0
-- plant
atom A
place p init
place q
port t
trans t from p to q
connector c A.t

== strict_picks_of_a_file_and_then_random_ones
The number 2 is past the two choices of the first state: it is refused, and no random pick comes.
$ trace plant --picks p.txt --random 3 --strict
! error: p.txt:1: pick 2, but there are 2 choices (0 to 1)
? 1
-- p.txt
2
-- plant
atom A
place p init
place q
port a
port b
port c
trans a from p to p
trans b from p to q
trans c from q to q
connector a A.a
connector b A.b
connector c A.c

== strict_picks_of_the_command_line
$ trace --strict examples/sample.plant 0 5 1
1 tick A.t/0
! error: pick 2 of the command line: pick 5, but there are 2 choices (0 to 1)
? 1

== strict_picks_within_the_list
$ trace --strict examples/sample.plant 0 1
1 tick A.t/0
2 send A.t/0 B.u/0
state A [s] n=2
state B [s] m=1

== stuck_before_later_picks
Where nothing is possible, the picks that follow are passed over.
$ trace plant 0 0 0 0 0
1 c A.t/0
stuck
state A [q]
-- plant
atom A
place p init
place q
port t
trans t from p to q
connector c A.t
