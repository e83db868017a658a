`check --explain`: the line with the mark below it, and advice, where a word is missing, misplaced or left over, or no line begins with it.

== assign_end
$ check --explain p
! plant line 5: fault 10 Shape
!   p:5:25
!   trans t from s to s do n
!                           ^ a word is missing, misplaced or left over
!   expected ':=', and the line ends
? 1
-- p
atom A
place s init
var n 0
port t n
trans t from s to s do n

== comment
$ check --explain p
! plant line 1: fault 10 Shape
!   p:1:8
!   atom A # a machine
!          ^ a word is missing, misplaced or left over
!   nothing more may follow; a comment needs a line of its own
? 1
-- p
atom A # a machine

== comment_init
$ check --explain p
! plant line 2: fault 10 Shape
!   p:2:9
!   place s #first
!           ^^^^^^ a word is missing, misplaced or left over
!   nothing more may follow; a comment needs a line of its own
? 1
-- p
atom A
place s #first

== from
$ check --explain p
! plant line 5: fault 10 Shape
!   p:5:9
!   trans t s to s
!           ^ a word is missing, misplaced or left over
!   expected 'from', found 's'
? 1
-- p
atom A
place s init
var n 0
port t n
trans t s to s

== guard_behind
$ check --explain p
! plant line 5: fault 10 Shape
!   p:5:35
!   trans t from s to s do n := + n 1 when < n 9
!                                     ^^^^ a word is missing, misplaced or left over
!   'when' comes before 'do': the guard stands before the updates
? 1
-- p
atom A
place s init
var n 0
port t n
trans t from s to s do n := + n 1 when < n 9

== guard_behind_do
$ check --explain p
! plant line 5: fault 7 UnknownName
!   p:5:24
!   trans t from s to s do when < n 9 n := + n 1
!                          ^^^^ a name is not known here
!   'when' comes before 'do': the guard stands before the updates
? 1
-- p
atom A
place s init
var n 0
port t n
trans t from s to s do when < n 9 n := + n 1

== guard_behind_operator
$ check --explain p
! plant line 5: fault 8 BadExpr
!   p:5:33
!   trans t from s to s do n := + n when < n 9
!                                   ^^^^ an expression is malformed
!   'when' comes before 'do': the guard stands before the updates
? 1
-- p
atom A
place s init
var n 0
port t n
trans t from s to s do n := + n when < n 9

== guard_behind_variable
$ check --explain p
! plant line 5: fault 10 Shape
!   p:5:35
!   trans t from s to s do n := 1 ; n when 1
!                                     ^^^^ a word is missing, misplaced or left over
!   'when' comes before 'do': the guard stands before the updates
? 1
-- p
atom A
place s init
var n 0
port t n
trans t from s to s do n := 1 ; n when 1

== init
$ check --explain p
! plant line 2: fault 10 Shape
!   p:2:9
!   place s initial
!           ^^^^^^^ a word is missing, misplaced or left over
!   expected 'init', found 'initial'
? 1
-- p
atom A
place s initial

== keyword_misplaced
Where another keyword must stand the one that is there is marked.
$ check --explain plant
! plant line 4: fault 10 Shape
!   plant:4:16
!   trans p from s when 1 to s
!                  ^^^^ a word is missing, misplaced or left over
!   expected 'to', found 'when'
? 1
-- plant
atom A
place s
port p
trans p from s when 1 to s

== misplaced
The first word of a part without an owner is marked.
$ check --explain plant
! plant line 2: fault 4 Misplaced
!   plant:2:1
!   place s init
!   ^^^^^ the line speaks of the latest atom or connector, and there is none yet
!   a place belongs to an atom: write 'atom NAME' before it
? 1
-- plant
# nothing yet
place s init

== misplaced_behind_blanks
Lines that say nothing count, and blanks before the first word are not marked.
$ check --explain plant
! plant line 3: fault 4 Misplaced
!   plant:3:3
!     place p init
!     ^^^^^ the line speaks of the latest atom or connector, and there is none yet
!   a place belongs to an atom: write 'atom NAME' before it
? 1
-- plant
# an atom is missing

  place p init

== misplaced_in_the_first_line
$ check --explain p
! plant line 1: fault 4 Misplaced
!   p:1:1
!   place s
!   ^^^^^ the line speaks of the latest atom or connector, and there is none yet
!   a place belongs to an atom: write 'atom NAME' before it
? 1
-- p
place s

== no_atom
A text without an atom has no line to show.
$ check --explain plant
! plant line 0: fault 14 NoAtom
!   write at least one line 'atom NAME'
? 1
-- plant
# nothing

== no_name
$ check --explain p
! plant line 1: fault 10 Shape
!   p:1:5
!   atom
!       ^ a word is missing, misplaced or left over
!   expected a name, and the line ends
? 1
-- p
atom

== no_source
$ check --explain p
! plant line 5: fault 10 Shape
!   p:5:14
!   trans t from to s
!                ^^ a word is missing, misplaced or left over
!   expected a place, found 'to'
? 1
-- p
atom A
place s init
var n 0
port t n
trans t from to s

== place_neither_marked
A word that stands for `init` is marked.
$ check --explain plant
! plant line 14: fault 10 Shape
!   plant:14:9
!   place p first
!           ^^^^^ a word is missing, misplaced or left over
!   expected 'init', found 'first'
? 1
-- plant = examples/sample.plant and
place p first

== place_without_a_name
The end is marked behind the last word, and not behind the blanks.
$ check --explain plant
! plant line 14: fault 10 Shape
!   plant:14:6
!   place  
!        ^ a word is missing, misplaced or left over
!   expected a name, and the line ends
? 1
-- plant = examples/sample.plant and
place 	

== quote_apart
$ check --explain p
! plant line 19: fault 10 Shape
!   p:19:17
!   connector c A.t ' B.v
!                   ^ a word is missing, misplaced or left over
!   a quote stands directly after its port or bracket: write A.t'
? 1
-- p
atom A
place s init
place r
var n 0
var m 5
port t n
trans t from s to s
atom B
place x init
var k 0
var g 0
var h 0
var i 0
var j 0
port u k g h i
port v
trans u from x to x
trans v from x to x
connector c A.t ' B.v

== quote_before
$ check --explain p
! plant line 19: fault 7 UnknownName
!   p:19:13
!   connector c 'B.v A.t
!               ^^^^ a name is not known here
!   a quote stands directly after its port or bracket: write B.v'
? 1
-- p
atom A
place s init
place r
var n 0
var m 5
port t n
trans t from s to s
atom B
place x init
var k 0
var g 0
var h 0
var i 0
var j 0
port u k g h i
port v
trans u from x to x
trans v from x to x
connector c 'B.v A.t

== quote_behind_a_quote
$ check --explain p
! plant line 19: fault 10 Shape
!   p:19:18
!   connector c A.t' ' B.v
!                    ^ a word is missing, misplaced or left over
!   a quote stands directly after its port or bracket: write A.t'
? 1
-- p
atom A
place s init
place r
var n 0
var m 5
port t n
trans t from s to s
atom B
place x init
var k 0
var g 0
var h 0
var i 0
var j 0
port u k g h i
port v
trans u from x to x
trans v from x to x
connector c A.t' ' B.v

== separator
$ check --explain p
! plant line 5: fault 10 Shape
!   p:5:31
!   trans t from s to s do n := 1 n := 2
!                                 ^ a word is missing, misplaced or left over
!   expected ';', found 'n'
? 1
-- p
atom A
place s init
var n 0
port t n
trans t from s to s do n := 1 n := 2

== target_again
$ check --explain p
! plant line 5: fault 10 Shape
!   p:5:21
!   trans t from s to s to s
!                       ^^ a word is missing, misplaced or left over
!   expected 'when' or 'do', found 'to'
? 1
-- p
atom A
place s init
var n 0
port t n
trans t from s to s to s

== to
$ check --explain p
! plant line 5: fault 10 Shape
!   p:5:15
!   trans t from s
!                 ^ a word is missing, misplaced or left over
!   expected 'to', and the line ends
? 1
-- p
atom A
place s init
var n 0
port t n
trans t from s

== to_when
$ check --explain p
! plant line 5: fault 10 Shape
!   p:5:16
!   trans t from s when 1
!                  ^^^^ a word is missing, misplaced or left over
!   expected 'to', found 'when'
? 1
-- p
atom A
place s init
var n 0
port t n
trans t from s when 1

== transition_without_from
Where `from` is missing the word in its place is marked.
$ check --explain plant
! plant line 14: fault 10 Shape
!   plant:14:9
!   trans u s to s
!           ^ a word is missing, misplaced or left over
!   expected 'from', found 's'
? 1
-- plant = examples/sample.plant and
trans u s to s

== transition_without_sources
Where the sources are missing the word in their place is marked.
$ check --explain plant
! plant line 14: fault 10 Shape
!   plant:14:14
!   trans u from to s
!                ^^ a word is missing, misplaced or left over
!   expected a place, found 'to'
? 1
-- plant = examples/sample.plant and
trans u from to s

== unknown_word
The first word of a line is marked.
$ check --explain plant
! plant line 1: fault 3 UnknownWord
!   plant:1:3
!     machine A B
!     ^^^^^^^ no line begins with this word
!   a line begins with atom, place, var, port, trans, connector, guard, move, prio, maximal or #
? 1
-- plant
	 machine A B

== unknown_word_near_another
$ check --explain p
! plant line 1: fault 3 UnknownWord
!   p:1:1
!   plase s
!   ^^^^^ no line begins with this word
!   a line begins with atom, place, var, port, trans, connector, guard, move, prio, maximal or #
!   did you mean 'place'?
? 1
-- p
plase s

== variable_with_a_word_left_over
A word behind the first value is marked.
$ check --explain plant
! plant line 14: fault 10 Shape
!   plant:14:9
!   var k 1 2
!           ^ a word is missing, misplaced or left over
!   nothing more may follow
? 1
-- plant = examples/sample.plant and
var k 1 2

== word_left_over
A word too many is marked.
$ check --explain plant
! plant line 1: fault 10 Shape
!   plant:1:8
!   atom A B C
!          ^ a word is missing, misplaced or left over
!   nothing more may follow
? 1
-- plant
atom A B C

== word_missing
Where a word is missing the end of the line is marked.
$ check --explain plant
! plant line 4: fault 10 Shape
!   plant:4:15
!   trans p from s
!                 ^ a word is missing, misplaced or left over
!   expected 'to', and the line ends
? 1
-- plant
atom A
place s
port p
trans p from s
