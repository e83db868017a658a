`check`: the bytes of a plant's text. What is not ASCII, ends of lines, blanks and comments, the longest line and the longest text.

== blanks_and_comments
Words stand between spaces and tabs; lines without words and comments are passed over.
$ check plant
atoms 1 connectors 0 interactions 0 rules 0
-- plant

  # a comment
	atom 	 A  
#atom B

 place  s	init 

== byte_before_the_space
The byte before the space may not stand in a text, in a comment either.
$ check plant
! plant line 2: fault 1 NotAscii
? 1
-- plant
atom A
\# \x1f

== carriage_return_at_the_end
A carriage return as the last byte of the text.
$ check plant
! plant line 1: fault 1 NotAscii
? 1
-- plant
\atom A\x0d
\ no line feed

== carriage_return_within
A carriage return that is not directly before a line feed.
$ check plant
! plant line 2: fault 1 NotAscii
? 1
-- plant
atom A
\place\x0dp

== carriage_returns
A carriage return directly before a line feed belongs to the line's end.
$ check plant
atoms 1 connectors 0 interactions 0 rules 0
-- plant
\atom A\x0d
\place s init\x0d

== comment_behind_a_word
A comment is a line of its own: behind a word it is words left over.
$ check plant
! plant line 5: fault 10 Shape
? 1
-- plant
atom A
place p
var n 0
port t n
place q # marked

== comments_alone
Comments declare no atom.
$ check plant
! plant line 0: fault 14 NoAtom
? 1
-- plant
# atom A
\

== delete_byte
Of the bytes below 128 only printed ones, spaces, tabs and line feeds may stand in a text.
$ check plant
! plant line 2: fault 1 NotAscii
? 1
-- plant
atom A
\place p\x7f

== empty_text
No line declares an atom.
$ check plant
! plant line 0: fault 14 NoAtom
? 1
-- plant

== fault_at_the_end_of_the_longest_text
Empty lines count: the fault is told by the number of its line.
@ plant begins with 1048562 line feeds
$ check plant
! plant line 1048564: fault 5 BadName
? 1
-- plant
atom A
place 1
\ no line feed

== fault_before_a_byte
Of two lines with a fault the first is told, also where the second holds a byte that may not stand.
$ check plant
! plant line 2: fault 3 UnknownWord
? 1
-- plant
atom A
plaice
\# \xc3\xa4

== form_feed
A form feed is no blank.
$ check plant
! plant line 2: fault 1 NotAscii
? 1
-- plant
atom A
\\x0c

== line_of_blanks
A line of spaces and tabs alone says nothing.
$ check plant
atoms 1 connectors 0 interactions 0 rules 0
-- plant
atom A
 	 
place p

== longest
As many bytes as a text may have: it is read to its end, and has no atom.
@ plant ends with 1048576 line feeds
$ check plant
! plant line 0: fault 14 NoAtom
? 1

== longest_line
One line as long as a text may be, most of it spaces.
@ plant begins with 1048570 spaces
$ check plant
atoms 1 connectors 0 interactions 0 rules 0
-- plant
atom A
\ no line feed

== longest_text
As many bytes as a text may have, most of them line feeds behind the plant.
@ plant ends with 1048513 line feeds
$ check plant
atoms 1 connectors 1 interactions 1 rules 0
-- plant
atom A
place s init
port t
trans t from s to s
connector c A.t

== no_line_feed_at_the_end
The last line may lack its line feed.
$ check plant
atoms 2 connectors 0 interactions 0 rules 0
-- plant
atom A
atom B
\ no line feed

== not_ascii
A byte that is no printed ASCII character, space or tab.
$ check plant
! plant line 2: fault 1 NotAscii
? 1
-- plant
atom A
\place \xc3\xa4

== not_ascii_behind_a_name_twice
The first fault from the left is told, and a name that is declared already stands before the byte.
$ check plant
! plant line 3: fault 6 Twice
? 1
-- plant
atom A
place s
\place s \xc3\xa4

== not_ascii_behind_a_word_left_over
The word that is left over stands before the byte.
$ check plant
! plant line 2: fault 10 Shape
? 1
-- plant
atom A
\place s init x \xc3\xa4

== not_ascii_behind_an_operand
In an expression the first fault from the left is told.
$ check plant
! plant line 5: fault 7 UnknownName
? 1
-- plant
atom A
place s init
var n 0
port t n
\trans t from s to s when < x \xc3\xa4

== not_ascii_behind_an_unknown_word
A byte that may not stand in a text is told where it stands: a word before it that is at fault is told first.
$ check plant
! plant line 1: fault 3 UnknownWord
? 1
-- plant
\plaice \xc3\xa4

== not_ascii_for_when
A word that stands for `when` is told as one with such a byte.
$ check plant
! plant line 13: fault 1 NotAscii
? 1
-- plant
atom A
place on init
place off
port t
trans t from on to off
trans t from off to on
atom O
place s init
port o
trans o from s to s
connector tick A.t
connector other O.o
\prio other < tick w\xc3\xa4hrend A at on

== not_ascii_in_a_comment
The bytes of comments have to be legal too.
$ check plant
! plant line 2: fault 1 NotAscii
? 1
-- plant
atom A
\# \xc3\xa4

== not_ascii_in_a_fifth_export
One exported variable too many is told before the bytes of its word.
$ check plant
! plant line 7: fault 13 Limit
? 1
-- plant
atom A
place s
var a 0
var b 0
var c 0
var d 0
\port t a b c d \xc3\xa4

== not_ascii_in_a_keyword
A word with such a byte is no keyword.
$ check plant
! plant line 5: fault 1 NotAscii
? 1
-- plant
atom A
place s init
var n 0
port t n
\trans t from s to\xc3\xa4 s

== not_ascii_in_a_misplaced_line
The first word of the line is at fault before the byte.
$ check plant
! plant line 1: fault 4 Misplaced
? 1
-- plant
\place \xc3\xa4

== not_ascii_in_a_name
A name with such a byte is told as that, whatever stands behind it.
$ check plant
! plant line 2: fault 1 NotAscii
? 1
-- plant
atom A
\place s\xc3\xa4 x

== not_ascii_in_a_number
A number with such a byte is told as that, and not as a bad number.
$ check plant
! plant line 2: fault 1 NotAscii
? 1
-- plant
atom A
\var n 7\xc3\xa4

== not_ascii_in_a_rule
A side with such a byte is told as that, and not as an unknown name.
$ check plant
! plant line 6: fault 1 NotAscii
? 1
-- plant
atom A
place s init
var n 0
port t n
connector c A.t
\prio c < c:\xc3\xa4

== not_ascii_in_a_tree
The words of a tree are judged before the tree, which here has an atom twice.
$ check plant
! plant line 5: fault 1 NotAscii
? 1
-- plant
atom A
place s init
var n 0
port t n
\connector c A.t A.t A.\xc3\xa4

== not_ascii_in_an_expression
In an expression a word with such a byte is told as that, and not as an unknown name.
$ check plant
! plant line 5: fault 1 NotAscii
? 1
-- plant
atom A
place s init
var n 0
port t n
\trans t from s to s when < n\xc3\xa4 x

== not_ascii_in_the_atom_of_a_condition
An atom with such a byte is told as that, and not as an unknown name.
$ check plant
! plant line 13: fault 1 NotAscii
? 1
-- plant
atom A
place on init
place off
port t
trans t from on to off
trans t from off to on
atom O
place s init
port o
trans o from s to s
connector tick A.t
connector other O.o
\prio other < tick when \xc3\x84 at on

== not_ascii_in_the_first_word
A word with such a byte is told as that, and not as a word that no line begins with.
$ check plant
! plant line 1: fault 1 NotAscii
? 1
-- plant
\pl\xc3\xa4ce s

== not_ascii_in_the_place_of_a_condition
A place with such a byte is told as that, and not as an unknown name.
$ check plant
! plant line 13: fault 1 NotAscii
? 1
-- plant
atom A
place on init
place off
port t
trans t from on to off
trans t from off to on
atom O
place s init
port o
trans o from s to s
connector tick A.t
connector other O.o
\prio other < tick when A at \xc3\xb6n

== not_ascii_left_over
A word that is left over is told as a word with such a byte, where it has one.
$ check plant
! plant line 2: fault 1 NotAscii
? 1
-- plant
atom A
\place s init \xc3\xa4 x

== printed_bytes_in_a_comment
Every printed byte may stand in a comment.
$ check plant
atoms 1 connectors 0 interactions 0 rules 0
-- plant
#  !"#$%&'()*+,-./0123456789:;<=>?@ABCDEFGHIJKLMNOPQRSTUVWXYZ[\]^_`abcdefghijklmnopqrstuvwxyz{|}~	
atom A

== rules_with_carriage_returns
A carriage return directly before a line feed belongs to the line of a rule too, and the last line may lack its line feed.
$ check plant
atoms 2 connectors 2 interactions 3 rules 2
-- plant
\atom A\x0d
\port t\x0d
\atom B\x0d
\port u\x0d
\connector tick A.t\x0d
\connector bc A.t' B.u\x0d
\prio tick < bc:3\x0d
maximal bc
\ no line feed

== too_long
One byte more than a text may have.
@ plant ends with 1048577 line feeds
$ check plant
! plant line 0: fault 2 TooLong
? 1

== too_long_before_its_lines
A text that is too long is told before what its lines hold.
@ plant ends with 1048576 line feeds
$ check plant
! plant line 0: fault 2 TooLong
? 1
-- plant
\place \xc3\xa4

== too_long_by_a_space
One byte more than a text may have, in its only line.
@ plant begins with 1048571 spaces
$ check plant
! plant line 0: fault 2 TooLong
? 1
-- plant
atom A
\ no line feed

== two_carriage_returns
Of two carriage returns before a line feed only the second belongs to the line's end.
$ check plant
! plant line 1: fault 1 NotAscii
? 1
-- plant
\atom A\x0d\x0d

== zero_byte
A zero byte may not stand in a text.
$ check plant
! plant line 2: fault 1 NotAscii
? 1
-- plant
atom A
\#\x00
