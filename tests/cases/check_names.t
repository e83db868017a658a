`check`: names that are none, that are there twice or that are reserved, and first words that no line has.

== atom_twice
Two atoms of one name.
$ check plant
! plant line 2: fault 6 Twice
? 1
-- plant
atom A
atom A

== atom_twice_before_a_word_left_over
The name stands before the word that is left over.
$ check plant
! plant line 2: fault 6 Twice
? 1
-- plant
atom A
atom A more

== atom_with_two_names
A word is left over.
$ check plant
! plant line 1: fault 10 Shape
? 1
-- plant
atom A B

== atom_without_a_name
A word is missing.
$ check plant
! plant line 1: fault 10 Shape
? 1
-- plant
atom

== bad_name_before_a_bad_number
The first word with a fault is told: a bad name before a bad number.
$ check plant
! plant line 5: fault 5 BadName
? 1
-- plant
atom A
place p
var n 0
port t n
var 1 x

== bad_name_before_a_word_left_over
The first word with a fault is told: a bad name before a word that is left over.
$ check plant
! plant line 5: fault 5 BadName
? 1
-- plant
atom A
place p
var n 0
port t n
place 1 x

== bad_name_of_a_connector
A connector's name is a name too.
$ check plant
! plant line 6: fault 5 BadName
? 1
-- plant
atom A
place s init
var n 0
port t n
trans t from s to s do n := + n 1
connector _c A.t

== bad_name_of_a_port
What a line declares as a port must be a name.
$ check plant
! plant line 2: fault 5 BadName
? 1
-- plant
atom A
port 1t

== connector_name_of_33_bytes
One byte more than the name of a connector may have.
$ check plant
! plant line 3: fault 5 BadName
? 1
-- plant
atom A
port t
connector aaaaaaaaaaaaaaaaaaaaaaaaaaaaaaaaa A.t

== connector_twice
Two connectors of one name.
$ check plant
! plant line 14: fault 6 Twice
? 1
-- plant = examples/sample.plant and
connector tick B.u

== export_twice
A variable that a port exports twice.
$ check plant
! plant line 3: fault 6 Twice
? 1
-- plant
atom A
var n 0
port t n n

== fault_behind_lines_that_say_nothing
Lines that say nothing count.
$ check plant
! plant line 4: fault 6 Twice
? 1
-- plant
atom A

# no part
atom A

== first_line_with_a_fault
The first line with a fault is told.
$ check plant
! plant line 2: fault 5 BadName
? 1
-- plant
atom A
place 1
atom A

== name_of_32_bytes
The longest name.
$ check plant
atoms 1 connectors 0 interactions 0 rules 0
-- plant
atom aaaaaaaaaaaaaaaaaaaaaaaaaaaaaaaa

== name_of_33_bytes
One byte more than a name may have.
$ check plant
! plant line 1: fault 5 BadName
? 1
-- plant
atom aaaaaaaaaaaaaaaaaaaaaaaaaaaaaaaaa

== name_with_a_digit_first
A name begins with a letter.
$ check plant
! plant line 2: fault 5 BadName
? 1
-- plant
atom A
place 1p

== name_with_a_dot
A name has letters, digits and `_` alone.
$ check plant
! plant line 5: fault 5 BadName
? 1
-- plant
atom A
place p
var n 0
port t n
place A.p

== place_first
A place before any atom.
$ check plant
! plant line 1: fault 4 Misplaced
? 1
-- plant
place p

== place_name_of_33_bytes
One byte more than the name of a place may have.
$ check plant
! plant line 2: fault 5 BadName
? 1
-- plant
atom A
place aaaaaaaaaaaaaaaaaaaaaaaaaaaaaaaaa

== place_twice
Two places of one name.
$ check plant
! plant line 3: fault 6 Twice
? 1
-- plant
atom A
place p
place p init

== place_twice_before_a_word_left_over
The first word with a fault is told: a name that is declared already before a word left over.
$ check plant
! plant line 5: fault 6 Twice
? 1
-- plant
atom A
place p
var n 0
port t n
place p init more

== place_without_a_name
A word is missing.
$ check plant
! plant line 5: fault 10 Shape
? 1
-- plant
atom A
place p
var n 0
port t n
place

== port_first
A part of an atom before any atom.
$ check plant
! plant line 2: fault 4 Misplaced
? 1
-- plant
# no atom
port t

== port_name_of_33_bytes
One byte more than the name of a port may have.
$ check plant
! plant line 2: fault 5 BadName
? 1
-- plant
atom A
port aaaaaaaaaaaaaaaaaaaaaaaaaaaaaaaaa

== port_twice
Two ports of one name.
$ check plant
! plant line 3: fault 6 Twice
? 1
-- plant
atom A
port t
port t

== port_twice_before_an_unknown_export
The first word with a fault is told: a name that is declared already before an unknown export.
$ check plant
! plant line 5: fault 6 Twice
? 1
-- plant
atom A
place p
var n 0
port t n
port t no

== port_without_a_name
A word is missing.
$ check plant
! plant line 5: fault 10 Shape
? 1
-- plant
atom A
place p
var n 0
port t n
port

== reserved_at
A reserved word is no name: `at`.
$ check plant
! plant line 1: fault 5 BadName
? 1
-- plant
atom at

== reserved_do
A reserved word is no name: `do`.
$ check plant
! plant line 2: fault 5 BadName
? 1
-- plant
atom A
port do

== reserved_from
A reserved word is no name: `from`.
$ check plant
! plant line 1: fault 5 BadName
? 1
-- plant
atom from

== reserved_init
A reserved word is no name: `init`.
$ check plant
! plant line 2: fault 5 BadName
? 1
-- plant
atom A
place init

== reserved_max
A reserved word is no name: `max`.
$ check plant
! plant line 3: fault 5 BadName
? 1
-- plant
atom A
port t
connector max A.t

== reserved_min
A reserved word is no name: `min`.
$ check plant
! plant line 2: fault 5 BadName
? 1
-- plant
atom A
var min 0

== reserved_name
A reserved word is no name.
$ check plant
! plant line 1: fault 5 BadName
? 1
-- plant
atom to

== reserved_when
A reserved word is no name: `when`.
$ check plant
! plant line 2: fault 5 BadName
? 1
-- plant
atom A
place when

== reserved_words_as_parts_of_names
A name may begin with a reserved word.
$ check plant
atoms 1 connectors 1 interactions 1 rules 1
-- plant
atom atom
place place init
var tox 0
port maximal
connector prio atom.maximal
maximal prio

== same_names_of_different_kinds
A place, a variable and a port, and parts of different atoms, may have one name.
$ check plant
atoms 2 connectors 2 interactions 2 rules 0
-- plant
atom A
place x init
var x 1
port x x
trans x from x to x
atom B
place x
var x 2
port x
connector A A.x
connector x B.x

== source_twice
A place that is a source twice.
$ check plant
! plant line 4: fault 6 Twice
? 1
-- plant
atom A
place p
port t
trans t from p p to p

== source_twice_before_an_unknown_target
The first word with a fault is told: a source that stands twice before an unknown target.
$ check plant
! plant line 5: fault 6 Twice
? 1
-- plant
atom A
place p
var n 0
port t n
trans t from p p to no

== source_twice_behind_another
The first word with a fault is told: a source that stands twice, with another one between, before an unknown one.
$ check plant
! plant line 6: fault 6 Twice
? 1
-- plant
atom A
place p
var n 0
port t n
place q
trans t from p q p no to p

== target_twice
A place that is a target twice.
$ check plant
! plant line 4: fault 6 Twice
? 1
-- plant
atom A
place p
port t
trans t from p to p p

== trans_first
A part of an atom before any atom.
$ check plant
! plant line 2: fault 4 Misplaced
? 1
-- plant
# no atom
trans t from p to p

== twice_before_a_bad_number
The first word with a fault is told: a name that is declared already before a bad number.
$ check plant
! plant line 5: fault 6 Twice
? 1
-- plant
atom A
place p
var n 0
port t n
var n x

== twice_before_an_unknown_export
The first word with a fault is told: an export that stands twice before an unknown one.
$ check plant
! plant line 5: fault 6 Twice
? 1
-- plant
atom A
place p
var n 0
port t n
port u n n no

== unknown_export_before_twice
The first word with a fault is told: an unknown export before one that stands twice.
$ check plant
! plant line 5: fault 7 UnknownName
? 1
-- plant
atom A
place p
var n 0
port t n
port u n no n

== unknown_source_before_twice
The first word with a fault is told: an unknown source before one that stands twice.
$ check plant
! plant line 5: fault 7 UnknownName
? 1
-- plant
atom A
place p
var n 0
port t n
trans t from no p p to p

== unknown_word
No line begins so.
$ check plant
! plant line 2: fault 3 UnknownWord
? 1
-- plant
atom A
places p

== unknown_word_before_misplaced
An unknown first word is told also where no atom stands yet.
$ check plant
! plant line 1: fault 3 UnknownWord
? 1
-- plant
Atom A

== var_first
A part of an atom before any atom.
$ check plant
! plant line 2: fault 4 Misplaced
? 1
-- plant
# no atom
var n 0

== variable_name_of_33_bytes
One byte more than the name of a variable may have.
$ check plant
! plant line 2: fault 5 BadName
? 1
-- plant
atom A
var aaaaaaaaaaaaaaaaaaaaaaaaaaaaaaaaa 0

== variable_twice
Two variables of one name.
$ check plant
! plant line 3: fault 6 Twice
? 1
-- plant
atom A
var n 0
var n 1

== word_of_another_case
Words are judged as they are written: `Atom` begins no line, and names that differ in case are two.
$ check plant
! plant line 3: fault 3 UnknownWord
? 1
-- plant
atom a
atom A
Place p
