`check`: the lines of an atom. Places, variables, ports and transitions that lack a word, or have one too many, or name what is not there.

== fault_before_no_atom
A line with a fault is told before a text without an atom.
$ check plant
! plant line 2: fault 10 Shape
? 1
-- plant
# none
atom

== place_neither_marked
A place is marked by `init` and no other word.
$ check plant
! plant line 2: fault 10 Shape
? 1
-- plant
atom A
place p inti

== place_with_a_word_left_over
A word is left over.
$ check plant
! plant line 5: fault 10 Shape
? 1
-- plant
atom A
place p
var n 0
port t n
place q init init

== port_declared_behind
A name is used only behind the line that declares it.
$ check plant
! plant line 3: fault 7 UnknownName
? 1
-- plant
atom A
place p
trans t from p to p
port t

== port_of_another_atom
The port is there, but in another atom.
$ check plant
! plant line 5: fault 7 UnknownName
? 1
-- plant
atom A
port t
atom B
port u
connector c A.u

== transition_with_an_empty_guard
A guard without an expression.
$ check plant
! plant line 5: fault 8 BadExpr
? 1
-- plant
atom A
place p
var n 0
port t n
trans t from p to p when

== transition_with_no_guard_before_do
A guard without an expression, and updates behind it.
$ check plant
! plant line 5: fault 8 BadExpr
? 1
-- plant
atom A
place p
var n 0
port t n
trans t from p to p when do n := 1

== transition_with_no_updates
A word is missing behind `do`.
$ check plant
! plant line 5: fault 10 Shape
? 1
-- plant
atom A
place p
var n 0
port t n
trans t from p to p do

== transition_with_two_lists_of_targets
A transition has one list of targets.
$ check plant
! plant line 6: fault 10 Shape
? 1
-- plant
atom A
place p
var n 0
port t n
place q
trans t from p to q to p

== transition_without_from
A word stands where another must.
$ check plant
! plant line 4: fault 10 Shape
? 1
-- plant
atom A
place p
port t
trans t p to p

== transition_without_sources
A transition needs a source.
$ check plant
! plant line 4: fault 10 Shape
? 1
-- plant
atom A
place p
port t
trans t from to p

== transition_without_targets
A transition needs a target.
$ check plant
! plant line 4: fault 10 Shape
? 1
-- plant
atom A
place p
port t
trans t from p to

== transition_without_targets_before_when
A transition needs a target, also where its guard stands.
$ check plant
! plant line 5: fault 10 Shape
? 1
-- plant
atom A
place p
var n 0
port t n
trans t from p to when 1

== transition_without_to
A word is missing.
$ check plant
! plant line 5: fault 10 Shape
? 1
-- plant
atom A
place p
var n 0
port t n
trans t from p

== transition_without_words
A word is missing.
$ check plant
! plant line 5: fault 10 Shape
? 1
-- plant
atom A
place p
var n 0
port t n
trans

== unknown_export
A port that exports what is no variable.
$ check plant
! plant line 3: fault 7 UnknownName
? 1
-- plant
atom A
place n
port t n

== unknown_place
A transition from a place that no line declares.
$ check plant
! plant line 4: fault 7 UnknownName
? 1
-- plant
atom A
place p
port t
trans t from q to p

== unknown_place_before_a_word_left_over
The place of the condition is the first word at fault; a word is left over behind it.
$ check plant
! plant line 13: fault 7 UnknownName
? 1
-- plant
atom A
place on init
place off
port t
trans t from on to off
trans t from off to on
atom O
place s init
port o
trans o from s to s
connector tick A.t
connector other O.o
prio other < tick when A at x y

== unknown_port_of_a_transition
A transition of a port that no line declares.
$ check plant
! plant line 3: fault 7 UnknownName
? 1
-- plant
atom A
place p
trans t from p to p

== unknown_source_before_a_missing_target
The first word with a fault is told: an unknown source before the target that is missing.
$ check plant
! plant line 5: fault 7 UnknownName
? 1
-- plant
atom A
place p
var n 0
port t n
trans t from p no to

== unknown_target_of_an_update
An update of an unknown variable.
$ check plant
! plant line 4: fault 7 UnknownName
? 1
-- plant
atom A
place p
port t
trans t from p to p do n := 1

== unknown_target_place
A transition to a place that no line declares.
$ check plant
! plant line 5: fault 7 UnknownName
? 1
-- plant
atom A
place p
var n 0
port t n
trans t from p to q

== update_behind_a_sign_missing
A word is missing behind the sign between updates.
$ check plant
! plant line 5: fault 10 Shape
? 1
-- plant
atom A
place p
var n 0
port t n
trans t from p to p do n := 1 ;

== update_without_its_sign
An update has := behind its variable.
$ check plant
! plant line 5: fault 10 Shape
? 1
-- plant
atom A
place p
var n 0
port t
trans t from p to p do n = 1

== updates_without_a_sign
A word is left over where the sign between updates is missing.
$ check plant
! plant line 5: fault 10 Shape
? 1
-- plant
atom A
place p
var n 0
port t n
trans t from p to p do n := 1 n := 2

== variable_with_a_word_left_over
A word is left over.
$ check plant
! plant line 5: fault 10 Shape
? 1
-- plant
atom A
place p
var n 0
port t n
var m 1 2

== variable_without_a_value
A variable needs its first value.
$ check plant
! plant line 2: fault 10 Shape
? 1
-- plant
atom A
var n

== variable_without_words
A word is missing.
$ check plant
! plant line 5: fault 10 Shape
? 1
-- plant
atom A
place p
var n 0
port t n
var

== when_behind_do
The updates stand behind the guard.
$ check plant
! plant line 5: fault 10 Shape
? 1
-- plant
atom A
place p
var n 0
port t
trans t from p to p do n := 1 when 1

== word_behind_the_guard_of_a_transition
A word is left over behind a guard.
$ check plant
! plant line 5: fault 10 Shape
? 1
-- plant
atom A
place p
var n 0
port t n
trans t from p to p when n n
