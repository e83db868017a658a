`--explain` of the other commands: images, scripts, picks, files and outputs.

== copy_of_an_image_that_was_cut
$ format examples/sample.plant image --ring 8 > ignored
@ image is 15359 bytes long
$ backup --explain image copy
! image: refusal 4 WrongSize
!   the file has not the size of this image: it was cut short, or is for another plant or another --ring; use another file
!   the file has 15359 bytes, its image 15360
? 1
++ copy absent

== damaged_base
$ format examples/sample.plant image --ring 8 > ignored
@ image has 00 at 1024
$ backup --explain image copy
! image: refusal 5 Damaged(1)
!   a cell does not hold what was written to it: keep the file, bring the real plant to its first state, and format another image
!   first base
? 1
++ copy absent

== damaged_slot
A marks two places in its first slot, and it has one.
$ format examples/sample.plant image --ring 8 > ignored
@ image has 03 at 3099
$ recover --explain examples/sample.plant image
! image: refusal 5 Damaged(3)
!   a cell does not hold what was written to it: keep the file, bring the real plant to its first state, and format another image
!   slot 0 of atom A
? 1

== drawing_of_a_faulty_plant
A drawing shows the line of a fault, too.
$ draw --explain plant
! plant line 4: fault 6 Twice
!   plant:4:6
!   port p
!        ^ a name is declared already, or stands twice where it may stand once
!   'p' stands on line 3 already
? 1
-- plant
atom A
\place s init\x0d
\port p\x0d
\port p\x0d

== file_with_a_control_byte_in_its_name
$ check $'a\x1b[2Jb.plant'
! file a\x1b[2Jb.plant
? 3

== file_with_letters_past_ascii_in_its_name
$ recover examples/sample.plant $'d\xc3\xbcse.image'
! file d\xc3\xbcse.image
? 3

== image_in_use
$ format examples/sample.plant image --ring 8 > ignored
@ image is in use
$ run --explain examples/sample.plant image script
! file image in use
!   in use: end the program that has it open
? 3
-- script
flush

== image_missing
$ recover --explain examples/sample.plant none.image
! file none.image
!   no such file or folder
? 3

== image_of_a_folder
$ format --explain examples/sample.plant examples
! file examples
!   not a plain file
? 3

== image_of_another_size
@ image ends with 100 zeros
$ format --explain examples/sample.plant image --ring 8
! image: refusal 4 WrongSize
!   the file has not the size of this image: it was cut short, or is for another plant or another --ring; use another file
!   the file has 100 bytes, the new image 15360
? 1

== image_of_the_first_layout
An image of an earlier version is told with what brings it over.
$ recover --explain examples/sample.plant image
! image: refusal 2 OtherVersion
!   if an earlier version of this program formatted the image, bring it over to a new one by 'bip_run migrate'; if a later one did, go on with that version
? 1
-- image = tests/fixtures/first_layout_run.image
++ image unchanged

== image_on_a_terminal
@ image ends with 15360 zeros
@ standard error on a terminal
$ recover examples/sample.plant image
! image: refusal 1 NotFormatted
!   no whole image begins in the file: keep a copy of it, and look into it by 'bip_run inspect'; to format it destroys what it holds
? 1

== image_refused
A refused image is told with what it means and what to do.
$ format examples/sample.plant image --ring 8 > ignored
$ recover --explain plant image
! image: refusal 3 OtherSystem
!   the image was formatted for another plant text: use that very text, byte for byte, or another image
!   the image is for 2 atoms and the text 9c7e1145c9ae08c423f0f7ca90e43310e0aedbd94cbdbfb825a0ddefb2081b48; this plant has 2 atoms and the text 46440009f83d1f36ace4e5fab97479f489d351766c31e0b6f7cc18f3df75c357
? 1
-- plant = examples/sample.plant and
\

== image_that_was_cut
$ format examples/sample.plant image --ring 8 > ignored
@ image is 15359 bytes long
$ serve --explain examples/sample.plant image
! image: refusal 4 WrongSize
!   the file has not the size of this image: it was cut short, or is for another plant or another --ring; use another file
!   the file has 15359 bytes, its image 15360
? 1

== missing_file
A file that is not there has no line to show.
$ check --explain none.plant
! file none.plant
!   no such file or folder
? 3

== on_a_terminal
On a terminal the line is shown without being asked for.
@ standard error on a terminal
$ check plant
! plant line 3: fault 7 UnknownName
!   plant:3:8
!   port p q
!          ^ a name is not known here
!   atom A has no variable 'q'; it has none
? 1
-- plant
atom A
place s init
port p q

== output_closed
@ standard output closed
$ check --explain examples/sample.plant
! error: the standard output failed: Bad file descriptor (os error 9)
? 3

== output_full
@ standard output full
$ trace --explain examples/sample.plant 0
! error: the standard output failed: No space left on device (os error 28)
? 3

== output_of_a_run_full
$ format examples/sample.plant plant.image > ignored
@ standard output full
$ run --explain examples/sample.plant plant.image script
! error: the standard output failed: No space left on device (os error 28)
? 3
-- script
fire 0
flush

== picks_missing
$ trace --explain examples/sample.plant --picks none.txt
! file none.txt
!   no such file or folder
? 3

== picks_of_a_folder
$ trace --explain examples/sample.plant --picks examples
! file examples
!   a folder, and no file
? 3

== picks_refused
The line says all that there is to tell.
$ trace --explain examples/sample.plant --picks p.txt --strict
! error: p.txt:1: pick 2, but there are 2 choices (0 to 1)
? 1
-- p.txt
2

== picks_saved_in_a_missing_folder
$ trace --explain examples/sample.plant --save-picks none/run.txt 0
! file none/run.txt
!   no such file or folder
? 3

== plant_is_an_image
$ format examples/sample.plant image --ring 8 > ignored
$ recover --explain image examples/sample.plant
!~ plant line 1: fault 1 NotAscii
!~   ^^^^ this file is an image, and no plant text: are PLANT and IMAGE in the wrong order?
? 1

== plant_of_a_folder
$ check --explain examples
! file examples
!   a folder, and no file
? 3

== plant_of_a_format
The commands on images show the line of a plant, too.
$ format --explain plant image
! plant line 3: fault 7 UnknownName
!   plant:3:8
!   port p q
!          ^ a name is not known here
!   atom A has no variable 'q'; it has none
? 1
-- plant
atom A
place s init
port p q

== plant_without_a_fault
Where there is no fault nothing is shown.
$ check --explain plant
atoms 2 connectors 2 interactions 2 rules 0
-- plant = examples/sample.plant

== run_on_a_terminal
Where there is no fault nothing is told on a terminal.
@ standard error on a terminal
$ trace plant 0
1 tick A.t/0
state A [s] n=1
state B [s] m=0
-- plant = examples/sample.plant

== script_missing
A script that is not there has nothing to show.
$ run --explain examples/sample.plant none.image none.script
! file none.script
!   no such file or folder
? 3

== script_of_a_folder
$ format examples/sample.plant plant.image > ignored
$ run --explain examples/sample.plant plant.image examples
! file examples
!   a folder, and no file
? 3

== script_of_a_number_alone
$ run --explain examples/sample.plant none.image script
! script line 1
!   script:1:1: '0' is no event: write 'fire' before the number of a choice
? 1
-- script
0
flush

== script_of_an_unknown_atom
Blanks stand before the words.
$ run --explain examples/sample.plant none.image script
! script line 1
!   script:1:8: the plant has no atom 'C'; it has: A, B
? 1
-- script
  put  C

== script_of_an_unknown_move
The column is that of the word at fault, and not of the first one.
$ run --explain examples/sample.plant none.image script
! script line 2
!   script:2:17: 'C.u/0' is no ATOM.PORT/TRANSITION of the plant
? 1
-- script
fire 0
fire send A.t/0 C.u/0

== script_of_two_events_on_a_line
$ run --explain examples/sample.plant none.image script
! script line 2
!   script:2:6: '1;' has a ';' or a ',': each event stands on a line of its own, and spaces alone stand between words
? 1
-- script
fire 0
fire 1; flush

== script_refused
$ run --explain examples/sample.plant none.image script
! script line 2
!   script:2:1: 'stop' is no event: fire, flush, ask, put, save, trim, begin or back
? 1
-- script
fire 0
stop

== script_with_a_comma_between_moves
$ run --explain examples/sample.plant none.image script
! script line 1
!   script:1:11: 'A.t/0,' has a ';' or a ',': each event stands on a line of its own, and spaces alone stand between words
? 1
-- script
fire send A.t/0, B.u/0

== script_with_a_comment_behind_an_event
$ run --explain examples/sample.plant none.image script
! script line 1
!   script:1:8: '#' is left over: a script has no comments
? 1
-- script
fire 0 # tick

== script_with_a_semicolon_behind_an_event
$ run --explain examples/sample.plant none.image script
! script line 1
!   script:1:1: 'flush;' has a ';' or a ',': each event stands on a line of its own, and spaces alone stand between words
? 1
-- script
flush; save

== script_with_a_word_left_over
$ run --explain examples/sample.plant none.image script
! script line 1
!   script:1:7: 'now' is left over
? 1
-- script
flush now

== script_with_an_event_behind_another
$ run --explain examples/sample.plant none.image script
! script line 2
!   script:2:7: 'save' is left over: each event stands on a line of its own
? 1
-- script
fire 0
flush save

== script_without_an_atom
The column is the one behind the line.
$ run --explain examples/sample.plant none.image script
! script line 1
!   script:1:4: the name of an atom is missing; the plant has: A, B
? 1
-- script
ask

== standard_input
The text of the standard input is shown, too.
$ check --explain -
< plant A
\ no line feed
! plant line 1: fault 3 UnknownWord
!   -:1:1
!   plant A
!   ^^^^^ no line begins with this word
!   a line begins with atom, place, var, port, trans, connector, guard, move, prio, maximal or #
!   did you mean 'place'?
? 1

== trace_of_a_faulty_plant
A run shows the line of a fault, too.
$ trace plant 0 --explain
! plant line 3: fault 7 UnknownName
!   plant:3:8
!   port p q
!          ^ a name is not known here
!   atom A has no variable 'q'; it has none
? 1
-- plant
atom A
place s init
port p q

== without_the_option
Without the option, and where the standard error is no terminal, the fixed line stands alone.
$ check plant
! plant line 1: fault 3 UnknownWord
? 1
-- plant
machine A
