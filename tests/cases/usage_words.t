Words on the command line that lack, are left over or name the same file twice.

== backup_of_a_plant_too
An image is copied without its plant.
$ backup image copy examples/sample.plant
!~ examples/sample.plant
? 2

== backup_over_itself
$ backup image image
!~ the copy cannot be the file of the image
!~ Usage: bip_run backup [OPTIONS] <IMAGE> <FILE>
? 2

== backup_without_a_file
$ backup image
!~ FILE
? 2

== check_of_two_plants
$ check examples/sample.plant 0
!~ unexpected argument '0'
? 2

== check_without_a_plant
$ check
!~ PLANT
? 2

== choices_without_a_plant
$ choices
!~ PLANT
? 2

== command_with_a_letter_missing
$ inspct image
!~ unrecognized subcommand 'inspct'
!~ a similar subcommand exists: 'inspect'
? 2

== command_with_control_bytes
What a word has that a terminal would take for a command is shown by its number.
$ $'\x1b[2Jch\x07eck' examples/sample.plant
!~ error: unrecognized subcommand '\x1b[2Jch\x07eck'
? 2

== draw_after_picks_before_the_plant
$ draw --after 0 1 examples/sample.plant
!~ the following required arguments were not provided:
!~   <PLANT>
!~ Usage: bip_run draw [OPTIONS] <PLANT>
? 2

== draw_of_two_plants
$ draw examples/sample.plant examples/sample.plant
!~ unexpected argument 'examples/sample.plant'
? 2

== draw_without_a_plant
$ draw
!~ PLANT
? 2

== drawing_after_picks_given_and_of_a_file
$ draw examples/sample.plant --after 0 --picks p.txt
!~ the picks are given, so they cannot be those of a file too
? 2

== explore_of_an_image
$ explore none.plant image script
!~ unexpected argument 'script'
? 2

== explore_without_a_script
$ explore none.plant
!~ <SCRIPT>
? 2

== format_with_control_bytes
$ trace $'--format=c\x07sv' examples/sample.plant
!~ error: invalid value 'c\x07sv' for '--format <FORMAT>'
? 2

== format_without_an_image
$ format examples/sample.plant
!~ IMAGE
? 2

== image_inspected_by_itself
$ inspect image image
!~ the image cannot be the file from which the plant is read
? 2

== image_over_the_plant
The plant is no image, and would be lost.
$ format plant plant
!~ the image cannot be the file from which the plant is read
? 2
-- plant
atom A
place p init
place q
port t
trans t from p to q
connector c A.t
++ plant unchanged

== image_over_the_script
$ run examples/sample.plant script script
!~ the image cannot be the file from which the plant or the script is read
? 2

== inspect_of_two_plants
$ inspect image examples/sample.plant examples/sample.plant
!~ error
? 2

== inspect_without_an_image
$ inspect
!~ IMAGE
? 2

== machines_of_an_unknown_atom
$ draw examples/sample.plant --machines --only C
! error: the plant has no atom 'C', which '--only' names
? 2

== migrate_over_itself
$ migrate examples/sample.plant image image
!~ the new image cannot be the file of the old one
? 2

== migrate_without_a_new_image
$ migrate examples/sample.plant image
!~ NEW
? 2

== new_image_over_the_plant
$ migrate plant image plant
!~ the image cannot be the file from which the plant is read
? 2
-- plant
atom A
place p init
place q
port t
trans t from p to q
connector c A.t
++ plant unchanged

== only_of_an_unknown_atom
$ draw examples/sample.plant --only A,C
! error: the plant has no atom 'C', which '--only' names
? 2

== only_with_control_bytes
$ draw examples/sample.plant --only $'A,\x1b[31mB'
! error: the plant has no atom '\x1b[31mB', which '--only' names
? 2

== option_with_control_bytes
$ check $'--al\x1b[8ml' examples/sample.plant
!~ error: unexpected argument '--al\x1b[8ml' found
? 2

== outline_after_picks_of_a_file
$ draw examples/sample.plant --outline --picks p.txt
!~ '--after' and '--picks' cannot be with '--outline'
!~ Usage: bip_run draw [OPTIONS] <PLANT>
? 2

== outline_of_an_unknown_atom
$ draw examples/sample.plant --outline --only A,C
! error: the plant has no atom 'C', which '--only' names
? 2

== outline_of_machines
$ draw examples/sample.plant --machines --outline
!~ '--machines' cannot be with '--outline'
!~ Usage: bip_run draw [OPTIONS] <PLANT>
? 2

== outline_of_some_atoms_after_picks
$ draw examples/sample.plant --outline --only A --after 0
!~ '--after' and '--picks' cannot be with '--outline'
? 2

== picks_given_and_of_a_file
$ trace --picks p.txt examples/sample.plant 0
!~ the picks are given, so they cannot be those of a file too
!~ Usage: bip_run trace [OPTIONS] <PLANT> [PICK]...
? 2

== picks_saved_by_a_link_where_they_are_read
@ link.txt leads to p.txt
$ trace examples/sample.plant --picks p.txt --save-picks link.txt
! error: '--save-picks' leads to the file from which the plant or the picks are read
? 2
-- p.txt
0
++ p.txt unchanged

== picks_saved_on_the_standard_output
$ trace examples/sample.plant --save-picks - 0
!~ the picks cannot be saved on the standard output, where the run is printed
? 2

== picks_saved_over_the_plant
$ trace plant --save-picks plant
!~ the picks cannot be saved in the file from which the plant or the picks are read
? 2
-- plant
atom A
place p init
place q
port t
trans t from p to q
connector c A.t
++ plant unchanged

== picks_saved_over_the_plant_by_another_path
$ trace plant --save-picks ./plant 0
! error: '--save-picks' leads to the file from which the plant or the picks are read
? 2
-- plant
atom A
place p init
place q
port t
trans t from p to q
connector c A.t
++ plant unchanged

== picks_saved_where_they_are_read
$ trace examples/sample.plant --picks p.txt --save-picks p.txt
!~ the picks cannot be saved in the file from which the plant or the picks are read
? 2
-- p.txt
0
++ p.txt unchanged

== picks_without_a_file
$ trace examples/sample.plant --picks
!~ a value is required for '--picks <FILE>' but none was supplied
? 2

== plant_and_picks_on_the_standard_input
$ trace - --picks -
!~ the standard input cannot be both the plant and the picks
? 2

== plant_and_script_of_an_exploration_on_the_standard_input
$ explore - -
!~ the standard input cannot be both the plant and the script
? 2

== plant_and_script_on_the_standard_input
$ run - image -
!~ the standard input cannot be both the plant and the script
? 2

== recover_of_two_images
$ recover examples/sample.plant image image
!~ error
? 2

== recover_without_an_image
$ recover examples/sample.plant
!~ IMAGE
? 2

== restate_without_an_image
$ restate examples/sample.plant
!~ IMAGE
? 2

== run_without_a_script
$ run examples/sample.plant image
!~ SCRIPT
? 2

== serve_of_a_script
The events come from the standard input, so that no script is named.
$ serve examples/sample.plant image script
!~ script
? 2

== serve_of_the_standard_input
$ serve - image
!~ the standard input cannot be the plant: the events of the run are read there
? 2

== serve_without_an_image
$ serve examples/sample.plant
!~ IMAGE
? 2

== step_of_the_standard_input
$ step -
!~ the standard input cannot be the plant: the commands of the run are read there
!~ Usage: bip_run step [OPTIONS] <PLANT>
? 2

== trace_without_a_plant
$ trace
!~ PLANT
? 2

== why_without_a_plant
$ why
!~ required arguments were not provided
!~ Usage: bip_run why
? 2

== words_before_a_refused_plant
The words are judged before the plant is read.
$ trace - x
< place p
!~ invalid value 'x'
? 2

== words_before_the_plant
The words are judged before the plant is opened.
$ trace none.plant x
!~ invalid value 'x'
? 2
