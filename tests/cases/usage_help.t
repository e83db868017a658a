The pages of help, the version, and words that are no command.

== all_of_trace
$ trace --all examples/sample.plant
!~ error: unexpected argument '--all' found
? 2

== help
$ --help
~ check
~ choices
~ trace
~ Exit status
~ bip_run trace examples/sample.plant 0 1 0 1
~ Draws a plant, as a graph for Graphviz's dot
~ format
~ run
~ recover
~ backup
~ restate
~ migrate
~ image: refusal K NAME

== help_command
$ help
~ check
~ trace
~ Draws a plant, as a graph for Graphviz's dot

== help_command_of_draw
$ help draw
~ PLANT
~ dot

== help_command_of_trace
$ help trace
~ PLANT
~ PICK

== help_of_backup
$ backup --help
~ IMAGE
~ FILE
~ bip_run backup sample.image sample.copy
~ copied 15 front 4
~ Exit status

== help_of_check
$ check --help
~ PLANT
~ atoms 2 connectors 2 interactions 2 rules 0
~ Exit status
~ fault 15 Memory

== help_of_choices
$ choices --help
~ PLANT
~ PICK
~ bip_run choices examples/sample.plant 0
~   1 send A.t/0 B.u/0
~ more N
~ Exit status

== help_of_draw
$ draw --help
~ PLANT
~ --machines
~ bip_run draw examples/sample.plant | dot -Tsvg -o sample.svg
~ Exit status

== help_of_explore
$ explore --help
~ bip_run explore [OPTIONS] <PLANT> <SCRIPT>
~ --ring <N>
~ --list
~ stops 24 boots 96 bad 0
~ NOT RIGHT: 
~ Exit status:

== help_of_format
$ format --help
~ PLANT
~ IMAGE
~ --new
~ --ring <N>
~ bip_run format examples/sample.plant sample.image --ring 8
~ formatted 15
~ Exit status

== help_of_inspect
$ inspect --help
~ IMAGE
~ PLANT
~ --records
~ --states
~ bip_run inspect sample.image examples/sample.plant
~ boots to L
~ Exit status

== help_of_migrate
$ migrate --help
~ PLANT
~ OLD
~ NEW
~ --ring
~ migrated 4
~ new: refusal 2 NewSize
~ Exit status

== help_of_recover
$ recover --help
~ PLANT
~ IMAGE
~ bip_run recover examples/sample.plant sample.image
~ front 4 4 1
~ Exit status
~ --careful
~ Refuses an image that 'inspect' doubts, before anything in it is changed

== help_of_restate
$ restate --help
~ PLANT
~ IMAGE
~ bip_run restate examples/sample.plant sample.image > later.plant
~ Exit status

== help_of_run
$ run --help
~ PLANT
~ IMAGE
~ SCRIPT
~ 'ask ATOM' copies
~ 'put ATOM' has its last copy stored
~ bip_run run examples/sample.plant sample.image -
~ flushed 2
~ front 2 2 1
~ Exit status
~ --workers
~ 'by T'
~ --strict
~ So --strict and --workers exclude each other.
~ --careful
~ Refuses an image that 'inspect' doubts, before anything in it is changed

== help_of_serve
$ serve --help
~ PLANT
~ IMAGE
~ Then it reads a line of the
~ why [CONNECTOR]
~ It does not flush
~ bip_run serve examples/sample.plant sample.image
~ flushed 1
~ front 1 1 1
~ Exit status
~ --explain
~ --careful
~ Refuses an image that 'inspect' doubts, before anything in it is changed

== help_of_step
$ step --help
~ PLANT
~ back        takes the last firing back
~ save FILE
~ fire NAME
~ until NAME
~ printf '0\nquit\n' | bip_run step examples/sample.plant
~ Exit status

== help_of_trace
$ trace --help
~ PLANT
~ PICK
~ stuck
~ Exit status
~ --random <N>
~ --seed <S>
~ --never <EXPR>
~ --until <EXPR>

== help_of_why
$ why --help
~ line for each reason
~ Exit status
~ --random <N>

== help_output_closed
Help that can't be printed.
@ standard output closed
$ --help
? 3

== help_short
$ -h
~ check
~ trace
~ Draws a plant, as a graph for Graphviz's dot

== help_short_of_trace
$ trace -h
Runs a plant from its first state, and prints the run

Usage: bip_run trace [OPTIONS] <PLANT> [PICK]...

Arguments:
  <PLANT>    The file with the text of the plant, or - for the standard input
  [PICK]...  Which of the state's choices is fired, from 0

Options:
      --format <FORMAT>    How the run is printed [default: lines] [possible values: lines, csv, jsonl, vcd]
      --states             Prints the state at the start and after each firing, too
      --summary            Counts what comes in the run, and what never comes, and prints none of it
      --picks <FILE>       Takes the picks from a file, one on a line, or from the standard input, where FILE is -
      --strict             Refuses a pick whose number is past the list of choices
      --save-picks <FILE>  Saves what is fired in a file that '--picks' can read
      --never <EXPR>       Ends the run where EXPR holds, or nothing is possible for 'stuck', with status 1
      --until <EXPR>       Ends the run where EXPR holds, or nothing is possible for 'stuck'
      --random <N>         Picks at random, N times
      --seed <S>           Which random picks: the same seed gives the same ones; without it the seed is 1
      --seeds <A..B>       With '--summary': a run for each seed from A to B, both included, N picks each
      --weight <NAME=W>    Picks at random by weights: the connector NAME has W, and each other one 100
      --explain            Tells more of a fault below its line, as it is done on a terminal
  -h, --help               Print help (see more with '--help')

== no_words
$
!~ Usage: bip_run
? 2

== unknown_command
$ fire
!~ fire
!~ Usage: bip_run
? 2

== unknown_option
$ check --fast examples/sample.plant
!~ --fast
? 2

== version
$ --version
bip_run 0.1.0 (proved with rattle-kit-13f logic dac8208d650f15bf)

== version_short
$ -V
bip_run 0.1.0 (proved with rattle-kit-13f logic dac8208d650f15bf)
