`check`: where the text comes from and where the answer goes; the plants of examples/.

== every_line_form
Each kind of line in each of its forms.
$ check plant
atoms 2 connectors 3 interactions 4 rules 4
-- plant
atom A
place p init
place q
var n 007
var m -9223372036854775808
port t
port u m n
trans t from p to q
trans t from q to p when < n 3
trans u from p q to q p do n := + n 1 ; m := n
trans u from p to q when && < n 10 ! == n 3 do m := - n m
atom B
place p init
var n 1
port u n
trans u from p to p
connector one A.t
connector both A.u' B.u
guard < A.n B.n
guard 1
move B.n := + A.m A.n
prio one < both:3
prio both:1 < both:03
prio one < both:1 when B at p
maximal both
connector nested [ A.t B.u ]'

== example_atomic_broadcast
The leader alone or with both followers, and two connectors of one port each.
$ check examples/atomic_broadcast.plant
atoms 3 connectors 3 interactions 4 rules 1

== example_broadcast
$ check examples/broadcast.plant
atoms 3 connectors 2 interactions 5 rules 0

== example_buffer
$ check examples/buffer.plant
atoms 3 connectors 4 interactions 4 rules 0

== example_crossing
Two trains, a barrier and a supervisor, with six rules.
$ check examples/crossing.plant
atoms 4 connectors 8 interactions 8 rules 6

== example_elevator
$ check examples/elevator.plant
atoms 4 connectors 5 interactions 6 rules 0

== example_kiln
A burner, a door and a kiln, with one rule that has a condition.
$ check examples/kiln.plant
atoms 3 connectors 6 interactions 6 rules 1

== example_light
$ check examples/light.plant
atoms 3 connectors 2 interactions 2 rules 0

== example_philosophers
Four philosophers and four forks.
$ check examples/philosophers.plant
atoms 8 connectors 8 interactions 8 rules 0

== example_press
A press, a door and an operator, with three rules.
$ check examples/press.plant
atoms 3 connectors 7 interactions 7 rules 3

== example_sample
$ check examples/sample.plant
atoms 2 connectors 2 interactions 2 rules 0

== file_in_the_folder
$ check plant
atoms 2 connectors 2 interactions 2 rules 0
-- plant = examples/sample.plant

== folder_as_a_file
A folder can be opened, and not read.
$ check .
! file .
? 3

== memory_runs_out
Memory that runs out while the plant is made is told at line 0, and the status says that no plant is at fault.
@ memory of 380 KiB
$ check plant
! plant line 0: fault 15 Memory
? 3
-- plant = tests/fixtures/memory_runs_out.plant

== memory_runs_out_elsewhere
Memory that runs out before the plant is read.
@ memory of 176 KiB
$ check examples/sample.plant
! memory
? 3

== missing_file
A file that is not there.
$ check none.plant
! file none.plant
? 3

== one_atom_alone
An atom is a plant, also without parts and without connectors.
$ check plant
atoms 1 connectors 0 interactions 0 rules 0
-- plant
atom A

== output_closed
A standard output that is closed.
@ standard output closed
$ check examples/sample.plant
? 3

== output_full
A standard output that takes nothing.
@ standard output full
$ check examples/sample.plant
? 3

== plant_of_no_rights
@ plant has the rights 000
$ check plant
! file plant
? 3
-- plant
atom A

== refused_before_the_output
A plant that is refused prints nothing, so a closed output does no harm.
@ standard output closed
$ check -
< place p
! plant line 1: fault 4 Misplaced
? 1

== standard_error_closed
@ standard error closed
$ check plant
? 1
-- plant
atoms

== standard_error_full
@ standard error full
$ check plant
? 1
-- plant
atoms

== standard_input
A dash stands for the standard input.
$ check -
< atom A
< place s init
< var n 0
< port t n
< trans t from s to s do n := + n 1
< atom B
< place s init
< var m 0
< port u m
< trans u from s to s
< connector tick A.t
< connector send A.t B.u
< move B.m := A.n
atoms 2 connectors 2 interactions 2 rules 0

== standard_input_closed
@ standard input closed
$ check -
! file -
? 3
