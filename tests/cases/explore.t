`explore`: all stops of a run on an image, and what a start makes of each.

== all_that_is_behind_saved
Behind the 20 of formatting and starting: 6 of a flush of two records, 6 of two states that go in empty slots, 4 of a flush of one record, 6 of a state that goes in a full slot, and 8 of a trim of three records.
$ explore examples/sample.plant script --ring 8
stops 50 boots 200 bad 0
-- script
fire 0
fire 1
flush
save
fire 0
flush
save
trim

== atoms_away
Behind the 20 of formatting and starting: 4 of each flush of one record, 4 of a state that is stored, and 6 of a trim. A is away at each flush, and from the second one on B too.
$ explore examples/sample.plant script --ring 8
stops 42 boots 168 bad 0
-- script
begin 0
flush
back A
begin 1
flush
back A
ask A
put A
trim
begin 0
flush

== listed
Cells: 0 the identity, 1 and 2 the bases, 3 and 4 the slots of the atom, 5 to 12 the ring, in which record N is in cell 5 + N modulo 8.
Formatting syncs twice, with nothing to empty, and fills cells 1, 3 and 0, each by body, sync, gate, sync; starting syncs twice; each flush fills one cell.
A write that is cut takes half of its bytes, so that a gate is not written where it is cut itself.
Torn New, what was written stays. Torn Gates, each byte that was written or cut is a gate's that is full. Torn Mixed, what was written stays in cells of odd number.
$ explore plant script --ring 8 --list
= tests/fixtures/listed.stdout
-- plant
atom A
place s init
port p
trans p from s to s
connector go A.p
-- script
fire 0
flush
fire 0
flush

== missing_script
$ explore examples/sample.plant none.script
! file none.script
? 3

== no_event
Formatting makes 18 writes and syncs: 2 syncs, and 4 for each of the cells 1, 3, 5 and 0. Starting makes 2 syncs.
$ explore examples/sample.plant script --ring 8
stops 20 boots 80 bad 0
-- script

== on_a_terminal
@ standard error on a terminal
$ explore examples/sample.plant script --ring 8
stops 20 boots 80 bad 0
!~ 20 writes and syncs to stop at, in 4 ways each: 80 starts to try
-- script

== output_closed
@ standard output closed
$ explore examples/sample.plant script --ring 8
? 3
-- script

== output_full
@ standard output full
$ explore examples/sample.plant script --ring 8
? 3
-- script

== plant_on_the_standard_input
$ explore - script --ring=8
< atom A
< place s init
< port p
< trans p from s to s
< connector go A.p
stops 20 boots 80 bad 0
-- script
fire 0
flush

== refused_events
Nothing was copied, nothing can be dropped, and nothing is to be saved: the events make no write and no sync.
$ explore plant script --ring 8
stops 16 boots 64 bad 0
-- plant
atom A
place s init
port p
trans p from s to s
connector go A.p
-- script
put A
trim
flush

== refused_plant_before_the_script
The plant is judged before the script.
$ explore plant none.script
! plant line 3: fault 7 UnknownName
? 1
-- plant
atom A
place s
port p q

== refused_script
$ explore examples/sample.plant script --ring 8
! script line 2
? 1
-- script
fire 0
store

== saved_and_trimmed
Behind the 20 of formatting and starting: 10 of a flush of four records, 4 of a state that is stored, and 6 of a trim.
$ explore examples/sample.plant script --ring 8
stops 40 boots 160 bad 0
-- script
fire 0
fire 1
fire 0
fire 1
flush
ask A
put A
trim

== script_on_the_standard_input
$ explore examples/sample.plant - --ring 8
< fire 0
< flush
stops 24 boots 96 bad 0

== usual_ring
How many stops there are does not depend on the length of the ring.
$ explore plant script
stops 20 boots 80 bad 0
-- plant
atom A
place s init
port p
trans p from s to s
connector go A.p
-- script
fire 0
flush
