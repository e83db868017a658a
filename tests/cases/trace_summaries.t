`trace --summary`: how often what was fired, over one seed or many.

== summary_of_a_file_of_picks
How many picks a file has is not told.
$ trace examples/sample.plant --summary --picks p.txt
fired 3
connector tick 2
connector send 1
transition A.t/0 3
transition B.u/0 1
variable A.n 0..3
variable B.m 0..1
-- p.txt
tick A.t/0
# a comment
1
0

== summary_of_a_plant_without_connectors
There is nothing to count, and the run is stuck at once.
$ trace p.plant --summary 0 0
stuck
fired 0 of 2
-- p.plant
atom A
place s init

== summary_of_a_run_that_came_to_what_must_not_hold
The status tells it, and the numbers are those up to there.
$ trace examples/light.plant --summary --random 20 --until '== Counter.pushes 3' --never '== Counter.pushes 2'
reached 3 by 2
fired 3 of 20
connector push 2
connector release 1
transition Button.push/0 2
transition Button.release/1 1
transition Light.switch/0 1
transition Light.switch/1 1
transition Counter.count/0 2
variable Counter.pushes 0..2
? 1

== summary_of_a_run_that_gets_stuck
The light is switched on, off and on again, and then the counter has no push left.
$ trace examples/light.plant --summary --random 20
stuck
fired 6 of 20
connector push 3
connector release 3
transition Button.push/0 3
transition Button.release/1 3
transition Light.switch/0 2
transition Light.switch/1 1
transition Counter.count/0 3
variable Counter.pushes 0..3

== summary_of_a_run_that_is_watched
The second push is the third move.
$ trace examples/light.plant --summary --random 20 --until '== Counter.pushes 2'
reached 3
fired 3 of 20
connector push 2
connector release 1
transition Button.push/0 2
transition Button.release/1 1
transition Light.switch/0 1
transition Light.switch/1 1
transition Counter.count/0 2
variable Counter.pushes 0..2

== summary_of_a_weight_of_an_unknown_connector
$ trace --summary --random 8 --seeds 1..2 --weight tik=5 examples/sample.plant
! error: '--weight tik=5': the plant has no connector 'tik'
? 2

== summary_of_bad_words
What is saved already stays as it is.
$ trace --summary examples/sample.plant --never '== A.k 3' --save-picks run.txt 0
! error: '--never == A.k 3': a name is of no variable, which is written ATOM.VAR, and a place is written at ATOM PLACE
? 2
-- run.txt
tick A.t/0
++ run.txt unchanged

== summary_of_given_picks
Both connectors come twice: A has counted to 4, and B has got 1 and 3.
$ trace examples/sample.plant --summary 0 1 0 1
fired 4 of 4
connector tick 2
connector send 2
transition A.t/0 4
transition B.u/0 2
variable A.n 0..4
variable B.m 0..3

== summary_of_one_seed_alone
A and B of A..B may be the same.
$ trace examples/light.plant --summary --random 4 --seeds 0..0
fired 4 of 4
connector push 2
connector release 2
transition Button.push/0 2
transition Button.release/1 2
transition Light.switch/0 1
transition Light.switch/1 1
transition Counter.count/0 2
variable Counter.pushes 0..2

== summary_of_seeds_that_are_stuck_and_watched
A run that is watched for that nothing is possible is stuck and has come to it.
$ trace examples/light.plant --summary --random 20 --seeds 1..1 --never stuck
seed 1 stuck
seed 1 reached 6
fired 6 of 20
connector push 3
connector release 3
transition Button.push/0 3
transition Button.release/1 3
transition Light.switch/0 2
transition Light.switch/1 1
transition Counter.count/0 3
variable Counter.pushes 0..3
? 1

== summary_of_seeds_that_are_watched
Each run ends after its third move, by the second of what it is watched for.
$ trace examples/light.plant --summary --random 20 --seeds 1..2 --never '== Counter.pushes 3' --until '== Counter.pushes 2'
seed 1 reached 3 by 2
seed 2 reached 3 by 2
fired 6 of 40
connector push 4
connector release 2
transition Button.push/0 4
transition Button.release/1 2
transition Light.switch/0 2
transition Light.switch/1 2
transition Counter.count/0 4
variable Counter.pushes 0..2

== summary_of_seeds_that_came_to_what_must_not_hold
A run of each seed is made, also after the first that came to it.
$ trace examples/light.plant --summary --random 20 --seeds 1..2 --never '== Counter.pushes 2'
seed 1 reached 3
seed 2 reached 3
fired 6 of 40
connector push 4
connector release 2
transition Button.push/0 4
transition Button.release/1 2
transition Light.switch/0 2
transition Light.switch/1 2
transition Counter.count/0 4
variable Counter.pushes 0..2
? 1

== summary_of_seeds_watched_for_several_things
No run came to what must not hold.
$ trace --summary --random 4 --seeds 1..3 examples/sample.plant --never '== A.n 9' --until '== A.n 2'
seed 1 reached 2 by 2
seed 2 reached 2 by 2
seed 3 reached 2 by 2
fired 6 of 12
connector tick 2
connector send 4
transition A.t/0 6
transition B.u/0 4
variable A.n 0..2
variable B.m 0..1

== summary_of_several_seeds
Each of three runs gets stuck after its sixth move.
$ trace examples/light.plant --summary --random 20 --seeds 7..9
seed 7 stuck
seed 8 stuck
seed 9 stuck
fired 18 of 60
connector push 9
connector release 9
transition Button.push/0 9
transition Button.release/1 9
transition Light.switch/0 6
transition Light.switch/1 3
transition Counter.count/0 9
variable Counter.pushes 0..3

== summary_of_the_greatest_seeds
The last seed is the greatest number of 64 bits, and the sum of what was asked for is told up to there.
$ trace examples/light.plant --summary --random 18446744073709551615 --seeds 18446744073709551614..18446744073709551615
seed 18446744073709551614 stuck
seed 18446744073709551615 stuck
fired 12 of 18446744073709551615
connector push 6
connector release 6
transition Button.push/0 6
transition Button.release/1 6
transition Light.switch/0 4
transition Light.switch/1 2
transition Counter.count/0 6
variable Counter.pushes 0..3

== summary_of_values_below_zero
The variable begins at -3 and goes down by 4 and up by 9.
$ trace p.plant --summary 0 0
fired 2 of 2
connector down 1
connector up 1
transition A.p/0 1
transition A.q/1 1
transition A.q/2 0
variable A.n -7..2
never transition A.q/2
-- p.plant
atom A
place s init
place t
var n -3
port p
port q
trans p from s to t do n := - n 4
trans q from t to s do n := + n 9
trans q from s to s
connector down A.p
connector up A.q

== summary_of_weighted_seeds
$ trace --summary --random 5 --seeds 1..2 --weight tick=300 examples/sample.plant
fired 10 of 10
connector tick 7
connector send 3
transition A.t/0 10
transition B.u/0 3
variable A.n 0..5
variable B.m 0..1

== summary_of_what_never_came
A ticks twice, and nothing is sent.
$ trace examples/sample.plant --summary 0 0
fired 2 of 2
connector tick 2
connector send 0
transition A.t/0 2
transition B.u/0 0
variable A.n 0..2
variable B.m 0..0
never connector send
never transition B.u/0

== summary_saves_its_picks
What is fired is saved, as of a run that is printed.
$ trace examples/sample.plant --summary --save-picks run.txt 0 1
fired 2 of 2
connector tick 1
connector send 1
transition A.t/0 2
transition B.u/0 1
variable A.n 0..2
variable B.m 0..1
++ run.txt
tick A.t/0
send A.t/0 B.u/0

== summary_to_a_full_output
The status says that nothing takes the numbers.
@ standard output full
$ trace examples/sample.plant --summary 0
? 3

== summary_up_to_a_pick_that_is_refused
The numbers are of what was fired before the third line.
$ trace examples/sample.plant --summary --picks p.txt
fired 2
connector tick 1
connector send 1
transition A.t/0 2
transition B.u/0 1
variable A.n 0..2
variable B.m 0..1
! error: p.txt:3: 'tock' is no connector, and no number within 64 bits that stands alone
? 1
-- p.txt
tick A.t/0
1
tock A.t/0
0

== summary_without_picks
Nothing is fired, so all that the plant has never came.
$ trace examples/sample.plant --summary
fired 0 of 0
connector tick 0
connector send 0
transition A.t/0 0
transition B.u/0 0
variable A.n 0..0
variable B.m 0..0
never connector tick
never connector send
never transition A.t/0
never transition B.u/0
