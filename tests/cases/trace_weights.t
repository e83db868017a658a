`trace --weight`: random picks, some connectors more often than others.

== last_weight_of_a_connector
Of two weights of one connector the last counts.
$ trace examples/sample.plant --random 2 --weight tick=0 --weight send=0 --weight tick=1
1 tick A.t/0
2 tick A.t/0
state A [s] n=2
state B [s] m=0

== usual_weights
Each has the usual weight: the number modulo 200 says which comes, and not modulo 2.
$ trace --random 8 --seed 7 --weight send=100 examples/sample.plant
1 tick A.t/0
2 tick A.t/0
3 tick A.t/0
4 send A.t/0 B.u/0
5 tick A.t/0
6 send A.t/0 B.u/0
7 tick A.t/0
8 send A.t/0 B.u/0
state A [s] n=8
state B [s] m=7

== weight_of_a_nearly_right_name
$ trace --random 8 --weight tik=5 --explain examples/sample.plant
! error: '--weight tik=5': the plant has no connector 'tik'
!   did you mean 'tick'?
? 2

== weight_of_an_unknown_connector
The first weight that names no connector is told, before anything is printed or saved.
$ trace examples/sample.plant --random 2 --weight tick=1 --weight tock=3 --save-picks run.txt
! error: '--weight tock=3': the plant has no connector 'tock'
? 2
-- run.txt
older
++ run.txt unchanged

== weight_of_an_unknown_connector_and_a_bad_watch
What a run is watched for is judged first.
$ trace examples/sample.plant --random 2 --weight tock=3 --never A
! error: '--never A': a name is of no variable, which is written ATOM.VAR, and a place is written at ATOM PLACE
? 2

== weight_of_zero
A connector of the weight 0 is never picked while another has a choice.
$ trace examples/sample.plant --random 3 --weight tick=0
1 send A.t/0 B.u/0
2 send A.t/0 B.u/0
3 send A.t/0 B.u/0
state A [s] n=3
state B [s] m=2

== weights_after_picks_of_a_file
The picks of the file are taken as they are, and the random ones by weights.
$ trace examples/sample.plant --picks p.txt --random 2 --weight tick=0
1 tick A.t/0
2 send A.t/0 B.u/0
3 send A.t/0 B.u/0
state A [s] n=3
state B [s] m=2
-- p.txt
0

== weights_by_another_seed
The greatest weight, and the least above 0.
$ trace examples/sample.plant --random 12 --seed 12345 --weight send=1 --weight tick=1000
1 tick A.t/0
2 tick A.t/0
3 tick A.t/0
4 tick A.t/0
5 tick A.t/0
6 tick A.t/0
7 tick A.t/0
8 tick A.t/0
9 tick A.t/0
10 tick A.t/0
11 tick A.t/0
12 tick A.t/0
state A [s] n=12
state B [s] m=0

== weights_of_connectors_with_several_choices
A number picks a connector by its remainder, and one of its choices by the rest. Once B stands at t, `two` has no choice and no weight.
$ trace p.plant --random 16 --seed 3 --weight one=30 --weight two=50 --weight three=20
1 three A.q/3
2 one A.p/0
3 one A.p/2
4 two B.r/1
5 one A.p/0
6 one A.p/2
7 two B.r/1
8 two B.r/0
9 one A.p/1
10 one A.p/1
11 one A.p/1
12 one A.p/1
13 one A.p/1
14 three A.q/3
15 one A.p/0
16 three A.q/3
state A [s] n=0
state B [t]
-- p.plant
atom A
place s init
var n 0
port p
port q
trans p from s to s do n := + n 1
trans p from s to s do n := + n 10
trans p from s to s do n := + n 100
trans q from s to s do n := 0
atom B
place s init
place t
port r
trans r from s to t
trans r from s to s
connector one A.p
connector two B.r
connector three A.q

== weights_of_three_to_one
Each number modulo 400 is below 300 for a tick, by the numbers of the seed 1.
$ trace examples/sample.plant --random 10 --weight tick=300
1 send A.t/0 B.u/0
2 send A.t/0 B.u/0
3 tick A.t/0
4 tick A.t/0
5 tick A.t/0
6 tick A.t/0
7 send A.t/0 B.u/0
8 tick A.t/0
9 send A.t/0 B.u/0
10 tick A.t/0
state A [s] n=10
state B [s] m=8

== weights_save_what_they_fire
A run by weights is repeated from what it saved.
$ trace examples/sample.plant --random 2 --weight tick=0 --save-picks run.txt
1 send A.t/0 B.u/0
2 send A.t/0 B.u/0
state A [s] n=2
state B [s] m=1
++ run.txt
send A.t/0 B.u/0
send A.t/0 B.u/0

== weights_that_leave_nothing
Both connectors could be fired, but no weight is left.
$ trace examples/sample.plant --random 3 --weight tick=0 --weight send=0
stuck by weights
state A [s] n=0
state B [s] m=0

== weights_that_leave_nothing_as_csv
The row says by what the run is stuck.
$ trace examples/sample.plant --random 3 --format csv --weight tick=0 --weight send=0
kind,number,name,parts,values
stuck,,weights,,
state,,A,s,n=0
state,,B,s,m=0

== weights_that_leave_nothing_as_jsonl
The object says by what the run is stuck.
$ trace examples/sample.plant --random 3 --format jsonl --weight tick=0 --weight send=0
{"kind":"stuck","by":"weights"}
{"kind":"state","atom":"A","places":["s"],"variables":{"n":0}}
{"kind":"state","atom":"B","places":["s"],"variables":{"m":0}}

== weights_that_leave_nothing_as_vcd
The comment says by what the run is stuck.
$ trace examples/sample.plant --random 3 --format vcd --weight tick=0 --weight send=0
$version Kilnmace $end
$timescale 1 ns $end
$scope module A $end
$var wire 1 p0_0 s $end
$var integer 64 v0_0 n $end
$upscope $end
$scope module B $end
$var wire 1 p1_0 s $end
$var integer 64 v1_0 m $end
$upscope $end
$enddefinitions $end
#0
$dumpvars
1p0_0
b0 v0_0
1p1_0
b0 v1_0
$end
$comment stuck by weights $end
#1

== weights_that_leave_nothing_in_numbers
A run that is stuck by weights is not stuck for a watch.
$ trace examples/sample.plant --summary --random 3 --never stuck --weight tick=0 --weight send=0
stuck by weights
fired 0 of 3
connector tick 0
connector send 0
transition A.t/0 0
transition B.u/0 0
variable A.n 0..0
variable B.m 0..0
never connector tick
never connector send
never transition A.t/0
never transition B.u/0

== weights_that_leave_nothing_of_a_seed
Each seed has its line.
$ trace examples/sample.plant --summary --random 3 --seeds 1..2 --weight tick=0 --weight send=0
seed 1 stuck by weights
seed 2 stuck by weights
fired 0 of 6
connector tick 0
connector send 0
transition A.t/0 0
transition B.u/0 0
variable A.n 0..0
variable B.m 0..0
never connector tick
never connector send
never transition A.t/0
never transition B.u/0

== weights_that_leave_nothing_with_states
The line comes behind the states at the start.
$ trace examples/sample.plant --random 3 --states --weight tick=0 --weight send=0
state A [s] n=0
state B [s] m=0
stuck by weights

== weights_that_leave_nothing_with_states_as_csv
The row has the state, too.
$ trace examples/sample.plant --random 3 --states --format csv --weight tick=0 --weight send=0
kind,number,name,parts,values,A,A.n,B,B.m
start,,,,,s,0,s,0
stuck,,weights,,,s,0,s,0

== weights_where_nothing_is_possible
After the third push nothing is possible, and that is what the run is stuck by.
$ trace examples/light.plant --random 9 --weight push=7 --weight release=1
1 push Button.push/0 Light.switch/0 Counter.count/0
2 release Button.release/1
3 push Button.push/0 Light.switch/1 Counter.count/0
4 release Button.release/1
5 push Button.push/0 Light.switch/0 Counter.count/0
6 release Button.release/1
stuck
state Button [up]
state Light [lit]
state Counter [counting] pushes=3
