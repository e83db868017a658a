`trace --states`: the state after each step, in lines and in formats.

== states_as_csv
$ trace --states --format csv examples/sample.plant 0 1
kind,number,name,parts,values,A,A.n,B,B.m
start,,,,,s,0,s,0
step,1,tick,A.t/0,,s,1,s,0
step,2,send,A.t/0 B.u/0,B.m=1,s,2,s,1

== states_as_json_lines
$ trace --format jsonl --states examples/sample.plant 0 1
{"kind":"start","states":[{"atom":"A","places":["s"],"variables":{"n":0}},{"atom":"B","places":["s"],"variables":{"m":0}}]}
{"kind":"step","number":1,"connector":"tick","participants":[{"atom":"A","port":"t","transition":0,"delivered":{}}],"states":[{"atom":"A","places":["s"],"variables":{"n":1}},{"atom":"B","places":["s"],"variables":{"m":0}}]}
{"kind":"step","number":2,"connector":"send","participants":[{"atom":"A","port":"t","transition":0,"delivered":{}},{"atom":"B","port":"u","transition":0,"delivered":{"m":1}}],"states":[{"atom":"A","places":["s"],"variables":{"n":2}},{"atom":"B","places":["s"],"variables":{"m":1}}]}

== states_in_lines
$ trace --states examples/sample.plant 0 1
state A [s] n=0
state B [s] m=0
1 tick A.t/0
state A [s] n=1
state B [s] m=0
2 send A.t/0 B.u/0
state A [s] n=2
state B [s] m=1

== states_of_a_stuck_run
$ trace --states plant 0 0 0
state A [p]
1 c A.t/0
state A [q]
stuck
-- plant
atom A
place p init
place q
port t
trans t from p to q
connector c A.t

== states_of_a_stuck_run_as_csv
$ trace --states --format csv plant 0 0 0
kind,number,name,parts,values,A
start,,,,,p
step,1,c,A.t/0,,q
stuck,,,,,q
-- plant
atom A
place p init
place q
port t
trans t from p to q
connector c A.t

== states_of_a_stuck_run_as_json_lines
$ trace --states --format jsonl plant 0 0 0
{"kind":"start","states":[{"atom":"A","places":["p"],"variables":{}}]}
{"kind":"step","number":1,"connector":"c","participants":[{"atom":"A","port":"t","transition":0,"delivered":{}}],"states":[{"atom":"A","places":["q"],"variables":{}}]}
{"kind":"stuck"}
-- plant
atom A
place p init
place q
port t
trans t from p to q
connector c A.t

== states_of_a_watched_run
$ trace --states examples/sample.plant --until '== A.n 2' 0 1 0 1
state A [s] n=0
state B [s] m=0
1 tick A.t/0
state A [s] n=1
state B [s] m=0
2 send A.t/0 B.u/0
state A [s] n=2
state B [s] m=1
reached 2

== states_of_a_watched_run_as_csv
$ trace --states --format csv examples/sample.plant --until '== A.n 2' 0 1 0 1
kind,number,name,parts,values,A,A.n,B,B.m
start,,,,,s,0,s,0
step,1,tick,A.t/0,,s,1,s,0
step,2,send,A.t/0 B.u/0,B.m=1,s,2,s,1
reached,2,,,,s,2,s,1

== states_of_a_watched_run_as_json_lines
$ trace --states --format jsonl examples/sample.plant --never '== 0 A.n' 0 1 0 1
{"kind":"start","states":[{"atom":"A","places":["s"],"variables":{"n":0}},{"atom":"B","places":["s"],"variables":{"m":0}}]}
{"kind":"reached","number":0}
? 1

== states_of_picks_of_a_file
$ trace examples/sample.plant --states --picks p.txt --save-picks run.txt
state A [s] n=0
state B [s] m=0
1 tick A.t/0
state A [s] n=1
state B [s] m=0
2 send A.t/0 B.u/0
state A [s] n=2
state B [s] m=1
-- p.txt
0
1
++ run.txt
tick A.t/0
send A.t/0 B.u/0

== states_of_random_picks
$ trace --states --format csv --random 2 --seed 1 examples/sample.plant
kind,number,name,parts,values,A,A.n,B,B.m
start,,,,,s,0,s,0
step,1,send,A.t/0 B.u/0,B.m=0,s,1,s,0
step,2,send,A.t/0 B.u/0,B.m=1,s,2,s,1

== states_of_several_watches_as_csv
$ trace --states --format csv examples/sample.plant --until A.n --never stuck 0 1 0 1
kind,number,name,parts,values,A,A.n,B,B.m
start,,,,,s,0,s,0
step,1,tick,A.t/0,,s,1,s,0
reached,1,1,,,s,1,s,0

== states_without_picks
$ trace --states examples/sample.plant
state A [s] n=0
state B [s] m=0

== waves_with_states_too
$ trace --format vcd --states examples/sample.plant
$version Kilnmace $end
$timescale 1 ns $end
$scope module A $end
$var wire 1 p0_0 s $end
$var integer 64 v0_0 n $end
$upscope $end
$scope module B $end
$var wire 1 p1_0 s $end
$var integer 64 v1_0 m $end
$upscope $end
$enddefinitions $end
#0
$dumpvars
1p0_0
b0 v0_0
1p1_0
b0 v1_0
$end
#1
