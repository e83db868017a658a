`trace --format`: a run as CSV, JSON lines and waves.

== csv_to_a_full_output
@ standard output full
$ trace --format csv examples/sample.plant 0
? 3

== each_participant_gets_its_own_value
The first leaf of deal is of C, whose participant is the second one; B, which stands between both, gets nothing.
$ trace --format=jsonl plant 0 1
{"kind":"step","number":1,"connector":"deal","participants":[{"atom":"A","port":"t","transition":0,"delivered":{"n":5}},{"atom":"C","port":"t","transition":0,"delivered":{"n":7}}]}
{"kind":"step","number":2,"connector":"swap","participants":[{"atom":"A","port":"t","transition":0,"delivered":{"n":7}},{"atom":"C","port":"t","transition":0,"delivered":{"n":5}}]}
{"kind":"state","atom":"A","places":["s"],"variables":{"n":7}}
{"kind":"state","atom":"B","places":["s"],"variables":{"n":0}}
{"kind":"state","atom":"C","places":["s"],"variables":{"n":5}}
-- plant
atom A
place s init
var n 0
port t n
trans t from s to s
atom B
place s init
var n 0
port t n
trans t from s to s
atom C
place s init
var n 0
port t n
trans t from s to s
connector deal C.t A.t
move C.n := 7
move A.n := 5
connector swap A.t C.t
move A.n := C.n
move C.n := A.n

== export_that_gets_nothing_as_csv
An exported variable that no transfer assigns is not told.
$ trace --format csv plant 1
kind,number,name,parts,values
step,1,half,A.t/0 B.u/0,A.b=-9223372036854775808
state,,A,s,a=1 b=-9223372036854775808
state,,B,s,c=30 d=-9223372036854775808
-- plant
atom A
place s init
var a 1
var b -2
port t a b
trans t from s to s
atom B
place s init
var c 30
var d -9223372036854775808
port u d c
trans u from s to s
connector swap A.t B.u
move B.c := A.b
move A.b := B.d
move B.d := A.a
move A.a := B.c
connector half A.t B.u
move A.b := B.d

== export_that_gets_nothing_as_jsonl
An exported variable that no transfer assigns is not told.
$ trace --format jsonl plant 1
{"kind":"step","number":1,"connector":"half","participants":[{"atom":"A","port":"t","transition":0,"delivered":{"b":-9223372036854775808}},{"atom":"B","port":"u","transition":0,"delivered":{}}]}
{"kind":"state","atom":"A","places":["s"],"variables":{"a":1,"b":-9223372036854775808}}
{"kind":"state","atom":"B","places":["s"],"variables":{"c":30,"d":-9223372036854775808}}
-- plant
atom A
place s init
var a 1
var b -2
port t a b
trans t from s to s
atom B
place s init
var c 30
var d -9223372036854775808
port u d c
trans u from s to s
connector swap A.t B.u
move B.c := A.b
move A.b := B.d
move B.d := A.a
move A.a := B.c
connector half A.t B.u
move A.b := B.d

== four_picks_as_jsonl
What is delivered is what A had counted to before the step.
$ trace --format jsonl examples/sample.plant 0 1 0 1
{"kind":"step","number":1,"connector":"tick","participants":[{"atom":"A","port":"t","transition":0,"delivered":{}}]}
{"kind":"step","number":2,"connector":"send","participants":[{"atom":"A","port":"t","transition":0,"delivered":{}},{"atom":"B","port":"u","transition":0,"delivered":{"m":1}}]}
{"kind":"step","number":3,"connector":"tick","participants":[{"atom":"A","port":"t","transition":0,"delivered":{}}]}
{"kind":"step","number":4,"connector":"send","participants":[{"atom":"A","port":"t","transition":0,"delivered":{}},{"atom":"B","port":"u","transition":0,"delivered":{"m":3}}]}
{"kind":"state","atom":"A","places":["s"],"variables":{"n":4}}
{"kind":"state","atom":"B","places":["s"],"variables":{"m":3}}

== no_pick_as_csv
$ trace --format csv examples/sample.plant
kind,number,name,parts,values
state,,A,s,n=0
state,,B,s,m=0

== no_pick_as_jsonl
Without picks the first states are told, and no line stands before them.
$ trace --format jsonl examples/sample.plant
{"kind":"state","atom":"A","places":["s"],"variables":{"n":0}}
{"kind":"state","atom":"B","places":["s"],"variables":{"m":0}}

== no_place_marked_as_csv
Where no place is marked the parts of a state are empty.
$ trace --format csv plant
kind,number,name,parts,values
state,,A,,
-- plant
atom A
place p
place q
port t
trans t from p to q
connector c A.t

== no_place_marked_as_jsonl
Where no place is marked the list of places is empty.
$ trace --format jsonl plant
{"kind":"state","atom":"A","places":[],"variables":{}}
-- plant
atom A
place p
place q
port t
trans t from p to q
connector c A.t

== picks_of_a_file_as_csv
$ trace examples/sample.plant --format csv --picks p.txt
kind,number,name,parts,values
step,1,tick,A.t/0,
step,2,send,A.t/0 B.u/0,B.m=1
state,,A,s,n=2
state,,B,s,m=1
-- p.txt
tick A.t/0
send A.t/0 B.u/0

== refused_plant_as_csv
$ trace --format csv - 0
< atom A
< places s
! plant line 2: fault 3 UnknownWord
? 1

== sample_as_csv
$ trace --format csv examples/sample.plant 0 1 0 1
kind,number,name,parts,values
step,1,tick,A.t/0,
step,2,send,A.t/0 B.u/0,B.m=1
step,3,tick,A.t/0,
step,4,send,A.t/0 B.u/0,B.m=3
state,,A,s,n=4
state,,B,s,m=3

== sample_as_jsonl
$ trace --format=jsonl examples/sample.plant 0 1
{"kind":"step","number":1,"connector":"tick","participants":[{"atom":"A","port":"t","transition":0,"delivered":{}}]}
{"kind":"step","number":2,"connector":"send","participants":[{"atom":"A","port":"t","transition":0,"delivered":{}},{"atom":"B","port":"u","transition":0,"delivered":{"m":1}}]}
{"kind":"state","atom":"A","places":["s"],"variables":{"n":2}}
{"kind":"state","atom":"B","places":["s"],"variables":{"m":1}}

== sample_as_lines
$ trace --format lines examples/sample.plant 1
1 send A.t/0 B.u/0
state A [s] n=1
state B [s] m=0

== strict_pick_as_csv
$ trace --strict --format csv examples/sample.plant 2
kind,number,name,parts,values
! error: pick 1 of the command line: pick 2, but there are 2 choices (0 to 1)
? 1

== stuck_as_csv
The target is marked and no source, so that nothing is possible.
$ trace --format csv - 0 0
< atom A
< place p init
< place q init
< port t
< trans t from p to q
< connector go A.t
kind,number,name,parts,values
stuck,,,,
state,,A,p q,

== stuck_as_jsonl
$ trace --format jsonl - 0 0
< atom A
< place p init
< place q init
< port t
< trans t from p to q
< connector go A.t
{"kind":"stuck"}
{"kind":"state","atom":"A","places":["p","q"],"variables":{}}

== stuck_behind_a_step_as_csv
A stuck run is told behind its steps and before the states, once.
$ trace --format csv plant 3 0 0
kind,number,name,parts,values
step,1,c,A.t/0,
stuck,,,,
state,,A,q,
-- plant
atom A
place p init
place q
port t
trans t from p to q
connector c A.t

== stuck_behind_a_step_as_jsonl
A stuck run is told behind its steps and before the states, once.
$ trace --format jsonl plant 3 0 0
{"kind":"step","number":1,"connector":"c","participants":[{"atom":"A","port":"t","transition":0,"delivered":{}}]}
{"kind":"stuck"}
{"kind":"state","atom":"A","places":["q"],"variables":{}}
-- plant
atom A
place p init
place q
port t
trans t from p to q
connector c A.t

== values_in_the_order_of_exports_as_csv
Delivered values stand in the order of the exports, and not of the transfers or of the variables.
$ trace --format csv plant 0
kind,number,name,parts,values
step,1,swap,A.t/0 B.u/0,A.a=30 A.b=-9223372036854775808 B.d=1 B.c=-2
state,,A,s,a=30 b=-9223372036854775808
state,,B,s,c=-2 d=1
-- plant
atom A
place s init
var a 1
var b -2
port t a b
trans t from s to s
atom B
place s init
var c 30
var d -9223372036854775808
port u d c
trans u from s to s
connector swap A.t B.u
move B.c := A.b
move A.b := B.d
move B.d := A.a
move A.a := B.c
connector half A.t B.u
move A.b := B.d

== values_in_the_order_of_exports_as_jsonl
Delivered values stand in the order of the exports, and not of the transfers or of the variables.
$ trace --format jsonl plant 0
{"kind":"step","number":1,"connector":"swap","participants":[{"atom":"A","port":"t","transition":0,"delivered":{"a":30,"b":-9223372036854775808}},{"atom":"B","port":"u","transition":0,"delivered":{"d":1,"c":-2}}]}
{"kind":"state","atom":"A","places":["s"],"variables":{"a":30,"b":-9223372036854775808}}
{"kind":"state","atom":"B","places":["s"],"variables":{"c":-2,"d":1}}
-- plant
atom A
place s init
var a 1
var b -2
port t a b
trans t from s to s
atom B
place s init
var c 30
var d -9223372036854775808
port u d c
trans u from s to s
connector swap A.t B.u
move B.c := A.b
move A.b := B.d
move B.d := A.a
move A.a := B.c
connector half A.t B.u
move A.b := B.d

== watched_and_stuck_as_csv
$ trace --format csv plant --never stuck 0
kind,number,name,parts,values
step,1,c,A.t/0,
stuck,,,,
state,,A,q,
reached,1,,,
? 1
-- plant
atom A
place p init
place q
port t
trans t from p to q
connector c A.t

== watched_as_csv
$ trace --format csv examples/sample.plant --until '== A.n 2' 0 1 0 1
kind,number,name,parts,values
step,1,tick,A.t/0,
step,2,send,A.t/0 B.u/0,B.m=1
state,,A,s,n=2
state,,B,s,m=1
reached,2,,,

== watched_as_jsonl
A variable alone holds where it is not 0.
$ trace --format jsonl examples/sample.plant --until A.n 0 1 0 1
{"kind":"step","number":1,"connector":"tick","participants":[{"atom":"A","port":"t","transition":0,"delivered":{}}]}
{"kind":"state","atom":"A","places":["s"],"variables":{"n":1}}
{"kind":"state","atom":"B","places":["s"],"variables":{"m":0}}
{"kind":"reached","number":1}

== watched_for_several_things_as_csv
$ trace --format csv examples/sample.plant --never '== A.n 7' --until '== A.n 2' 0 1 0 1
kind,number,name,parts,values
step,1,tick,A.t/0,
step,2,send,A.t/0 B.u/0,B.m=1
state,,A,s,n=2
state,,B,s,m=1
reached,2,2,,

== watched_for_several_things_as_jsonl
$ trace --format jsonl examples/sample.plant --until B.m --never A.n 0 1 0 1
{"kind":"step","number":1,"connector":"tick","participants":[{"atom":"A","port":"t","transition":0,"delivered":{}}]}
{"kind":"state","atom":"A","places":["s"],"variables":{"n":1}}
{"kind":"state","atom":"B","places":["s"],"variables":{"m":0}}
{"kind":"reached","number":1,"watch":2}
? 1

== waves
$ trace --format vcd examples/sample.plant 0 1
$version Kilnmace $end
$timescale 1 ns $end
$scope module A $end
$var wire 1 p0_0 s $end
$var integer 64 v0_0 n $end
$upscope $end
$scope module B $end
$var wire 1 p1_0 s $end
$var integer 64 v1_0 m $end
$upscope $end
$enddefinitions $end
#0
$dumpvars
1p0_0
b0 v0_0
1p1_0
b0 v1_0
$end
#1
b1 v0_0
#2
b10 v0_0
b1 v1_0
#3

== waves_of_a_stuck_run
$ trace --format vcd plant 0 0 0
$version Kilnmace $end
$timescale 1 ns $end
$scope module A $end
$var wire 1 p0_0 p $end
$var wire 1 p0_1 q $end
$upscope $end
$enddefinitions $end
#0
$dumpvars
1p0_0
0p0_1
$end
#1
0p0_0
1p0_1
$comment stuck $end
#2
-- plant
atom A
place p init
place q
port t
trans t from p to q
connector c A.t

== waves_of_a_watched_run
$ trace --format vcd examples/sample.plant --never '== A.n 2' 0 1 0 1
$version Kilnmace $end
$timescale 1 ns $end
$scope module A $end
$var wire 1 p0_0 s $end
$var integer 64 v0_0 n $end
$upscope $end
$scope module B $end
$var wire 1 p1_0 s $end
$var integer 64 v1_0 m $end
$upscope $end
$enddefinitions $end
#0
$dumpvars
1p0_0
b0 v0_0
1p1_0
b0 v1_0
$end
#1
b1 v0_0
#2
b10 v0_0
b1 v1_0
#3
$comment reached 2 $end
? 1

== waves_of_negative_values
$ trace --format vcd plant 0 0
$version Kilnmace $end
$timescale 1 ns $end
$scope module A $end
$var wire 1 p0_0 s $end
$var integer 64 v0_0 n $end
$upscope $end
$enddefinitions $end
#0
$dumpvars
1p0_0
b101 v0_0
$end
#1
b1111111111111111111111111111111111111111111111111111111111111110 v0_0
#2
b1111111111111111111111111111111111111111111111111111111111110111 v0_0
#3
-- plant
atom A
place s init
var n 5
port t
trans t from s to s do n := - n 7
connector c A.t

== waves_of_picks_of_a_file
$ trace examples/sample.plant --format vcd --picks p.txt --save-picks run.txt
$version Kilnmace $end
$timescale 1 ns $end
$scope module A $end
$var wire 1 p0_0 s $end
$var integer 64 v0_0 n $end
$upscope $end
$scope module B $end
$var wire 1 p1_0 s $end
$var integer 64 v1_0 m $end
$upscope $end
$enddefinitions $end
#0
$dumpvars
1p0_0
b0 v0_0
1p1_0
b0 v1_0
$end
#1
b1 v0_0
#2
b10 v0_0
b1 v1_0
#3
-- p.txt
0
send A.t/0 B.u/0
++ run.txt
tick A.t/0
send A.t/0 B.u/0

== waves_of_several_watches
$ trace --format vcd examples/sample.plant --until '== A.n 7' --until '== A.n 1' 0 1 0 1
$version Kilnmace $end
$timescale 1 ns $end
$scope module A $end
$var wire 1 p0_0 s $end
$var integer 64 v0_0 n $end
$upscope $end
$scope module B $end
$var wire 1 p1_0 s $end
$var integer 64 v1_0 m $end
$upscope $end
$enddefinitions $end
#0
$dumpvars
1p0_0
b0 v0_0
1p1_0
b0 v1_0
$end
#1
b1 v0_0
#2
$comment reached 1 by 2 $end

== waves_up_to_a_refused_pick
$ trace examples/sample.plant --format vcd --picks p.txt
$version Kilnmace $end
$timescale 1 ns $end
$scope module A $end
$var wire 1 p0_0 s $end
$var integer 64 v0_0 n $end
$upscope $end
$scope module B $end
$var wire 1 p1_0 s $end
$var integer 64 v1_0 m $end
$upscope $end
$enddefinitions $end
#0
$dumpvars
1p0_0
b0 v0_0
1p1_0
b0 v1_0
$end
#1
b1 v0_0
! error: p.txt:2: 'x' is no connector, and no number within 64 bits that stands alone
? 1
-- p.txt
0
x
