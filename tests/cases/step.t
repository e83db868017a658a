`step`: a plant that is driven by hand. It goes back, saves its picks and ends.

== carriage_returns
$ step examples/sample.plant
< \0\x0d
< \back\x0d
state A [s] n=0
state B [s] m=0
0 tick A.t/0
1 send A.t/0 B.u/0
end
1 tick A.t/0
state A [s] n=1
state B [s] m=0
0 tick A.t/0
1 send A.t/0 B.u/0
end
state A [s] n=0
state B [s] m=0
0 tick A.t/0
1 send A.t/0 B.u/0
end

== control_byte_in_a_word
Nothing in a line can give a command to a terminal.
$ step examples/sample.plant
< \\x1b[2J
state A [s] n=0
state B [s] m=0
0 tick A.t/0
1 send A.t/0 B.u/0
end
'\x1b[2J' is no command: help lists them
end

== help
$ step examples/sample.plant
< help
state A [s] n=0
state B [s] m=0
0 tick A.t/0
1 send A.t/0 B.u/0
end
N           fires choice N
fire NAME   fires the connector's choice, if it has just one
back        takes the last firing back
random N    fires N random choices
until NAME  fires random choices until it can be fired; until NAME N, at most N
why NAME    tells why the connector can't be fired; why alone, of each connector
state       shows the state and the choices again, as an empty line does
save FILE   saves what was fired, to be repeated by trace PLANT --picks FILE
help        lists the commands
quit        ends, as the end of the input does
end

== missing_plant
$ step none.plant
< 0
! file none.plant
? 3

== mistaken_lines
A mistaken line asks for nothing, and the run goes on.
$ step examples/sample.plant
< fly
< 0 1
< -1
< 18446744073709551616
< random
< random x
< save
< quit now
< why tick send
state A [s] n=0
state B [s] m=0
0 tick A.t/0
1 send A.t/0 B.u/0
end
'fly' is no command: help lists them
end
'1' is left over: help lists the commands
end
'-1' is no number from 0 to 18446744073709551615
end
'18446744073709551616' is no number from 0 to 18446744073709551615
end
N is missing: random N
end
'x' is no number from 0 to 18446744073709551615
end
FILE is missing: save FILE
end
'now' is left over: help lists the commands
end
'send' is left over: help lists the commands
end

== mistaken_names
A mistaken line fires nothing.
$ step examples/sample.plant
< fire
< fire lamp
< fire 0
< fire tick send
< until
< until lamp
< until 0
< until tick x
< until tick -1
< until tick 18446744073709551616
< until tick 1 2
< back
state A [s] n=0
state B [s] m=0
0 tick A.t/0
1 send A.t/0 B.u/0
end
NAME is missing: fire NAME
end
'lamp' is no connector of the plant
end
'0' is no connector of the plant
end
'send' is left over: help lists the commands
end
NAME is missing: until NAME
end
'lamp' is no connector of the plant
end
'0' is no connector of the plant
end
'x' is no number from 0 to 18446744073709551615
end
'-1' is no number from 0 to 18446744073709551615
end
'18446744073709551616' is no number from 0 to 18446744073709551615
end
'2' is left over: help lists the commands
end
nothing is fired yet
end

== on_a_terminal
A prompt stands before each command where a person types them.
@ standard input and output on a terminal
$ step examples/sample.plant
< 0
< back
< quit
state A [s] n=0
state B [s] m=0
0 tick A.t/0
1 send A.t/0 B.u/0
> 1 tick A.t/0
state A [s] n=1
state B [s] m=0
0 tick A.t/0
1 send A.t/0 B.u/0
> state A [s] n=0
state B [s] m=0
0 tick A.t/0
1 send A.t/0 B.u/0
> 
\ no line feed

== output_full
@ standard output full
$ step examples/sample.plant
< 0
? 3

== quits_before_the_end
$ step examples/sample.plant
< 0
< quit
< 1
state A [s] n=0
state B [s] m=0
0 tick A.t/0
1 send A.t/0 B.u/0
end
1 tick A.t/0
state A [s] n=1
state B [s] m=0
0 tick A.t/0
1 send A.t/0 B.u/0
end
end

== refused_pick_of_a_nearly_right_name
$ step examples/sample.plant --picks p.txt --explain
! error: p.txt:1: 'tik' is no connector, and no number within 64 bits that stands alone
!   did you mean 'tick'?
? 1
-- p.txt
tik A.t/0

== refused_plant
$ step plant
< 0
! plant line 1: fault 3 UnknownWord
? 1
-- plant
plant A

== saves
$ step examples/sample.plant
< save none.txt
< 0
< save one.txt
< 1
< save run.txt
state A [s] n=0
state B [s] m=0
0 tick A.t/0
1 send A.t/0 B.u/0
end
saved 0 interactions to none.txt
end
1 tick A.t/0
state A [s] n=1
state B [s] m=0
0 tick A.t/0
1 send A.t/0 B.u/0
end
saved 1 interaction to one.txt
end
2 send A.t/0 B.u/0
state A [s] n=2
state B [s] m=1
0 tick A.t/0
1 send A.t/0 B.u/0
end
saved 2 interactions to run.txt
end
++ none.txt
++ one.txt
tick A.t/0
++ run.txt
tick A.t/0
send A.t/0 B.u/0

== saves_in_a_missing_folder
The run goes on.
$ step examples/sample.plant
< 0
< save none/run.txt
< 1
state A [s] n=0
state B [s] m=0
0 tick A.t/0
1 send A.t/0 B.u/0
end
1 tick A.t/0
state A [s] n=1
state B [s] m=0
0 tick A.t/0
1 send A.t/0 B.u/0
end
could not save to none/run.txt
end
2 send A.t/0 B.u/0
state A [s] n=2
state B [s] m=1
0 tick A.t/0
1 send A.t/0 B.u/0
end

== saves_not_over_its_plant
$ step plant
< save plant
state A [p]
0 c A.t/0
end
could not save to plant
end
-- plant
atom A
place p init
place q
port t
trans t from p to q
connector c A.t
++ plant unchanged

== saves_not_over_its_plant_by_another_path
$ step plant
< save ./plant
state A [p]
0 c A.t/0
end
could not save to ./plant
end
-- plant
atom A
place p init
place q
port t
trans t from p to q
connector c A.t
++ plant unchanged

== saves_without_what_was_taken_back
$ step examples/sample.plant
< 0
< 0
< back
< 1
< save run.txt
state A [s] n=0
state B [s] m=0
0 tick A.t/0
1 send A.t/0 B.u/0
end
1 tick A.t/0
state A [s] n=1
state B [s] m=0
0 tick A.t/0
1 send A.t/0 B.u/0
end
2 tick A.t/0
state A [s] n=2
state B [s] m=0
0 tick A.t/0
1 send A.t/0 B.u/0
end
state A [s] n=1
state B [s] m=0
0 tick A.t/0
1 send A.t/0 B.u/0
end
2 send A.t/0 B.u/0
state A [s] n=2
state B [s] m=1
0 tick A.t/0
1 send A.t/0 B.u/0
end
saved 2 interactions to run.txt
end
++ run.txt
tick A.t/0
send A.t/0 B.u/0

== state_again
A line without words is the command state, too.
$ step examples/sample.plant
< state
<
<  	
state A [s] n=0
state B [s] m=0
0 tick A.t/0
1 send A.t/0 B.u/0
end
state A [s] n=0
state B [s] m=0
0 tick A.t/0
1 send A.t/0 B.u/0
end
state A [s] n=0
state B [s] m=0
0 tick A.t/0
1 send A.t/0 B.u/0
end
state A [s] n=0
state B [s] m=0
0 tick A.t/0
1 send A.t/0 B.u/0
end

== stuck
$ step plant
< 0
< 0
< back
state A [p]
0 c A.t/0
end
1 c A.t/0
state A [q]
stuck
end
no choice 0: nothing can be fired
end
state A [p]
0 c A.t/0
end
-- plant
atom A
place p init
place q
port t
trans t from p to q
connector c A.t

== takes_back
The last firing goes first; where nothing is left, that is told.
$ step examples/sample.plant
< 1
< 0
< back
< back
< back
state A [s] n=0
state B [s] m=0
0 tick A.t/0
1 send A.t/0 B.u/0
end
1 send A.t/0 B.u/0
state A [s] n=1
state B [s] m=0
0 tick A.t/0
1 send A.t/0 B.u/0
end
2 tick A.t/0
state A [s] n=2
state B [s] m=0
0 tick A.t/0
1 send A.t/0 B.u/0
end
state A [s] n=1
state B [s] m=0
0 tick A.t/0
1 send A.t/0 B.u/0
end
state A [s] n=0
state B [s] m=0
0 tick A.t/0
1 send A.t/0 B.u/0
end
nothing is fired yet
end

== typed_where_nobody_sees_the_answers
Neither a prompt nor the line end stands where a person types and the answers go to a file.
@ standard input on a terminal
$ step examples/sample.plant
< 0
< quit
state A [s] n=0
state B [s] m=0
0 tick A.t/0
1 send A.t/0 B.u/0
1 tick A.t/0
state A [s] n=1
state B [s] m=0
0 tick A.t/0
1 send A.t/0 B.u/0

== without_commands
$ step examples/sample.plant
state A [s] n=0
state B [s] m=0
0 tick A.t/0
1 send A.t/0 B.u/0
end
