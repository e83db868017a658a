`step`: picks of a file before the first line, and random ones.

== behind_an_empty_file_of_picks
The session begins in the first state.
$ step examples/sample.plant --picks p.txt
state A [s] n=0
state B [s] m=0
0 tick A.t/0
1 send A.t/0 B.u/0
end
-- p.txt
# nothing

== behind_picks_of_a_file
The session begins where the picks lead to. What they fired is numbered, taken back and saved with the rest.
$ step examples/sample.plant --picks p.txt
< 0
< back
< back
< save run.txt
< quit
state A [s] n=2
state B [s] m=1
0 tick A.t/0
1 send A.t/0 B.u/0
end
3 tick A.t/0
state A [s] n=3
state B [s] m=1
0 tick A.t/0
1 send A.t/0 B.u/0
end
state A [s] n=2
state B [s] m=1
0 tick A.t/0
1 send A.t/0 B.u/0
end
state A [s] n=1
state B [s] m=0
0 tick A.t/0
1 send A.t/0 B.u/0
end
saved 1 interaction to run.txt
end
end
-- p.txt
tick A.t/0
send A.t/0 B.u/0
++ run.txt
tick A.t/0

== behind_picks_of_a_missing_file
The file is named.
$ step examples/sample.plant --picks none.txt
< 0
! file none.txt
? 3

== behind_picks_of_which_one_is_refused
Nothing is printed, and no line is read.
$ step examples/sample.plant --picks p.txt
< 0
! error: p.txt:2: 'tock' is no connector, and no number within 64 bits that stands alone
? 1
-- p.txt
0
tock

== behind_picks_that_are_strict
A number past the list is refused.
$ step examples/sample.plant --picks p.txt --strict
< 0
! error: p.txt:1: pick 2, but there are 2 choices (0 to 1)
? 1
-- p.txt
2

== behind_picks_that_get_stuck
The picks that are left are passed over.
$ step examples/light.plant --picks p.txt
state Button [up]
state Light [lit]
state Counter [counting] pushes=3
stuck
end
-- p.txt
0
0
0
0
0
0
0
0

== no_random_choice
$ step examples/sample.plant
< random 0
state A [s] n=0
state B [s] m=0
0 tick A.t/0
1 send A.t/0 B.u/0
end
state A [s] n=0
state B [s] m=0
0 tick A.t/0
1 send A.t/0 B.u/0
end

== picks_of_a_file_taken_back
$ step examples/sample.plant --picks p.txt
< back
< back
< back
state A [s] n=2
state B [s] m=1
0 tick A.t/0
1 send A.t/0 B.u/0
end
state A [s] n=1
state B [s] m=0
0 tick A.t/0
1 send A.t/0 B.u/0
end
state A [s] n=0
state B [s] m=0
0 tick A.t/0
1 send A.t/0 B.u/0
end
nothing is fired yet
end
-- p.txt
0
1

== random_choices
Each state of this plant has one choice, so any three picks take the same.
$ step examples/light.plant
< random 3
state Button [up]
state Light [dark]
state Counter [counting] pushes=0
0 push Button.push/0 Light.switch/0 Counter.count/0
end
1 push Button.push/0 Light.switch/0 Counter.count/0
2 release Button.release/1
3 push Button.push/0 Light.switch/1 Counter.count/0
state Button [down]
state Light [dark]
state Counter [counting] pushes=2
0 release Button.release/1
end

== random_choices_until_it_is_stuck
$ step plant
< random 5
< random 1
state A [p]
0 c A.t/0
end
1 c A.t/0
state A [q]
stuck
end
state A [q]
stuck
end
-- plant
atom A
place p init
place q
port t
trans t from p to q
connector c A.t

== until_and_random_take_one_row_of_picks
The first two picks of the seed 1 are odd: of two choices they take the second. The third is 3 k + 1: of three it takes the second too.
$ step plant
< until full 5
< random 1
< back
< fire full
state A [s] n=0
state B [s]
0 tick B.u/0
1 count A.t/0
end
1 count A.t/0
2 count A.t/0
state A [s] n=2
state B [s]
0 tick B.u/0
1 count A.t/0
2 full A.f/1
full: can be fired
end
3 count A.t/0
state A [s] n=3
state B [s]
0 tick B.u/0
1 count A.t/0
2 full A.f/1
end
state A [s] n=2
state B [s]
0 tick B.u/0
1 count A.t/0
2 full A.f/1
end
3 full A.f/1
state A [s] n=2
state B [s]
0 tick B.u/0
1 count A.t/0
2 full A.f/1
end
-- plant
atom A
place s init
var n 0
port t
port f
trans t from s to s do n := + n 1
trans f from s to s when < 1 n
atom B
place s init
port u
trans u from s to s
connector tick B.u
connector count A.t
connector full A.f
