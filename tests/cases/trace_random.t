`trace --random`: picks by a seed.

== no_random_pick
$ trace --random 0 examples/sample.plant
state A [s] n=0
state B [s] m=0

== random_picks
The picks are xorshift64* of the seed 7, worked out apart from the program.
$ trace --random 8 --seed 7 examples/sample.plant
1 tick A.t/0
2 tick A.t/0
3 tick A.t/0
4 tick A.t/0
5 send A.t/0 B.u/0
6 tick A.t/0
7 send A.t/0 B.u/0
8 tick A.t/0
state A [s] n=8
state B [s] m=6

== random_picks_of_a_stuck_plant
Once nothing is possible, the run ends, however many picks there are.
$ trace --random 18446744073709551615 --format csv once.plant
kind,number,name,parts,values
step,1,go,A.t/0,
stuck,,,,
state,,A,q,
-- once.plant
atom A
place p init
place q
port t
trans t from p to q
connector go A.t

== random_picks_of_the_greatest_seed
$ trace --random=4 --seed=18446744073709551615 examples/sample.plant
1 tick A.t/0
2 send A.t/0 B.u/0
3 tick A.t/0
4 tick A.t/0
state A [s] n=4
state B [s] m=1

== random_picks_of_the_seed_0
The seed 0 stands for 0x9E3779B97F4A7C15.
$ trace --random 4 --seed 0 examples/sample.plant
1 tick A.t/0
2 send A.t/0 B.u/0
3 tick A.t/0
4 send A.t/0 B.u/0
state A [s] n=4
state B [s] m=3

== random_picks_saved
Each state of this plant has one choice, so any two picks take the same.
$ trace examples/light.plant --random 2 --save-picks run.txt
1 push Button.push/0 Light.switch/0 Counter.count/0
2 release Button.release/1
state Button [up]
state Light [lit]
state Counter [counting] pushes=1
++ run.txt
push Button.push/0 Light.switch/0 Counter.count/0
release Button.release/1

== random_picks_watched
The picks of random_picks, up to where A has counted four more than B remembers.
$ trace --random 8 --seed 7 examples/sample.plant --never '< 3 - A.n B.m'
1 tick A.t/0
2 tick A.t/0
3 tick A.t/0
4 tick A.t/0
state A [s] n=4
state B [s] m=0
reached 4
? 1

== random_picks_watched_for_what_never_comes
$ trace --random 8 --seed 7 examples/sample.plant --until '< 4 - A.n B.m'
1 tick A.t/0
2 tick A.t/0
3 tick A.t/0
4 tick A.t/0
5 send A.t/0 B.u/0
6 tick A.t/0
7 send A.t/0 B.u/0
8 tick A.t/0
state A [s] n=8
state B [s] m=6

== random_picks_without_a_seed
Without a seed it is 1.
$ trace --random 8 examples/sample.plant
1 send A.t/0 B.u/0
2 send A.t/0 B.u/0
3 send A.t/0 B.u/0
4 send A.t/0 B.u/0
5 tick A.t/0
6 send A.t/0 B.u/0
7 send A.t/0 B.u/0
8 send A.t/0 B.u/0
state A [s] n=8
state B [s] m=7
