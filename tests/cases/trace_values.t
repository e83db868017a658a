`trace`: guards, transfers, updates and the arithmetic of 64 bits.

== delivered_before_updates
A participant takes what is delivered and then runs its updates.
$ trace plant 0
1 c A.t/0 B.u/0
state A [s] n=42
state B [s] m=41
-- plant
atom A
place s init
var n 0
port t n
trans t from s to s do n := + n 1
atom B
place s init
var m 41
port u m
trans u from s to s
connector c A.t B.u
move A.n := B.m

== guard_before_delivered
The guard of a transition is judged before values are delivered: with the 0 that is delivered to n it would not be offered.
$ trace plant 0 0
1 c A.t/0
stuck
state A [s] n=0
-- plant
atom A
place s init
var n 1
port t n
trans t from s to s when n
connector c A.t
move A.n := 0

== guard_of_any_value
Any value other than 0 holds, also a negative one.
$ trace plant 0
1 c A.t/0
state A [s] n=1
-- plant
atom A
place s init
var n 0
port t n
trans t from s to s do n := + n 1
connector c A.t
guard -9223372036854775808

== guard_over_two_that_take_part
A guard applies where every port that it names takes part: A alone is not held back by it.
$ trace plant 0 1
1 bc A.t/0
2 bc A.t/0
state A [s] n=2
state B [s] m=0
-- plant
atom A
place s init
var n 0
port t n
trans t from s to s do n := + n 1
atom B
place s init
var m 0
port u m
trans u from s to s
connector bc A.t' B.u
guard < A.n B.m

== guard_that_names_no_port
A guard that names no port always applies: with 0 the connector is never possible.
$ trace plant 0
stuck
state A [s] n=0
-- plant
atom A
place s init
var n 0
port t n
trans t from s to s do n := + n 1
connector c A.t
guard 0

== guarded_connector
A guard clause reads the values from before the firing.
$ trace plant 0 0 0
1 send A.t/0 B.u/0
2 send A.t/0 B.u/0
stuck
state A [s] n=2
state B [s] m=1
-- plant
atom A
place s init
var n 0
port t n
trans t from s to s do n := + n 1
atom B
place s init
var m 0
port u m
trans u from s to s
connector send A.t B.u
move B.m := A.n
guard < A.n 2

== guarded_transition
A transition is offered where its guard is not 0.
$ trace plant 0 0
1 tick A.t/0
stuck
state A [s] n=1
state B [s] m=0
-- plant
atom A
place s init
var n 0
port t n
trans t from s to s when ! == n 1 do n := + n 1
atom B
place s init
var m 0
port u m
trans u from s to s
connector tick A.t
connector send A.t B.u
move B.m := A.n

== guards_hold_together
Each clause that applies must hold: one of d is 0 up to n = 0, and the other from n = 2 on.
$ trace plant 0 1 1
1 c A.t/0
2 d A.t/0
3 c A.t/0
state A [s] n=3
-- plant
atom A
place s init
var n 0
port t n
trans t from s to s do n := + n 1
connector c A.t
connector d A.t
guard < 0 A.n
guard < A.n 2

== guards_of_those_that_take_part
A clause over B's variable forbids A and B together and not A alone; one over A's forbids both; one that names nothing forbids all where it is 0.
$ trace plant 0 1 2 3 4 5 6 7
1 a A.t/0
2 b A.t/0
3 b A.t/0 B.u/0
4 d A.t/0
5 d A.t/0 B.u/0
6 f A.t/0
7 g A.t/0
8 a A.t/0
state A [s] n=0
state B [s] m=0
-- plant
atom A
place s init
var n 0
port t n
trans t from s to s
atom B
place s init
var m 0
port u m
trans u from s to s
connector a A.t' B.u
guard < B.m 0
connector b A.t' B.u
guard < B.m 1
connector c A.t' B.u
guard < A.n 0
connector d A.t' B.u
guard < A.n 1
connector e A.t
guard 0
connector f A.t
guard 1
connector g A.t
guard -7

== numbers_in_expressions
A dash with digits behind it is a number, leading zeros say nothing, and -0 is 0.
$ trace plant 0
1 c A.t/0
state A [s] n=4 m=0
-- plant
atom A
place s init
var n 1
var m 1
port t
trans t from s to s do n := + -3 0000000000000000007 ; m := * m -0
connector c A.t

== operators
The operators have the values of the model.
$ trace plant 0
1 c A.t/0
state A [s] n=7 m=-21 k=0 j=28
-- plant
atom A
place s init
var n 1
var m 0
var k 5
var j 0
port t
trans t from s to s when && <= n 1 || 0 -5 do n := max 7 min 9 3 ; m := * n -3 ; k := != n 7 ; j := - n m
connector c A.t

== transfer_where_it_applies
A transfer applies only where all leaves that it names take part.
$ trace plant 0 1
1 bc A.t/0
2 bc A.t/0 B.u/0
state A [s] n=2
state B [s] m=1
-- plant
atom A
place s init
var n 0
port t n
trans t from s to s do n := + n 1
atom B
place s init
var m 0
port u m
trans u from s to s
connector bc A.t' B.u
move B.m := A.n

== updates_in_order
Each update reads what those before it left.
$ trace plant 0
1 c A.t/0
state A [s] n=3 m=4
-- plant
atom A
place s init
var n 0
var m 0
port t
trans t from s to s do n := 3 ; m := + n 1
connector c A.t

== values_exchanged
Transfers read the values from before the firing.
$ trace plant 0
1 c A.t/0 B.t/0
state A [s] n=2
state B [s] n=1
-- plant
atom A
place s init
var n 1
port t n
trans t from s to s
atom B
place s init
var n 2
port t n
trans t from s to s
connector c A.t B.t
move A.n := B.n
move B.n := A.n

== wrapping
Sums wrap at the end of 64 bits.
$ trace plant 0
1 tick A.t/0
state A [s] n=-9223372036854775808
-- plant
atom A
place s init
var n 9223372036854775807
port t n
trans t from s to s do n := + n 1
connector tick A.t
