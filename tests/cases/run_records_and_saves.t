`run`: the ring of records, flushes, saved states, and what a later run goes on from.

== covered_record_dropped
A is saved behind all of its firings, and B behind none: the first record may go, and the second stays, in which B took part.
$ format examples/sample.plant image --ring 8 > ignored
$ run examples/sample.plant image script
1 tick A.t/0
2 send A.t/0 B.u/0
3 tick A.t/0
4 send A.t/0 B.u/0
flushed 4
asked A 4
stored A 4
base 2
state A [s] n=4
state B [s] m=3
front 4 4 2
-- script
fire 0
fire 1
fire 0
fire 1
flush
ask A
put A
trim

== dropped_over_restarts
The first run saves A, the second drops what may go then. With B saved too, all records may go.
$ format examples/sample.plant image --ring 8 > ignored
$ run examples/sample.plant image first > ignored
$ run examples/sample.plant image second > ignored
$ run examples/sample.plant image script
refused 9 NothingNew
asked B 2
stored B 2
base 5
state A [s] n=4
state B [s] m=3
front 4 4 5
-- first
fire 0
fire 1
fire 0
fire 1
flush
ask A
put A
-- script
trim
ask B
put B
trim
-- second
trim

== goes_on
A second run goes on where the first one ended.
$ format examples/sample.plant image --ring 8 > ignored
$ run examples/sample.plant image first > ignored
$ run examples/sample.plant image script
3 send A.t/0 B.u/0
flushed 3
state A [s] n=3
state B [s] m=2
front 3 3 1
-- first
fire 0
fire 0
flush
-- script
fire 1
flush

== goes_on_behind_what_was_saved
What was not saved is fired anew, under the same number.
$ format examples/sample.plant image --ring 8 > ignored
$ run examples/sample.plant image first > ignored
$ run examples/sample.plant image script
2 send A.t/0 B.u/0
flushed 2
state A [s] n=2
state B [s] m=1
front 2 2 1
-- first
fire 0
flush
fire 0
fire 0
-- script
fire 1
flush

== one_atom_saved
$ format examples/sample.plant image --ring 8 > ignored
$ run examples/sample.plant image script
1 tick A.t/0
2 send A.t/0 B.u/0
3 tick A.t/0
4 send A.t/0 B.u/0
flushed 4
asked A 4
stored A 4
state A [s] n=4
state B [s] m=3
front 4 4 1
-- script
fire 0
fire 1
fire 0
fire 1
flush
ask A
put A

== ring_full
A ring of 8 has room for 8 records.
$ format examples/sample.plant image --ring 8 > ignored
$ run examples/sample.plant image script
1 tick A.t/0
2 tick A.t/0
3 tick A.t/0
4 tick A.t/0
5 tick A.t/0
6 tick A.t/0
7 tick A.t/0
8 tick A.t/0
refused 4 RingFull
state A [s] n=8
state B [s] m=0
front 8 0 1
-- script
fire 0
fire 0
fire 0
fire 0
fire 0
fire 0
fire 0
fire 0
fire 0

== ring_full_of_saved_records
$ format examples/sample.plant image --ring 8 > ignored
$ run examples/sample.plant image script
1 tick A.t/0
2 tick A.t/0
3 tick A.t/0
4 tick A.t/0
5 tick A.t/0
6 tick A.t/0
7 tick A.t/0
8 tick A.t/0
flushed 8
refused 4 RingFull
flushed 8
state A [s] n=8
state B [s] m=0
front 8 8 1
-- script
fire 0
fire 0
fire 0
fire 0
fire 0
fire 0
fire 0
fire 0
flush
fire 0
flush

== ring_used_again
$ format examples/sample.plant image --ring 8 > ignored
$ run examples/sample.plant image script
1 tick A.t/0
2 tick A.t/0
3 tick A.t/0
4 tick A.t/0
5 tick A.t/0
6 tick A.t/0
7 tick A.t/0
8 tick A.t/0
flushed 8
refused 4 RingFull
asked A 8
stored A 8
base 9
9 tick A.t/0
flushed 9
state A [s] n=9
state B [s] m=0
front 9 9 9
-- script
fire 0
fire 0
fire 0
fire 0
fire 0
fire 0
fire 0
fire 0
flush
fire 0
ask A
put A
trim
fire 0
flush

== sample
$ format examples/sample.plant image --ring 8 > ignored
$ run examples/sample.plant image script
1 tick A.t/0
2 send A.t/0 B.u/0
flushed 2
3 tick A.t/0
4 send A.t/0 B.u/0
flushed 4
state A [s] n=4
state B [s] m=3
front 4 4 1
-- script
fire 0
fire 1
flush
fire 0
fire 1
flush

== save_of_all_that_is_behind
All that is acknowledged is saved, also of an atom that is away, and nothing else. A copy that was asked for before is given up. What no atom has moved since is not saved again.
$ format examples/sample.plant image --ring 8 > ignored
$ run examples/sample.plant image script
1 tick A.t/0
refused 9 NothingNew
2 send A.t/0 B.u/0
asked A 2
3 tick A.t/0
flushed 3
saved 3 A B
refused 8 Stranger
base 4
refused 9 NothingNew
4 tick A.t/0
refused 9 NothingNew
flushed 4
5 tick A.t/0 begun
flushed 5
saved 5 A
base 6
back A
state A [s] n=5
state B [s] m=1
front 5 5 6
-- script
fire 0
save
fire 1
ask A
fire 0
flush
save
put A
trim
save
fire 0
save
flush
begin 0
flush
save
trim
back A

== saved_while_the_others_step
What was asked for is the state of that moment. Both atoms step on before it is put.
$ format examples/sample.plant image --ring 8 > ignored
$ run examples/sample.plant image script
1 tick A.t/0
2 send A.t/0 B.u/0
asked A 2
asked B 1
3 send A.t/0 B.u/0
flushed 3
stored A 2
stored B 1
asked A 3
state A [s] n=3
state B [s] m=2
front 3 3 1
-- script
fire 0
fire 1
ask A
ask B
fire 1
flush
put A
put B
ask A

== saves_of_nothing
$ format examples/sample.plant image --ring 8 > ignored
$ run examples/sample.plant image script
flushed 0
flushed 0
state A [s] n=0
state B [s] m=0
front 0 0 1
-- script
flush
flush

== state_put_early
A state is put once all that it is behind is flushed, and once only.
$ format examples/sample.plant image --ring 8 > ignored
$ run examples/sample.plant image script
1 tick A.t/0
asked A 1
refused 7 Ahead(0)
flushed 1
stored A 1
nothing A
refused 9 NothingNew
refused 9 NothingNew
nothing B
state A [s] n=1
state B [s] m=0
front 1 1 1
-- script
fire 0
ask A
put A
flush
put A
put A
ask A
ask B
put B

== stuck
Where nothing is possible a fire is refused.
$ format plant image --ring 8 > ignored
$ run plant image script
1 go A.p/0
refused 1 Stuck
flushed 1
state A [b]
front 1 1 1
-- plant
atom A
place a init
place b
port p
trans p from a to b
trans p from b to a when 0
connector go A.p
-- script
fire 0
fire 0
flush

== tail_full
64 firings may be unsaved.
$ format examples/sample.plant image --ring 128 > ignored
$ run examples/sample.plant image script
= tests/fixtures/tail_full.stdout
-- script = tests/fixtures/tail_full.script

== trim_of_nothing
A state that is copied and not stored covers no record.
$ format examples/sample.plant image --ring 8 > ignored
$ run examples/sample.plant image script
refused 9 NothingNew
1 tick A.t/0
flushed 1
asked A 1
refused 9 NothingNew
state A [s] n=1
state B [s] m=0
front 1 1 1
-- script
trim
fire 0
flush
ask A
trim

== unsaved_at_its_end
What was fired behind the last save is told, and not saved.
$ format examples/sample.plant image --ring 8 > ignored
$ run examples/sample.plant image script
1 tick A.t/0
flushed 1
2 send A.t/0 B.u/0
state A [s] n=2
state B [s] m=1
front 2 1 1
-- script
fire 0
flush
fire 1

== unsaved_record_stays
A record that is fired and not flushed stays.
$ format examples/sample.plant image --ring 8 > ignored
$ run examples/sample.plant image script
1 tick A.t/0
flushed 1
asked A 1
stored A 1
2 tick A.t/0
base 2
refused 9 NothingNew
state A [s] n=2
state B [s] m=0
front 2 1 2
-- script
fire 0
flush
ask A
put A
fire 0
trim
trim
