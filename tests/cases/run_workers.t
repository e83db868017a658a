`run --workers`: threads that share one plant and a script.

== no_workers
$ format examples/sample.plant image --ring 8 > ignored
$ run examples/sample.plant image script --workers 0
1 tick A.t/0
2 send A.t/0 B.u/0
flushed 2
state A [s] n=2
state B [s] m=1
front 2 2 1
-- script
fire 0
fire 1
flush

== one_worker
begin is worked to its end and ask saves the atom whole, so that put and back ask for nothing: both records may go then.
$ format examples/sample.plant image --ring 64 > ignored
$ run examples/sample.plant image script --workers 1
state A [s] n=3
state B [s] m=1
front 3 2 3
by 3
-- script
begin 0
put A
fire 1
flush
ask A
put A
ask B
back A
trim
fire 0

== workers_go_on
by counts what was fired by the workers, and front what was ever fired on the image.
$ format examples/sample.plant image --ring 8 > ignored
$ run examples/sample.plant image first > ignored
$ run examples/sample.plant image script --workers 2
state A [s] n=5
state B [s] m=1
front 5 2 1
by 3
-- first
fire 0
fire 1
flush
-- script
fire 0
fire 0
fire 0

== workers_on_a_terminal
Nothing is told of a run that is done before the first line would be shown.
$ format examples/sample.plant image --ring 64 > ignored
@ standard error on a terminal
$ run examples/sample.plant image script --workers 3
state A [s] n=6
state B [s] m=0
front 6 0 1
by 6
-- script
fire 0
fire 0
fire 0
fire 0
fire 0
fire 0

== workers_pass_over_refusals
The ring has room for eight of the ten.
$ format examples/sample.plant image --ring 8 > ignored
$ run examples/sample.plant image script --workers 16
state A [s] n=8
state B [s] m=0
front 8 0 1
by 8
-- script
fire 0
fire 0
fire 0
fire 0
fire 0
fire 0
fire 0
fire 0
fire 0
fire 0

== workers_share_the_events
Three threads have two firings each, whichever comes first.
$ format examples/sample.plant image --ring 64 > ignored
$ run examples/sample.plant image script --workers 3
state A [s] n=6
state B [s] m=0
front 6 0 1
by 6
-- script
fire 0
fire 0
fire 0
fire 0
fire 0
fire 0

== workers_without_events
$ format examples/sample.plant image --ring 8 > ignored
$ run examples/sample.plant image script --workers 016
state A [s] n=0
state B [s] m=0
front 0 0 1
by 0
-- script
\
