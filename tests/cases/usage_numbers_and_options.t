Numbers and options on the command line that are refused.

== after_of_letters
$ draw examples/sample.plant --after 0 x
!~ invalid value 'x' for '--after <PICK>...': a pick is digits alone, at most 18446744073709551615
!~ Usage: bip_run draw [OPTIONS] <PLANT>
? 2

== careful_of_a_restate
$ restate examples/sample.plant image --careful
!~ error: unexpected argument '--careful' found
? 2

== format_of_a_check
$ check --format csv examples/sample.plant
!~ unexpected argument '--format'
? 2

== format_unknown
$ trace --format xml examples/sample.plant 0
!~ invalid value 'xml'
!~ [possible values: lines, csv, jsonl, vcd]
? 2

== format_without_its_word
$ trace examples/sample.plant 0 --format
!~ --format <FORMAT>
? 2

== never_of_choices
$ choices examples/sample.plant 0 --never stuck
!~ error: unexpected argument '--never' found
? 2

== never_with_control_bytes
$ trace examples/sample.plant 0 --never $'\x1b]0;A.n'
! error: '--never \x1b]0;A.n': a byte is no printed ASCII character
? 2

== never_without_its_word
$ trace examples/sample.plant 0 --never
!~ error: a value is required for '--never <EXPR>' but none was supplied
? 2

== pick_blank
$ trace examples/sample.plant 0 ' 1'
!~ invalid value ' 1'
!~ Usage: bip_run trace [OPTIONS] <PLANT> [PICK]...
? 2

== pick_empty
$ trace examples/sample.plant 0 ''
!~ invalid value ''
!~ Usage: bip_run trace [OPTIONS] <PLANT> [PICK]...
? 2

== pick_hexadecimal
$ trace examples/sample.plant 0 0x1
!~ invalid value '0x1'
!~ Usage: bip_run trace [OPTIONS] <PLANT> [PICK]...
? 2

== pick_letters
$ trace examples/sample.plant 0 one
!~ invalid value 'one'
!~ Usage: bip_run trace [OPTIONS] <PLANT> [PICK]...
? 2

== pick_minus
$ trace examples/sample.plant -1
!~ invalid value '-1' for '[PICK]...': a pick is digits alone, at most 18446744073709551615
? 2

== pick_minus_behind_dashes
$ trace examples/sample.plant -- -1
!~ invalid value '-1'
? 2

== pick_past_64_bits
$ trace examples/sample.plant 0 18446744073709551616
!~ invalid value '18446744073709551616'
!~ Usage: bip_run trace [OPTIONS] <PLANT> [PICK]...
? 2

== pick_plus
$ trace examples/sample.plant 0 +1
!~ invalid value '+1'
!~ Usage: bip_run trace [OPTIONS] <PLANT> [PICK]...
? 2

== pick_point
$ trace examples/sample.plant 0 1.0
!~ invalid value '1.0'
!~ Usage: bip_run trace [OPTIONS] <PLANT> [PICK]...
? 2

== pick_with_control_bytes
$ trace examples/sample.plant $'0\x1b[A'
!~ error: invalid value '0\x1b[A' for '[PICK]...': a pick is digits alone, at most 18446744073709551615
? 2

== random_and_picks
$ trace --random 3 examples/sample.plant 0
!~ the picks are given, so they cannot be random too
!~ Usage: bip_run trace [OPTIONS] <PLANT> [PICK]...
? 2

== random_and_strict
$ trace --random 3 --strict examples/sample.plant
!~ a random pick is taken modulo the number of choices, so '--strict' cannot be with '--random <N>'
!~ Usage: bip_run trace [OPTIONS] <PLANT> [PICK]...
? 2

== random_of_letters
$ trace --random many examples/sample.plant
!~ invalid value 'many' for '--random <N>'
!~ Usage: bip_run trace [OPTIONS] <PLANT> [PICK]...
? 2

== random_past_64_bits
$ trace --random 18446744073709551616 examples/sample.plant
!~ invalid value '18446744073709551616' for '--random <N>'
? 2

== ring_4097
Words are judged before the plant.
$ format none.plant none/image --ring=4097
!~ a ring is digits alone, from 8 to 4096
? 2

== ring_7
Words are judged before the plant.
$ format none.plant none/image --ring=7
!~ a ring is digits alone, from 8 to 4096
? 2

== ring_empty
Words are judged before the plant.
$ format none.plant none/image --ring=
!~ a ring is digits alone, from 8 to 4096
? 2

== ring_hexadecimal
Words are judged before the plant.
$ format none.plant none/image --ring=0x40
!~ a ring is digits alone, from 8 to 4096
? 2

== ring_minus
Words are judged before the plant.
$ format none.plant none/image --ring=-8
!~ a ring is digits alone, from 8 to 4096
? 2

== ring_of_a_run
$ run --ring 8 examples/sample.plant image script
!~ --ring
? 2

== ring_of_an_exploration_7
Words are judged before the plant.
$ explore none.plant none.script --ring=7
!~ a ring is digits alone, from 8 to 4096
!~ explore [OPTIONS] <PLANT> <SCRIPT>
? 2

== ring_of_letters
Words are judged before the plant.
$ format none.plant none/image --ring=x
!~ a ring is digits alone, from 8 to 4096
? 2

== ring_past_64_bits
Words are judged before the plant.
$ format none.plant none/image --ring=18446744073709551624
!~ a ring is digits alone, from 8 to 4096
? 2

== ring_plus
Words are judged before the plant.
$ format none.plant none/image --ring=+8
!~ a ring is digits alone, from 8 to 4096
? 2

== ring_point
Words are judged before the plant.
$ format none.plant none/image --ring=8.0
!~ a ring is digits alone, from 8 to 4096
? 2

== saved_picks_of_choices
$ choices examples/sample.plant --save-picks run.txt
!~ unexpected argument '--save-picks'
? 2

== seed_of_letters
$ choices --random 3 --seed x examples/sample.plant
!~ invalid value 'x' for '--seed <S>'
? 2

== seed_with_picks_of_a_file
$ why --picks p.txt --seed 3 examples/sample.plant
!~ a seed is for random picks, and '--random <N>' is missing
? 2

== seed_without_random
$ trace --seed 3 examples/sample.plant
!~ a seed is for random picks, and '--random <N>' is missing
!~ Usage: bip_run trace [OPTIONS] <PLANT> [PICK]...
? 2

== seeds_and_a_pick
$ trace examples/sample.plant --summary --random 5 --seeds 1..2 7
!~ each run has random picks alone, so the pick '7' cannot be with '--seeds <A..B>'
? 2

== seeds_and_a_seed
$ trace examples/sample.plant --summary --random 5 --seed 9 --seeds 1..2
!~ each run has a seed of its own, so '--seed 9' cannot be with '--seeds <A..B>'
? 2

== seeds_and_picks_of_a_file
$ trace examples/sample.plant --summary --random 5 --picks p.txt --seeds 1..2
!~ each run has random picks alone, so '--picks p.txt' cannot be with '--seeds <A..B>'
? 2

== seeds_and_saved_picks
$ trace examples/sample.plant --summary --random 5 --save-picks run.txt --seeds 1..2
!~ a file of picks is of one run, so '--save-picks run.txt' cannot be with '--seeds <A..B>'
? 2

== seeds_backwards
$ trace examples/sample.plant --summary --random 5 --seeds 2..1
!~ invalid value '2..1' for '--seeds <A..B>': A and B are digits alone, at most 18446744073709551615, and A is at most B
? 2

== seeds_of_letters
$ trace examples/sample.plant --summary --random 5 --seeds a..b
!~ invalid value 'a..b' for '--seeds <A..B>': A and B are digits alone, at most 18446744073709551615, and A is at most B
? 2

== seeds_of_one_number
$ trace examples/sample.plant --summary --random 5 --seeds 5
!~ invalid value '5' for '--seeds <A..B>': A and B are digits alone, at most 18446744073709551615, and A is at most B
? 2

== seeds_past_64_bits
$ trace examples/sample.plant --summary --random 5 --seeds 1..18446744073709551616
!~ invalid value '1..18446744073709551616' for '--seeds <A..B>': A and B are digits alone, at most 18446744073709551615, and A is at most B
? 2

== seeds_with_one_dot
$ trace examples/sample.plant --summary --random 5 --seeds 1.2
!~ invalid value '1.2' for '--seeds <A..B>': A and B are digits alone, at most 18446744073709551615, and A is at most B
? 2

== seeds_with_three_dots
$ trace examples/sample.plant --summary --random 5 --seeds 1...2
!~ invalid value '1...2' for '--seeds <A..B>': A and B are digits alone, at most 18446744073709551615, and A is at most B
? 2

== seeds_without_a_summary
$ trace examples/sample.plant --random 5 --seeds 1..2
!~ '--seeds 1..2' is for runs that are counted, and '--summary' is missing
!~ Usage: bip_run trace [OPTIONS] <PLANT> [PICK]...
? 2

== seeds_without_an_end
$ trace examples/sample.plant --summary --random 5 --seeds 1..
!~ invalid value '1..' for '--seeds <A..B>': A and B are digits alone, at most 18446744073709551615, and A is at most B
? 2

== seeds_without_random
$ trace examples/sample.plant --summary --seeds 1..2
!~ '--seeds 1..2' is for random picks, and '--random <N>' is missing
!~ Usage: bip_run trace [OPTIONS] <PLANT> [PICK]...
? 2

== step_with_picks
$ step examples/sample.plant 0
!~ unexpected argument '0'
? 2

== step_with_picks_on_the_standard_input
$ step examples/sample.plant --picks -
!~ the standard input cannot be the picks: the commands of the run are read there
? 2

== step_without_a_plant
$ step
!~ PLANT
!~ Usage: bip_run step
? 2

== strict_drawing_without_picks
$ draw examples/sample.plant --strict
!~ '--strict' is for picks, and both '--after <PICK>...' and '--picks <FILE>' are missing
!~ Usage: bip_run draw [OPTIONS] <PLANT>
? 2

== strict_machines_without_picks
$ draw examples/sample.plant --machines --strict
!~ '--strict' is for picks, and both '--after <PICK>...' and '--picks <FILE>' are missing
!~ Usage: bip_run draw [OPTIONS] <PLANT>
? 2

== strict_of_a_recover
$ recover --strict examples/sample.plant image
!~ --strict
? 2

== strict_run_by_workers
Words are judged before the plant.
$ run none.plant none/image none --strict --workers=2
!~ workers pass over what is refused, so '--strict' cannot be with '--workers <N>'
!~ Usage: bip_run run [OPTIONS] <PLANT> <IMAGE> <SCRIPT>
? 2

== strict_step_without_picks
$ step examples/sample.plant --strict
!~ '--strict' is for picks, and '--picks <FILE>' is missing
? 2

== summary_as_waves
$ trace examples/sample.plant --summary --format vcd
!~ '--summary' counts a run and prints none of it, so '--format vcd' cannot be with it
? 2

== summary_of_choices
$ choices examples/sample.plant --summary
!~ unexpected argument '--summary' found
? 2

== summary_with_a_format
$ trace examples/sample.plant --summary --format csv
!~ '--summary' counts a run and prints none of it, so '--format csv' cannot be with it
!~ Usage: bip_run trace [OPTIONS] <PLANT> [PICK]...
? 2

== summary_with_states
$ trace examples/sample.plant --summary --states
!~ '--summary' counts a run and prints none of it, so '--states' cannot be with it
!~ Usage: bip_run trace [OPTIONS] <PLANT> [PICK]...
? 2

== until_without_its_word
$ trace examples/sample.plant 0 --until
!~ error: a value is required for '--until <EXPR>' but none was supplied
? 2

== weight_above_the_most
$ trace examples/sample.plant --random 5 --weight tick=1001
!~ invalid value 'tick=1001' for '--weight <NAME=W>': it is the name of a connector, '=' and digits alone, from 0 to 1000
? 2

== weight_below_zero
$ trace examples/sample.plant --random 5 --weight tick=-1
!~ invalid value 'tick=-1' for '--weight <NAME=W>': it is the name of a connector, '=' and digits alone, from 0 to 1000
? 2

== weight_of_a_name_with_control_bytes
$ trace examples/sample.plant --random 3 --weight $'ti\x07ck=5'
! error: '--weight ti\x07ck=5': the plant has no connector 'ti\x07ck'
? 2

== weight_of_choices
$ choices examples/sample.plant --random 5 --weight tick=1
!~ unexpected argument '--weight' found
? 2

== weight_of_letters
$ trace examples/sample.plant --random 5 --weight tick=many
!~ invalid value 'tick=many' for '--weight <NAME=W>': it is the name of a connector, '=' and digits alone, from 0 to 1000
? 2

== weight_with_control_bytes
$ trace examples/sample.plant --random 3 --weight $'tick=\x1b[5n'
!~ error: invalid value 'tick=\x1b[5n' for '--weight <NAME=W>': it is the name of a connector, '=' and digits alone, from 0 to 1000
? 2

== weight_with_two_equals_signs
$ trace examples/sample.plant --random 5 --weight tick=1=2
!~ invalid value 'tick=1=2' for '--weight <NAME=W>': it is the name of a connector, '=' and digits alone, from 0 to 1000
? 2

== weight_without_a_name
$ trace examples/sample.plant --random 5 --weight =5
!~ invalid value '=5' for '--weight <NAME=W>': it is the name of a connector, '=' and digits alone, from 0 to 1000
? 2

== weight_without_a_number
$ trace examples/sample.plant --random 5 --weight tick=
!~ invalid value 'tick=' for '--weight <NAME=W>': it is the name of a connector, '=' and digits alone, from 0 to 1000
? 2

== weight_without_an_equals_sign
$ trace examples/sample.plant --random 5 --weight tick
!~ invalid value 'tick' for '--weight <NAME=W>': it is the name of a connector, '=' and digits alone, from 0 to 1000
? 2

== weight_without_random
$ trace examples/sample.plant --weight tick=5 0
!~ '--weight tick=5' is for random picks, and '--random <N>' is missing
!~ Usage: bip_run trace [OPTIONS] <PLANT> [PICK]...
? 2

== workers_17
Words are judged before the plant.
$ run none.plant none/image none --workers=17
!~ a number of workers is digits alone, from 0 to 16
? 2

== workers_empty
Words are judged before the plant.
$ run none.plant none/image none --workers=
!~ a number of workers is digits alone, from 0 to 16
? 2

== workers_minus
Words are judged before the plant.
$ run none.plant none/image none --workers=-1
!~ a number of workers is digits alone, from 0 to 16
? 2

== workers_of_a_recover
$ recover --workers 2 examples/sample.plant image
!~ --workers
? 2

== workers_of_letters
Words are judged before the plant.
$ run none.plant none/image none --workers=x
!~ a number of workers is digits alone, from 0 to 16
? 2

== workers_past_64_bits
Words are judged before the plant.
$ run none.plant none/image none --workers=18446744073709551616
!~ a number of workers is digits alone, from 0 to 16
? 2
