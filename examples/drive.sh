#!/bin/bash
# Drives the level crossing of examples/crossing.plant by `bip_run serve`, from a shell.
#
#     examples/drive.sh IMAGE [MOVES]
#
# IMAGE is the file of the durable plant; where none is there, one is made. Each move is the first choice that the plant has. It is fired by its name,
# and printed once it is acknowledged. Kill it at any moment and start it again: it goes on from the last acknowledged move.
set -euo pipefail
here=$(cd "$(dirname "$0")" && pwd)
program=$here/../bip_run
plant=$here/crossing.plant
image=$1
moves=${2:-20}

# A stop leaves no part of an image: it is there whole, or it is made anew. A driver that was killed may leave a program that makes it still, as IMAGE.kilnmace-unfinished: it is waited for.
for ((tries = 0; tries < 50; tries++)); do
    [ -e "$image" ] && break
    "$program" format "$plant" "$image" --ring 64 --new >/dev/null && break
    [ -e "$image.kilnmace-unfinished" ] || [ -e "$image" ] || exit 3
    sleep 0.1
done

# Reads an answer up to its line `end`, into the array `answer`.
read_answer() {
    answer=()
    local line
    while IFS= read -r line <&"$from"; do
        [ "$line" = end ] && return 0
        answer+=("$line")
    done
    local status=0
    wait "$serving" || status=$?
    echo "the plant has ended, with status $status" >&2
    return $((status ? status : 3))
}

# Starts the plant, once no program has its image open, and reads its first answer.
start() {
    flock --shared --timeout 5 "$image" true || true
    coproc plant_serving { exec "$program" serve "$plant" "$image"; }
    serving=$plant_serving_PID
    # Copies of both ends: the shell closes its own when the plant has ended, though a last answer may still be unread.
    exec {from}<&"${plant_serving[0]}" {to}>&"${plant_serving[1]}"
    read_answer
}

# Writes one line, and reads the answer.
say() {
    echo "$*" >&"$to"
    read_answer
}

# Asks for one thing; what is refused ends the script.
ask() {
    say "$@"
    case ${answer[0]:-} in refused* | mistake*)
        echo "${answer[0]}" >&2
        exit 1 ;;
    esac
}

# A driver that was killed may leave a program that begins only now: so one that is in use is tried again.
start || { [ $? -eq 3 ] && start; }
for ((move = 0; move < moves; move++)); do
    ask room
    read -r _ _ _ _ _ free _ <<<"${answer[0]}"
    if [ "$free" -lt 8 ]; then say save; fi
    ask choices
    choice=${answer[0]#* }
    ask fire "$choice"
    fired=${answer[0]}
    ask flush
    echo "$fired"
done
echo quit >&"$to"
read_answer
wait "$serving"
