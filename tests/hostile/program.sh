#!/usr/bin/env bash
# Uses `fj` as an attacker would: input and output that are closed, full or cut off, signals in the middle of a read and of a write, many runs
# side by side. Each run must end with a status and a text of docs/SCRIPT.md, and what it wrote must be a beginning of the right replies.
# Needs the built program, crates/fj/out/fj, and some ten seconds.
set -euo pipefail
cd "$(dirname "${BASH_SOURCE[0]}")/../.."
. tests/hostile/trial.bash

# A script of 200,000 lines, some 2 MB of replies.
awk 'BEGIN { print "async 1 1 2 1000000"
    for (i = 0; i < 40000; i++) print "submit 0\npoll 0 0\nend 0 ok\nstate " i "\nrelease " i }' > "$folder/script"
awk 'BEGIN { for (i = 0; i < 40000; i++) print "task " i "\nrun " i "\ndone\nstate gone normal\ndone" }' > "$folder/replies"

run replay < "$folder/script" > "$folder/out"
ended "a long script" 0 ""
cmp "$folder/replies" "$folder/out"

# Output that is closed after some bytes, a full device, and a closed descriptor.
for bytes in 0 1 1000 100000; do
    { run replay < "$folder/script"; echo "$status" > "$folder/status"; } | head -c "$bytes" > "$folder/out" || true
    status=$(cat "$folder/status")
    ended "output closed after $bytes bytes" 5 "write failed"
    begins "output closed after $bytes bytes" "$folder/out"
done
printf '%s\n' '- 5' '0 2' > "$folder/tree"
while read -r words; do
    # shellcheck disable=SC2086
    run $words < "$folder/tree" > /dev/full
    ended "fj $words, to a full device" 5 "write failed"
    # shellcheck disable=SC2086
    run $words < "$folder/tree" >&-
    ended "fj $words, to a closed descriptor" 5 "write failed"
done << 'EOF_COMMANDS'
tree
tree --workers 32
sum --from 1 --to 100 --workers 4
sum --from 1 --to 100 --workers 4 --eager
min --from 0 --to 9 --mul 7 --add 3 --mod 10
find --from 0 --to 9 --mul 7 --add 3 --mod 10 --want 9
--help
--version
EOF_COMMANDS
run replay < "$folder/script" > /dev/full
ended "a script, to a full device" 5 "write failed"
run replay < "$folder/script" >&-
ended "a script, to a closed descriptor" 5 "write failed"

# Input that is a folder, a closed descriptor, empty, or ends since its writer was killed.
for command in replay tree; do
    run $command < "$folder" > "$folder/out"
    ended "fj $command, a folder as input" 5 "read failed"
    run $command <&- > "$folder/out"
    ended "fj $command, closed input" 5 "read failed"
    run $command < /dev/null > "$folder/out"
    ended "fj $command, no input" 3 "fault: line 1"
done
{ head -c 1234567 "$folder/script"; kill -9 "$BASHPID"; } | { run replay > "$folder/out"; echo "$status" > "$folder/status"; } || true
status=$(cat "$folder/status")
ended "a writer that was killed" 3 "fault: line $(($(head -c 1234567 "$folder/script" | wc -l) + 1))"
begins "a writer that was killed" "$folder/out"

# Signals in the middle of reads and of writes: those that are ignored, and a stop with a later going on, change nothing.
slowly() {
    split -n "l/$1" --filter='cat; sleep 0.02' "$folder/script"
}
# disturb PROGRAM: sends it such signals for half a second.
disturb() {
    local signal
    for ((i = 0; i < 20; i++)); do
        for signal in STOP CONT CHLD WINCH URG; do
            kill -s "$signal" "$1" 2> /dev/null || true
        done
        sleep 0.025
    done
}
slowly 30 | exec "$fj" replay > "$folder/out" 2> "$folder/err" &
program=$!
disturb "$program"
status=0
wait "$program" || status=$?
ended "signals in the middle of a read" 0 ""
cmp "$folder/replies" "$folder/out"

# The pipe is full while the program is stopped and goes on: its reader reads nothing for so long.
mkfifo "$folder/pipe"
"$fj" replay < "$folder/script" > "$folder/pipe" 2> "$folder/err" &
program=$!
exec {reader}< "$folder/pipe"
disturb "$program"
cat <&"$reader" > "$folder/out"
exec {reader}<&-
status=0
wait "$program" || status=$?
ended "signals in the middle of a write" 0 ""
cmp "$folder/replies" "$folder/out"

# A signal that ends it ends it, in a read of a pipe that stays open as in a write to a full one, and leaves a beginning of the replies. This
# script may have been begun with the signal ignored, as by `nohup`.
for signal in HUP INT TERM KILL; do
    number=$(kill -l "$signal")
    exec {pipe}<> "$folder/pipe"
    # What an earlier run left there is no reply of this one.
    : > "$folder/out"
    env --default-signal=HUP,INT,TERM "$fj" replay < "$folder/pipe" > "$folder/out" 2> "$folder/err" &
    program=$!
    head -n 1001 "$folder/script" >&"$pipe"
    for ((i = 0; i < 1000; i++)); do
        [[ $(wc -l < "$folder/out") -lt 1000 ]] || break
        sleep 0.01
    done
    kill -s "$signal" "$program"
    status=0
    wait "$program" 2> /dev/null || status=$?
    exec {pipe}<&-
    ended "$signal in a read" $((128 + number)) ""
    begins "$signal in a read" "$folder/out"

    env --default-signal=HUP,INT,TERM "$fj" replay < "$folder/script" > "$folder/pipe" 2> "$folder/err" &
    program=$!
    exec {reader}< "$folder/pipe"
    # Once there is a byte it runs; a little later the pipe is full.
    dd bs=1 count=1 status=none <&"$reader" > "$folder/out"
    sleep 0.1
    kill -s "$signal" "$program"
    cat <&"$reader" >> "$folder/out"
    exec {reader}<&-
    status=0
    wait "$program" 2> /dev/null || status=$?
    ended "$signal in a write" $((128 + number)) ""
    [[ -s $folder/out ]] || fail "$signal in a write: nothing was written before"
    begins "$signal in a write" "$folder/out"
done

# 200 runs side by side.
head -n 5001 "$folder/script" > "$folder/short"
head -n 5000 "$folder/replies" > "$folder/wanted"
runs=()
for ((i = 0; i < 200; i++)); do
    "$fj" replay < "$folder/short" > "$folder/out.$i" 2>&1 &
    runs+=($!)
done
for i in "${!runs[@]}"; do
    wait "${runs[i]}" || fail "run $i of 200: status $?"
    cmp "$folder/wanted" "$folder/out.$i"
done
echo "each run ended as documented"
