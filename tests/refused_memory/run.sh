#!/usr/bin/env bash
# Refuses each allocation in turn of the commands that read a script: `fj replay` of both versions, and `fj upgrade`. Each run must end with
# status 4 and `out of memory`, its output a beginning of the whole one, or have all of that and status 0. At status 4 nothing was written, or in
# version 2 whole replies, those before a line that names a task or seals. Needs a C compiler, and the built program:
# cd crates/fj && rt run -- replay < stdin
set -euo pipefail
. "$(dirname "${BASH_SOURCE[0]}")/trial.bash"
crate=$crates/fj
fj=$crate/out/fj

# short SCRIPT: fails where a command that ran out of memory has written of a script anything but, in version 2, whole replies up to a line that
# needs memory.
short() {
    local replies
    replies=$(wc -l < "$folder/out")
    ((replies)) || [[ -s $folder/out ]] || return 0
    [[ -z $(tail -c 1 "$folder/out") && $(head -n 1 "$1") == "fj 2" ]] || fail "out of memory behind what was written"
    sed -n "$((replies + 3))p" "$1" | grep -Eq '^(submit|fork|trigger|seal)\b' || fail "out of memory at another line"
}

# try COMMAND SCRIPT WHOLE: one command, with the script and all that is written of it.
try() {
    local command=$1 script=$2 whole=$3 number status refused=0
    for ((number = 1; ; number++)); do
        rm -f "$folder/count"
        status=0
        REFUSE_AT=$number REFUSE_COUNT=$folder/count LD_PRELOAD=$folder/refuse.so \
            "$fj" "$command" < "$script" > "$folder/out" 2> "$folder/err" || status=$?
        [[ -s $folder/count ]] || { echo "allocation $number: status $status, and no count" >&2; exit 1; }
        if (($(cat "$folder/count") < number)); then
            ((status == 0)) || { echo "nothing was refused: status $status" >&2; exit 1; }
            cmp "$whole" "$folder/out"
            break
        fi
        if ((status == 4)); then
            [[ $(cat "$folder/err") == "out of memory" ]] || { echo "allocation $number: another text" >&2; exit 1; }
            head -c "$(wc -c < "$folder/out")" "$whole" | cmp - "$folder/out"
            short "$script"
            refused=$((refused + 1))
        elif ((status == 0)); then
            cmp "$whole" "$folder/out"
        else
            echo "allocation $number: status $status" >&2
            exit 1
        fi
    done
    ((number > 1)) || { echo "no allocation was seen" >&2; exit 1; }
    echo "$command: $((number - 1)) allocations, each refused in turn, $refused of them told"
}

# The stored script, what an upgrade makes of it, and the replies to that.
"$fj" upgrade < "$crate/stdin" > "$folder/named"
sed -E 's/^(task|run|skip|counted|root) ([0-9]+)$/\1 t\2/; s/^hook ([0-9]+)$/hook t\1/' "$crate/stdout" > "$folder/replies"
try replay "$crate/stdin" "$crate/stdout"
try upgrade "$crate/stdin" "$folder/named"
try replay "$folder/named" "$folder/replies"

# Replies that get longer: the room for the longest is there before the first.
printf 'async 1 1 2 8\nquiet\nsubmit 0\nstate 0\nfault 0 4294967295\nstate 0\n' > "$folder/longer"
printf 'yes\ntask 0\nstate queued 0 undone\nyes\nstate queued 0 exceptional 4294967295\n' > "$folder/replies"
try replay "$folder/longer" "$folder/replies"

# 200 names and seals, so that the table of names grows.
awk 'BEGIN { print "fj 2\nasync 1 1 2 16"; for (i = 0; i < 200; i++) print "submit a" i " 0\npoll 0 0\nend 0 ok\nrelease a" i "\nseal" }' > "$folder/sealed"
awk 'BEGIN { for (i = 0; i < 200; i++) print "task a" i "\nrun a" i "\ndone\ndone\nsealed " i " 5" }' > "$folder/replies"
try replay "$folder/sealed" "$folder/replies"
