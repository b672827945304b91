#!/usr/bin/env bash
# Refuses each allocation of the commands that do a job, and of those that read a history, in turn. Each run must give the value with status 0, or
# end with status 4 and `out of memory` and write nothing. Then refuses the start of each thread in turn, with the second of these ends every time.
# Needs a C compiler, and the built program: cd crates/fj && rt run -- replay < stdin
set -euo pipefail
. "$(dirname "${BASH_SOURCE[0]}")/trial.bash"
fj=$crates/fj/out/fj

# try VALUE INPUT ARGUMENT..: one command.
try() {
    local value=$1 input=$2 number status refused=0
    shift 2
    for ((number = 1; ; number++)); do
        rm -f "$folder/count"
        status=0
        printf %b "$input" |
            timeout 60 env REFUSE_AT=$number REFUSE_COUNT="$folder/count" LD_PRELOAD="$folder/refuse.so" \
                "$fj" "$@" > "$folder/out" 2> "$folder/err" || status=$?
        [[ -s $folder/count ]] || fail "$*: allocation $number: status $status, and no count"
        if ((status == 4)); then
            [[ $(cat "$folder/err") == "out of memory" && ! -s $folder/out ]] || fail "$*: allocation $number: another text"
            refused=$((refused + 1))
        else
            ((status == 0)) || fail "$*: allocation $number: status $status"
            [[ $(cat "$folder/out") == "$value" ]] || fail "$*: allocation $number: another value"
        fi
        (($(cat "$folder/count") >= number)) || break
    done
    ((status == 0)) || fail "$*: nothing was refused: status $status"
    echo "$*: $((number - 1)) allocations, each refused in turn, $refused of them told"
}

for way in '' --eager; do
    # shellcheck disable=SC2086
    {
        try 5050 '' sum --from 1 --to 100 --workers 2 $way
        try '0 1' '' min --from 0 --to 9 --mul 7 --add 3 --mod 10 --workers 2 $way
        try 8 '' find --from 0 --to 9 --mul 7 --add 3 --mod 10 --want 9 --workers 2 $way
    }
done
try 17 '- 5\n0 2\n0 3\n1 4\n' tree --workers 2

history='async 1 1 8 64\nacc 0 sub 0 completer - 0 relay\nout 0 0\nend 0 0\nfire 0 zero\nhooked 0\nsettle 0 normal\n'
try 'ok 6' "$history" check
for view in tasks stats path dot chrome svg; do
    try "$(printf %b "$history" | "$fj" view --as "$view")" "$history" view --as "$view"
done

# refuse_starts VALUE INPUT WORKERS ARGUMENT..: one command, which starts a thread for each worker and no other.
refuse_starts() {
    local value=$1 input=$2 workers=$3 number status
    shift 3
    for ((number = 1; number <= workers + 1; number++)); do
        status=0
        printf %b "$input" |
            timeout 60 env REFUSE_THREAD=$number LD_PRELOAD="$folder/refuse.so" "$fj" "$@" --workers "$workers" \
                > "$folder/out" 2> "$folder/err" || status=$?
        if ((number <= workers)); then
            ((status == 4)) || fail "$*: thread $number: status $status"
            [[ $(cat "$folder/err") == "out of memory" && ! -s $folder/out ]] || fail "$*: thread $number: another text"
        else
            ((status == 0)) || fail "$*: $workers threads: status $status"
            [[ $(cat "$folder/out") == "$value" ]] || fail "$*: $workers threads: another value"
        fi
    done
    echo "$*: $workers threads, the start of each refused in turn"
}

refuse_starts 5050 '' 1 sum --from 1 --to 100
refuse_starts 5050 '' 4 sum --from 1 --to 100
refuse_starts 5050 '' 32 sum --from 1 --to 100
refuse_starts 5050 '' 4 sum --from 1 --to 100 --eager
refuse_starts 17 '- 5\n0 2\n0 3\n1 4\n' 4 tree
