#!/usr/bin/env bash
# Times `fj replay` on a generated script: seconds, lines a second, peak memory. Beside it the plain C program, if there is a compiler.
# Usage: bench/run.sh [KIND [ROUNDS [SIZE]]]     KIND is plain (default), polls, tree, chain, churn, queues or refusals
# RUNS=N bench/run.sh ..     the least seconds of N runs are printed (default: 5)
set -euo pipefail
export LC_ALL=C
cd "$(dirname "${BASH_SOURCE[0]}")/.."

kind=${1:-plain}
runs=${RUNS:-5}
fj=crates/fj/out/fj

if [[ ! -x $fj ]]; then
    echo "$fj is not built: run 'cd crates/fj && rt run -- replay < stdin' first" >&2
    exit 1
fi

folder=$(mktemp -d)
trap 'rm -rf "$folder"' EXIT
plain=
if command -v cc > /dev/null; then
    plain=$folder/plain
    cc -std=c11 -O2 -Wall -Wextra -o "$plain" bench/plain.c
fi
python3 bench/generate.py "$kind" "${@:2}" > "$folder/script"
steps=$(($(wc -l < "$folder/script") - 1))

# once NAME COMMAND..: one run. The replies go to NAME.replies, and a line with the seconds to the end of NAME.seconds.
once() {
    local name=$folder/$1 TIMEFORMAT=%3R
    { time "${@:2}" < "$folder/script" > "$name.replies" 2> "$name.errors"; } 2>> "$name.seconds" || { cat "$name.errors" >&2; return 1; }
}

# peak COMMAND..: the peak memory in kilobytes, of one run more. GNU's time tells it.
peak() {
    if /usr/bin/time -f %M true 2> /dev/null; then
        /usr/bin/time -f %M -o "$folder/peak" "$@" < "$folder/script" > /dev/null
        cat "$folder/peak"
    else
        echo unknown
    fi
}

# show NAME PEAK: the figures.
show() {
    sort -g "$folder/$1.seconds" | head -n 1 | awk -v name="$1" -v steps="$steps" -v peak="$2" '{
        rate = $1 > 0 ? sprintf("%.0f", steps / $1) : "?"
        memory = peak == "unknown" ? peak : sprintf("%.1f MiB", peak / 1024)
        printf "%-6s seconds: %.3f   lines/second: %s   peak memory: %s\n", name, $1, rate, memory
    }'
}

# The two programs take turns, so that what else runs on the machine slows both.
for ((run = 0; run < runs; run++)); do
    once fj "$fj" replay
    if [[ $plain ]]; then once plain "$plain"; fi
done

replied=$(wc -l < "$folder/fj.replies")
refused=$(grep -c '^refused ' "$folder/fj.replies" || true)
if [[ $replied -ne $steps ]]; then
    echo "$steps step lines, but $replied replies" >&2
    exit 1
fi
if [[ $kind != refusals && $refused -ne 0 ]]; then
    echo "$refused steps were refused" >&2
    exit 1
fi
echo "step lines: $steps   refused: $refused"
show fj "$(peak "$fj" replay)"
if [[ $plain ]]; then
    cmp "$folder/fj.replies" "$folder/plain.replies"
    show plain "$(peak "$plain")"
else
    echo "no C compiler: the plain program is left out"
fi
