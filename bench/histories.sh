#!/usr/bin/env bash
# Times the commands that write, check and show a history, each by itself: least seconds, events a second, peak memory; at a quarter, a half and all
# of a million events, so that growth can be seen.
# Usage: bench/histories.sh [KIND]     a load of generate.py; plain by default
set -euo pipefail
export LC_ALL=C
cd "$(dirname "${BASH_SOURCE[0]}")/.."

fj=$PWD/crates/fj/out/fj
[[ -x $fj ]] || { echo "$fj is not built: (cd crates/fj && rt run -- replay < stdin)" >&2; exit 1; }
[[ -x /usr/bin/time ]] || { echo "needs GNU's /usr/bin/time" >&2; exit 1; }
folder=$(mktemp -d)
trap 'rm -rf "$folder"' EXIT
python3 bench/generate.py "${1:-plain}" > "$folder/whole"
lines=$(($(wc -l < "$folder/whole") - 1))

# time_command NAME INPUT WORD..: runs `fj WORD..` on INPUT, several times, and prints the least time and what it comes to.
time_command() {
    local name=$1 input=$2 run TIMEFORMAT=%3R
    shift 2
    : > "$folder/seconds"
    for ((run = 0; run < ${RUNS:-5}; run++)); do
        { time "$fj" "$@" < "$input" > "$folder/written"; } 2>> "$folder/seconds"
    done
    /usr/bin/time -f %M -o "$folder/peak" "$fj" "$@" < "$input" > /dev/null
    awk -v name="$name" -v events="$events" -v seconds="$(sort -g "$folder/seconds" | head -n 1)" -v kilobytes="$(cat "$folder/peak")" \
        -v written="$(wc -c < "$folder/written")" 'BEGIN {
        printf "%-12s events: %d   seconds: %.3f   events/second: %.0f   peak memory: %.0f MiB   written: %.1f MB\n", name, events, seconds,
            (seconds > 0 ? events / seconds : 0), kilobytes / 1024, written / 1e6
    }'
}

for parts in 4 2 1; do
    # Whole rounds of four lines, as those of the plain load are.
    head -n $((1 + lines / parts / 4 * 4)) "$folder/whole" > "$folder/script"
    "$fj" trace < "$folder/script" > "$folder/history"
    events=$(($(wc -l < "$folder/history") - 1))
    time_command trace "$folder/script" trace
    time_command check "$folder/history" check
    for view in tasks stats path dot chrome svg; do
        time_command "view $view" "$folder/history" view --as "$view"
    done
done
