#!/usr/bin/env bash
# Times loops over rows in memory, by fj_each with 1, 2 and 4 workers and by a plain loop, beside rayon: for each query and size a line with the
# milliseconds of each, least and median. Ours is built as unproved.sh does: nothing of it is proved.
# Usage: bench/each.sh [QUERY..]      QUERY is scan, group, build, probe or find (default: all of them)
# RUNS=N ROWS="N .." bench/each.sh    the runs of each, and the numbers of rows (default: 21; 1000 100000 10000000)
set -euo pipefail
export LC_ALL=C
cd "$(dirname "${BASH_SOURCE[0]}")/.."

runs=${RUNS:-21}
. bench/loader.sh
. bench/unproved.sh
lay_out_loader each fj_each
folder=$(dirname "$(dirname "$loader")")
optimise_loader

rayon=
if build_rayon each; then rayon=$folder/rayon/release/each; else echo "no rayon (Debian: librust-rayon-dev): it is left out"; fi

# time_one NAME PROGRAM QUERY WORKERS ROWS: the milliseconds; the answer must be the same for all.
time_one() {
    local least median answer
    read -r least median answer < <("$2" "$3" "$4" "$5" "$runs")
    if [[ ${due:=$answer} != "$answer" ]]; then echo "$1 $3: $answer, and not $due" >&2; exit 1; fi
    awk -v name="$1" -v least="$least" -v median="$median" 'BEGIN { printf "  %s %.3f (%.3f)", name, least / 1e6, median / 1e6 }'
}

queries=("$@")
if [[ ${#queries[@]} = 0 ]]; then queries=(scan group build probe find); fi
for query in "${queries[@]}"; do
    for rows in ${ROWS:-1000 100000 10000000}; do
        due=
        printf '%s, %d rows:' "$query" "$rows"
        time_one loop "$program" "$query" 0 "$rows"
        for workers in 1 2 4; do time_one "$workers" "$program" "$query" "$workers" "$rows"; done
        if [[ $rayon ]]; then
            time_one rayon-loop "$rayon" "$query" 0 "$rows"
            for workers in 1 2 4; do time_one "rayon-$workers" "$rayon" "$query" "$workers" "$rows"; done
        fi
        echo
    done
done
