#!/usr/bin/env bash
# Times a graph of nodes in layers, each of which needs up to three of the layer before, run by fj_graph with 1, 2 and 4 workers beside a plain loop:
# the milliseconds of each, least and median. It is built as unproved.sh does: nothing of it is proved.
# Usage: bench/graph.sh                    4,000 nodes of 65 and of 650 microseconds, 20,000 of one and without work, each by 64 places
# RUNS=N bench/graph.sh                    the runs of each (default: 5)
set -euo pipefail
export LC_ALL=C
cd "$(dirname "${BASH_SOURCE[0]}")/.."

runs=${RUNS:-5}
. bench/loader.sh
. bench/unproved.sh
lay_out_loader graph fj_graph
optimise_loader

while read -r layers wide rounds; do
    printf '%d nodes, %d rounds:' $((layers * wide)) "$rounds"
    for workers in 0 1 2 4; do
        "$program" "$layers" "$wide" "$rounds" "$workers" 64 "$runs" |
            awk -v workers="$workers" '{ printf "  %s %.1f (%.1f)", workers ? workers : "loop", $1 / 1e6, $2 / 1e6 }'
    done
    echo
done << 'EOF'
40 100 50000
40 100 500000
200 100 800
200 100 0
EOF
