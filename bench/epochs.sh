#!/usr/bin/env bash
# Times one machine that is sealed again and again, and its seals: steps a second, and peak memory.
# Usage: bench/epochs.sh [TASKS [EVERY [EVENTS [KEEP]]]]
#   TASKS plain tasks (default 10,000,000) are submitted, polled, ended and released; after each EVERY (default 200,000) the machine, whose
#   limit is EVENTS events (default 1,048,576), is sealed. With KEEP 1 the parts are kept to the end, else each is dropped as it comes.
set -euo pipefail
cd "$(dirname "${BASH_SOURCE[0]}")/.."

tasks=${1:-10000000}
every=${2:-200000}
events=${3:-1048576}
keep=${4:-0}

. bench/loader.sh
build_loader epochs fj_machine
measured=$loader.measured
/usr/bin/time -o "$measured" -f '%M %R' "$loader" "$tasks" "$every" "$events" "$keep" > "$loader.times"
read -r count all seals sealing longest < "$loader.times"
read -r peak faults < "$measured"
awk -v tasks="$count" -v all="$all" -v seals="$seals" -v sealing="$sealing" -v longest="$longest" -v peak="$peak" -v faults="$faults" 'BEGIN {
    printf "tasks: %d  seconds: %.2f  steps/second: %.0f  seals: %d", tasks, all / 1e9, 4 * tasks / all * 1e9, seals
    if (seals > 0) printf "  microseconds a seal: %.1f, longest %.1f", sealing / seals / 1e3, longest / 1e3
    printf "  peak KiB: %d  pages touched first: %d\n", peak, faults
}'
