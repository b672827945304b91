#!/usr/bin/env bash
# Times an endless service beside the JDK's pool: bodies a second, by how many are under way.
# Usage: bench/serve.sh [LOAD..]
#   LOAD is windows, lanes, work or failing (default: all of them), or soak: the peak memory of 100,000,000 bodies
# RUNS=N bench/serve.sh ..       the least time and the median of N runs (default: 5); of soak there is one
set -euo pipefail
export LC_ALL=C
cd "$(dirname "${BASH_SOURCE[0]}")/.."

runs=${RUNS:-5}

. bench/loader.sh
. bench/unproved.sh
lay_out_loader serve fj_serve
optimise_loader
java=
if command -v javac > /dev/null; then
    javac -d "$loader/java" bench/serve/Serve.java
    java="java -cp $loader/java Serve"
else
    echo "no JDK: java is left out"
fi

# rates COMMAND..: runs it so often, and prints the bodies a second of the least time and of the median.
rates() {
    local run
    for ((run = 0; run < runs; run++)); do timeout 600 "$@"; done | sort -k 3n | awk '
        { count = $1; times[NR] = $3 }
        END { printf "%.0f (%.0f)", count / times[1] * 1e9, count / times[int((NR + 1) / 2)] * 1e9 }'
}

# time_service WORKERS LANES WINDOW ENDED COUNT ROUNDS FAILING: ENDED is 1 where outcomes are told as they end, 0 where in order; one body in
# FAILING has a child that fails, 0: none.
time_service() {
    local line
    line=$(printf 'workers: %d  lanes: %2d  window: %5d  %s  bodies: %d  rounds: %4d  failing: %2d  bodies/second: ' "$1" "$2" "$3" "$([[ $4 == 1 ]] && echo 'as they end' || echo 'in order')" "$5" "$6" "$7")
    line+=$(rates "$program" "$1" "$2" 65536 "$3" "$4" "$5" "$6" "$7")
    if [[ $java && $2 == 1 && $4 == 0 ]]; then line+="  java: $(rates $java "$1" "$3" "$5" "$6" "$7")"; fi
    echo "$line"
}

# soak COUNT: the peak memory of so many bodies, of which one in 16 has a child that fails.
soak() {
    local figures
    figures=$(/usr/bin/time -o "$loader.peak" -f %M timeout 3600 "$program" 4 1 65536 1000 0 "$1" 0 16)
    echo "$figures $(cat "$loader.peak")" | awk '{
        printf "soak: bodies: %d  pools: %d  seconds: %.1f  peak memory: %.1f MiB\n", $1, $2, $3 / 1e9, $4 / 1024
    }'
}

(($#)) || set -- windows lanes work failing
for load; do
    case $load in
    windows)
        time_service 4 1 1 0 100000 0 0
        for window in 10 100 1000 4000 20000; do time_service 4 1 "$window" 0 1000000 0 0; done
        ;;
    lanes)
        for lanes in 1 4 32; do time_service 4 "$lanes" 1000 0 1000000 0 0; done
        time_service 4 1 1000 1 1000000 0 0
        ;;
    work)
        for workers in 1 4; do
            for rounds in 1500 5000; do time_service "$workers" 1 1000 0 500000 "$rounds" 0; done
        done
        ;;
    failing) time_service 4 1 1000 0 500000 1500 16 ;;
    soak) soak 100000000 ;;
    *)
        echo "no such load: $load" >&2
        exit 1
        ;;
    esac
done
