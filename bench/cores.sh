#!/usr/bin/env bash
# Times the actions of a core, and the steps that a machine makes for them: nanoseconds a round of fork, join, end and join.
# Usage: bench/cores.sh [KEEP..]
#   KEEP bodies are suspended all the time, at most 4,000 (default: 10, 17, 100, 1,000 and 4,000, one after another).
# RUNS=N bench/cores.sh ..       the least time of N runs of each counts (default: 9)
set -euo pipefail
cd "$(dirname "${BASH_SOURCE[0]}")/.."

runs=${RUNS:-9}

. bench/loader.sh
build_loader cores fj_core

# least FILE: the least time in a file of lines with the rounds and the nanoseconds, and the rounds before it.
least() { sort -n -k 2 "$1" | head -n 1; }

if (($# == 0)); then
    set -- 10 17 100 1000 4000
fi
for keep; do
    : > "$loader.core"
    : > "$loader.machine"
    # by turns, so that what else runs on the host slows both
    for ((run = 0; run < runs; run++)); do
        "$loader" 1000000 "$keep" core >> "$loader.core"
        "$loader" 1000000 "$keep" machine >> "$loader.machine"
    done
    read -r rounds core < <(least "$loader.core")
    read -r _ machine < <(least "$loader.machine")
    awk -v keep="$keep" -v rounds="$rounds" -v core="$core" -v machine="$machine" 'BEGIN {
        printf "suspended: %4d  rounds: %d  ns a round: core %.0f (%.1f an action)  machine %.0f (%.1f a step)  ratio: %.2f\n",
            keep, rounds, core / rounds, core / rounds / 4, machine / rounds, machine / rounds / 5, core / machine
    }'
done
