#!/usr/bin/env bash
# Times steps of a machine by Machine::step, through fj.h, and those of the same structures in plain C: nanoseconds a step.
# Usage: bench/steps.sh [LOAD [KEEP [ROUNDS]]]
#   LOAD is (all are run if there is none)
#     plain    a task is submitted, polled, ended and released
#     join     the running task forks one, joins it, and releases it, above KEEP held tasks
#     middle   a random one of KEEP gone tasks is released, another comes
#     first    the first of KEEP open triggers is cancelled and released, another is made
#     random   the same with a random one
#   KEEP tasks are kept all the time, at most 4,095, in join 4,094
#   (default: 0 for plain, 17 for join, else 4,000). ROUNDS rounds are made (default: those of 5,000,000 steps or some more).
# RUNS=N bench/steps.sh ..       the least time of N runs of each program counts (default: 5)
# WORKERS=N bench/steps.sh ..    the machine has N workers (default: 4)
set -euo pipefail
cd "$(dirname "${BASH_SOURCE[0]}")/.."

runs=${RUNS:-5}
workers=${WORKERS:-4}

. bench/loader.sh
build_loader steps fj_machine
sketch= interface=
if command -v cc > /dev/null; then
    sketch=$loader.sketch interface=$loader.interface
    cc -std=c11 -O2 -Wall -Wextra -o "$sketch" bench/steps/sketch.c
    c/install.sh "$loader.installed" > "$loader.log" 2>&1 || { cat "$loader.log" >&2; exit 1; }
    cc -std=c11 -O2 -Wall -Wextra -I"$loader.installed/include" -o "$interface" bench/steps/interface.c "$loader.installed/lib/libfj.a"
else
    echo "no C compiler: the sketch and the interface are left out"
fi

# least FILE: the least time in a file of lines with the steps and the nanoseconds, and the steps before it.
least() { sort -n -k 2 "$1" | head -n 1; }

# time_load LOAD KEEP ROUNDS [WORD]: runs the programs by turns, so that what else runs on the machine slows both, and prints the figures.
time_load() {
    local arguments=("$3" "$2" "$1" "$workers") steps nanoseconds sketched=0 called=0 peak faults
    : > "$loader.times"
    : > "$loader.sketched"
    : > "$loader.called"
    for ((run = 0; run < runs; run++)); do
        /usr/bin/time -o "$loader.measured" -f '%M %R' "$loader" "${arguments[@]}" >> "$loader.times"
        if [[ $sketch ]]; then
            "$sketch" "${arguments[@]}" >> "$loader.sketched"
            "$interface" "${arguments[@]}" >> "$loader.called"
        fi
    done
    read -r steps nanoseconds < <(least "$loader.times")
    if [[ $sketch ]]; then
        read -r _ sketched < <(least "$loader.sketched")
        read -r _ called < <(least "$loader.called")
    fi
    read -r peak faults < "$loader.measured"
    awk -v load="$1${4:+, $4}" -v keep="$2" -v steps="$steps" -v ours="$nanoseconds" -v sketch="$sketched" -v called="$called" -v peak="$peak" -v faults="$faults" 'BEGIN {
        printf "%-17s kept: %4d  steps: %d  ns a step: %.1f", load, keep, steps, ours / steps
        if (sketch > 0) printf "  sketch: %.1f  ratio: %.2f", sketch / steps, ours / sketch
        if (called > 0) printf "  through fj.h: %.1f  ratio: %.2f", called / steps, called / ours
        printf "  pages touched first: %d  peak KiB: %d\n", faults, peak
    }'
}

# time_large LOAD KEEP ROUNDS: as time_load, where the C library asks for large pages.
time_large() { GLIBC_TUNABLES=glibc.malloc.hugetlb=1 time_load "$@" "large pages"; }

# keep_of LOAD, rounds_of LOAD: what stands for KEEP and ROUNDS where they are not given.
keep_of() { case $1 in plain) echo 0 ;; join) echo 17 ;; *) echo 4000 ;; esac }
rounds_of() { case $1 in join) echo 1000000 ;; first | random) echo 1700000 ;; *) echo 1250000 ;; esac }

if (($#)); then
    time_load "$1" "${2:-$(keep_of "$1")}" "${3:-$(rounds_of "$1")}"
    exit
fi
for load in plain join middle first random; do
    time_load "$load" "$(keep_of "$load")" "$(rounds_of "$load")"
    if [[ $load == join ]]; then
        time_large join 17 "$(rounds_of join)"
        time_load join 4000 "$(rounds_of join)"
    fi
done
