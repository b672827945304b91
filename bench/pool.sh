#!/usr/bin/env bash
# Times a pool by threads: submissions and tasks in a second, the locks of a task, the delay of a body in an idle pool, and what that takes.
# Usage: bench/pool.sh [LOAD..]
#   LOAD is (default: all of them)
#     submit    1 or 4 threads hand in 65,536 bodies each while no worker works, or 4,000 in all while 4 work: submissions a second
#     outside   4,000 bodies are handed in; then 1, 2 or 4 workers run them: tasks a second; locks for a task
#     forked    1,000 bodies fork 64 leaves each and join them, the last one first: the same for the leaves
#     delay     200 bodies one by one to 4 workers: ms until a body begins
#     idle      4 workers find nothing for 5 seconds: share of one core
#   or, with OPTIMISED=1 and as the only one, days: seconds and peak memory of 32 submitters with 4,096 and then 65,536 bodies each; outcomes
#   are heard, parts dropped
#   A body, or a leaf, takes 0, 1, 3, 10 or 100 µs: as many rounds of a loop as took so long, alone, just before. The time includes the start of
#   the threads.
# OPTIMISED=1 bench/pool.sh ..   compiles the loader without checks and with optimisation; else it is run as `rt try` runs it, which is far slower
# RUNS=N bench/pool.sh ..        the least time of N runs counts, the median is told beside it (default: 1, OPTIMISED 5); of delay and idle there
#   is one run
set -euo pipefail
cd "$(dirname "${BASH_SOURCE[0]}")/.."

optimised=${OPTIMISED:-}
runs=${RUNS:-${optimised:+5}}
runs=${runs:-1}
# The bodies of no time that fork: as many as give a time that can be read.
roots=${optimised:+1000}
roots=${roots:-64}

. bench/loader.sh
. bench/unproved.sh
lay_out_loader pool fj_pool
patch -s -p1 -d "$loader/.." < bench/pool/count.patch
cases=$loader/cases
mkdir "$cases"

# add RUNS NAME WORD..: so many cases, NAME_1 and so on, of a loader with these words.
add() {
    local run most=$1 name=$2
    shift 2
    for ((run = 1; run <= most; run++)); do
        : > "$cases/${name}_$run"
        printf '%s\n' "$@" > "$cases/${name}_$run.args"
    done
}

# add_load LOAD: the cases of a load.
add_load() {
    local submitters workers micros
    case $1 in
    submit)
        for submitters in 1 4; do
            add "$runs" "submit_0_$submitters" submit 0 "$submitters" 65536
            add "$runs" "submit_4_$submitters" submit 4 "$submitters" $((4000 / submitters))
        done
        ;;
    outside | forked)
        for micros in 0 1 3 10 100; do
            for workers in 1 2 4; do
                if [[ $1 == outside ]]; then
                    add "$runs" "outside_${workers}_$micros" tasks "$workers" 4000 0 "$micros"
                else
                    add "$runs" "forked_${workers}_$micros" tasks "$workers" "$((micros < 100 ? roots : 64))" 64 "$micros"
                fi
            done
        done
        ;;
    delay) add 1 delay_4_0 delay 4 200 ;;
    idle) add 1 idle_4_0 idle 4 5 ;;
    *)
        echo "no such load: $1" >&2
        exit 1
        ;;
    esac
}

# print_figures: reads lines LOAD_WORKERS_OTHER_RUN and three numbers of the loader, and prints the figures of each load, by its least time.
print_figures() {
    sed 's/_/ /g' | sort -k 1,1 -k 2,2n -k 3,3n -k 6,6n | awk '
        function flush(median) {
            median = times[int((runs + 1) / 2)]
            if (load == "submit") printf "submit   workers: %d  submitters: %d  submissions: %d  seconds: %.4f  submissions/second: %.0f  median: %.0f\n", workers, other, count, least / 1e9, count / least * 1e9, count / median * 1e9
            if (load == "outside" || load == "forked") printf "%-8s workers: %d  microseconds: %3d  tasks: %d  seconds: %.4f  tasks/second: %.0f  median: %.0f  locks/task: %.2f\n", load, workers, other, count, least / 1e9, count / least * 1e9, count / median * 1e9, locks / count
            if (load == "delay") printf "delay    workers: %d  milliseconds: median %.3f  99 of 100 within %.3f  greatest %.3f\n", workers, count / 1e6, least / 1e6, locks / 1e6
            if (load == "idle") printf "idle     workers: %d  seconds: %.2f  processor seconds: %.4f  of one core: %.2f %%\n", workers, least / 1e9, count / 1e9, count / least * 100
        }
        {
            if ($1 " " $2 " " $3 != last) { flush(); last = $1 " " $2 " " $3; load = $1; workers = $2; other = $3; count = $5; least = $6; locks = $7; runs = 0 }
            times[++runs] = $6
        }
        END { flush() }'
}

# print_peaks: the time and the peak memory of a pool through which a sixteenth, and all, of 2,097,152 submissions pass, of five tasks each. It has
# no more than 1.5 GiB of addresses, and its history would take 2 GB if it was kept.
print_peaks() {
    local each figures
    for each in 4096 65536; do
        figures=$(ulimit -v 1572864 && /usr/bin/time -o "$loader.peak" -f %M timeout 600 "$program" days 4 32 "$each" 4)
        echo "$figures $(cat "$loader.peak")" | awk '{
            printf "days     workers: 4  submissions: %d  tasks: %d  seconds: %.1f  parts taken: %d  peak memory: %.0f MiB\n", $1, $1 * 5, $2 / 1e9, $3, $4 / 1024
        }'
    done
}

(($#)) || set -- submit outside forked delay idle
if [[ $* == days && $optimised ]]; then
    optimise_loader
    print_peaks
    exit
fi
for load; do add_load "$load"; done
if [[ $optimised ]]; then
    optimise_loader
    run_cases "$cases" | print_figures
else
    try_cases "$cases" | print_figures
fi
