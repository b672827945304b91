#!/usr/bin/env bash
# Times jobs by workers in threads beside programs that do the same: ours lazily, by `invoke` and on one thread by `compute`; plain C on one
# thread; a pool in plain C with one lock; those of the JDK, of rayon and of oneTBB. Each is timed as a whole process, by turns, and all must
# give the same answer.
# Usage: bench/jobs.sh [LOAD..]
#   LOAD is (default: all of them)
#     leaves           the sums of 1 to 200,000 and to 20,000,000, each number a leaf
#     blocks           the sum of 1 to 100,000,000, a leaf for each 100,000. The compiler makes ours a formula, so it says nothing of the work
#     primes           primes, by dividing each number by all up to it: up to 6,700, leaves of 10 µs in the mean; up to 10,000, of 100 µs
#     min              the least of 48271 * x mod 2,147,483,647 for x of 1 to 20,000,000, by leaves of about 1, 10 and 100 µs
#     find             the first of these x with the value of the first one, and of number 12,000,000
#     oversubscribed   the larger sum, and primes of 10 µs, by 32 workers
#     tree             the value of a tree of 4,000 nodes, three children each, by completers
#     submit           200,000 bodies that do nothing. Ours hears each outcome, the others only count
#     started          ours alone: how long until each worker has begun
#     chain            ours alone: leaves split off one by one
#     locks            ours alone: locks for a task, and how long they are held
#   or, where valgrind is there, profile: where the instructions go
# RUNS=N bench/jobs.sh ..     the least and the median of N runs of each program are told (default: 5)
# PROVED=1 bench/jobs.sh ..   ours is proved, which takes half an hour and more; else it is built as unproved.sh does
set -euo pipefail
export LC_ALL=C
cd "$(dirname "${BASH_SOURCE[0]}")/.."

runs=${RUNS:-5}
limit=60
# The compilers of C and C++: clang, if it is there, since ours and rayon come from LLVM too.
cc=$(command -v clang || command -v cc || true)
cxx=$(command -v clang++ || command -v c++ || true)
declare -A program_of

. bench/loader.sh
. bench/unproved.sh
lay_out_loader jobs ex_primes fj_pool fj_invoke fj_fold
folder=$(dirname "$(dirname "$loader")")
tree=$folder/tree
awk 'BEGIN { print "- 1"; for (i = 1; i < 4000; i++) print int((i - 1) / 3), i * 7919 % 1000000007 }' > "$tree"

# Ours, proved: all but submissions.
build_proved() {
    if ! (cd "$loader" && rt run -- compute sum 1 10 1 1) > "$loader.log" 2>&1; then
        cat "$loader.log" >&2
        exit 1
    fi
    cp "$loader/out/jobs" "$folder/proved"
}

# build_unproved NAME: ours as NAME, with submissions and `started` too, of which nothing is proved.
build_unproved() {
    cp bench/jobs/counted/main.rt.in "$loader/src/main.rt"
    cp bench/jobs/counted/started.rt.in "$loader/src/started.rt"
    cp bench/jobs/counted/chain.rt.in "$loader/src/chain.rt"
    optimise_loader
    cp "$program" "$folder/$1"
}

# Ours; proved, where that is asked for, in all but submissions and `started`.
build_ours() {
    local ours=$folder/unproved
    if [[ ${PROVED:-} ]]; then
        build_proved
        ours=$folder/proved
    fi
    cp bench/jobs/counted/submit.rt.in "$loader/src/submit.rt"
    build_unproved unproved
    program_of[fj]=$ours
    program_of[lazily]="$ours lazily"
    program_of[invoke]="$ours invoke"
    program_of[compute]="$ours compute"
    program_of[submitting]=$folder/unproved
}

# The same with counts: after each run it writes how many locks its workers took, and for how many nanoseconds they held them.
build_counted() {
    cp bench/jobs/counted/submit.rt.in "$loader/src/submit.rt"
    patch -s -p1 -d "$loader/.." < bench/pool/count.patch
    patch -s -p1 -d "$loader/.." < bench/jobs/counted/count.patch
    build_unproved counted
}

# The other programs, as far as they can be built.
build_others() {
    if [[ $cc ]]; then
        "$cc" -std=c11 -O2 -Wall -Wextra -o "$folder/plain" bench/jobs/plain_jobs.c
        "$cc" -std=c11 -O2 -Wall -Wextra -pthread -o "$folder/one_lock" bench/jobs/one_lock.c
        program_of[plain]=$folder/plain
        program_of[one_lock]=$folder/one_lock
    else
        echo "no C compiler: plain and one_lock are left out"
    fi
    if command -v javac > /dev/null; then
        javac -d "$folder/java" bench/jobs/Jobs.java
        program_of[java]="java -cp $folder/java Jobs"
    else
        echo "no JDK: java is left out"
    fi
    if build_rayon jobs; then
        program_of[rayon]=$folder/rayon/release/jobs
    else
        echo "no rayon (Debian: librust-rayon-dev): it is left out"
    fi
    if [[ $cxx ]] && "$cxx" -std=c++17 -O2 -Wall -Wextra -o "$folder/tbb" bench/jobs/tbb_jobs.cpp -ltbb 2> "$loader.log"; then
        program_of[tbb]=$folder/tbb
    else
        echo "no oneTBB (Debian: libtbb-dev): tbb is left out"
    fi
}

# run_once NAME WORD..: the microseconds of a whole run of a program. Its answer must be the one that is noted.
run_once() {
    local name=$1 began=${EPOCHREALTIME/./} answer
    shift
    answer=$(timeout "$limit" ${program_of[$name]} "$@" < "$tree")
    echo $((${EPOCHREALTIME/./} - began))
    if [[ $answer != "$due" ]]; then
        echo "$name $*: $answer, and not $due" >&2
        exit 1
    fi
}

# least_and_median: of the numbers that it reads.
least_and_median() {
    sort -n | awk '{ time[NR] = $1 } END { print time[1], time[int((NR + 1) / 2)] }'
}

# time_load LOAD NAMES DUE WORD..: a line with the milliseconds of each program of NAMES that could be built.
time_load() {
    local load=$1 names=$2 line name
    local -A times=()
    due=$3
    shift 3
    for ((run = 0; run < runs; run++)); do
        for name in $names; do
            [[ ! ${program_of[$name]:-} ]] || times[$name]+=$(run_once "$name" "$@")$'\n'
        done
    done
    line=$(printf '%-14s %-30s' "$load" "$*")
    for name in $names; do
        [[ ! ${times[$name]:-} ]] || line+=$(printf '%s' "${times[$name]}" | least_and_median | awk -v name="$name" '{ printf "  %s: %.1f (%.1f)", name, $1 / 1e3, $2 / 1e3 }')
    done
    echo "$line"
}

# count_load LOAD TASKS WORD..: what the workers of one run took of the lock. The two readings of the clock are in the time.
count_load() {
    local load=$1 tasks=$2 locks held
    shift 2
    read -r locks held < <(timeout "$limit" "$folder/counted" "$@" < "$tree" 2>&1 > /dev/null)
    awk -v load="$load" -v words="$*" -v tasks="$tasks" -v locks="$locks" -v held="$held" 'BEGIN {
        printf "%-7s %-33s  tasks: %d  locks/task: %.2f  microseconds under the lock/task: %.3f  in all: %.3f s\n", load, words, tasks, locks / tasks, held / tasks / 1e3, held / 1e9
    }'
}

# show_started WORKERS: after how many microseconds the last worker had begun a body of a lazy job, of all runs.
show_started() {
    local run
    for ((run = 0; run < runs; run++)); do timeout "$limit" "${program_of[submitting]}" started "$1"; done | sort -n | awk -v workers="$1" '
        { took[NR] = $1 }
        END { printf "%-14s %-30s  microseconds until all have begun, least: %d  median: %d  greatest: %d\n", "started", workers, took[1], took[int((NR + 1) / 2)], took[NR] }'
}

# show_chain LEAVES: the microseconds in which one worker splits so many leaves off one by one, and in halves.
show_chain() {
    local run chain= halves=
    for ((run = 0; run < runs; run++)); do
        chain+=$(timeout "$limit" "${program_of[submitting]}" chain "$1" 0)$'\n'
        halves+=$(timeout "$limit" "${program_of[submitting]}" chain "$1" 1)$'\n'
    done
    echo "$1 $(printf '%s' "$chain" | least_and_median) $(printf '%s' "$halves" | least_and_median)" |
        awk '{ printf "%-14s %-30s  microseconds, one by one: %d (%d)  in halves: %d (%d)\n", "chain", $1, $2, $3, $4, $5 }'
}

# profile WORD..: the functions of ours in which most instructions of a run are counted, each with its part in a hundred.
profile() {
    valgrind --tool=callgrind --callgrind-out-file="$folder/instructions" "${program_of[submitting]}" "$@" < "$tree" > "$loader.log" 2>&1
    echo "profile $*"
    callgrind_annotate --threshold=90 "$folder/instructions" | grep -E '^ *[0-9,]+ \(' | sed -E 's/ \[[^]]*\]$//'
}

one_thread="compute plain"
ours="lazily invoke"
peers="java rayon tbb"
modulus=2147483647

# The loads, and what is due: sums of all numbers from 1 on, the primes up to 6,700 and to 10,000, the least value, the place of the hit, the value
# of the tree, the number of submissions.
run_load() {
    local workers threads grain leaves
    case $1 in
    leaves)
        for workers in 1 2 4; do time_load leaves "$ours $one_thread one_lock $peers" 20000100000 sum 1 200000 1 "$workers"; done
        for workers in 1 2 4; do time_load leaves "lazily $one_thread $peers" 200000010000000 sum 1 20000000 1 "$workers"; done
        ;;
    blocks) for workers in 1 2 4; do time_load blocks "$ours $one_thread one_lock $peers" 5000000050000000 sum 1 100000000 100000 "$workers"; done ;;
    primes)
        for workers in 1 2 4; do time_load primes "$ours $one_thread one_lock $peers" 863 primes 1 6700 1 "$workers"; done
        for workers in 1 2 4; do time_load primes "$ours $one_thread one_lock $peers" 1229 primes 1 10000 7 "$workers"; done
        ;;
    min)
        for grain in 100 1000 10000; do
            for workers in 1 2 4; do time_load min "$ours $one_thread $peers" 26 min 1 20000000 "$grain" "$workers" "$modulus"; done
        done
        ;;
    find)
        for hit in 1 12000000; do
            for workers in 1 2 4; do time_load find "lazily $one_thread java rayon" "$hit" find 1 20000000 1 "$workers" "$modulus" "$hit"; done
        done
        ;;
    oversubscribed)
        time_load oversubscribed "lazily $one_thread $peers" 200000010000000 sum 1 20000000 1 32
        time_load oversubscribed "$ours $one_thread one_lock $peers" 863 primes 1 6700 1 32
        ;;
    chain) for leaves in 1000 4000; do show_chain "$leaves"; done ;;
    started) for workers in 4 32; do show_started "$workers"; done ;;
    tree) for workers in 1 2 4; do time_load tree "fj one_lock java rayon" "$(${program_of[fj]} tree 1 < "$tree")" tree "$workers"; done ;;
    submit) for threads in 1 4; do time_load submit "submitting one_lock java rayon" 200000 submit "$threads" 200000 4; done ;;
    locks)
        build_counted
        for workers in 1 2 4; do
            count_load leaves 200000 invoke sum 1 200000 1 "$workers"
            count_load blocks 1000 invoke sum 1 100000000 100000 "$workers"
            count_load primes 1000 invoke primes 1 10000 10 "$workers"
            count_load tree 4000 tree "$workers"
        done
        for threads in 1 4; do count_load submit 200000 submit "$threads" 200000 4; done
        ;;
    profile)
        profile invoke sum 1 20000 1 1
        profile tree 1
        profile submit 1 200000 4
        ;;
    *)
        echo "no such load: $1" >&2
        exit 1
        ;;
    esac
}

(($#)) || set -- leaves blocks primes min find oversubscribed started chain tree submit locks
# The counts come last: for them the copies of the crates are changed.
compared=()
for load; do [[ $load == locks ]] || compared+=("$load"); done
if ((${#compared[@]})); then
    build_ours "${compared[@]}"
    [[ ${compared[*]} == profile ]] || build_others
    echo "milliseconds, the least of $runs runs, and in brackets the median"
    for load in "${compared[@]}"; do run_load "$load"; done
fi
for load; do [[ $load != locks ]] || run_load "$load"; done
