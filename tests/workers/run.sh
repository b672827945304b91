#!/usr/bin/env bash
# Has `invoke`, and then `fold_tree`, compute without their workers, each in a copy of the crates, and wants a test to tell it. Their contracts let
# that through: nothing is proved of who runs what.
#
#   tests/workers/run.sh
set -euo pipefail
cd "$(dirname "${BASH_SOURCE[0]}")/../.."
. tests/lay_out.bash
build_limit=900

folder=$(mktemp -d)
trap 'rm -rf "$folder"' EXIT

# lay_out_jobs: the crates as they are, and tests of jobs.
lay_out_jobs() {
    rm -rf "$folder/crates"
    lay_out "$folder" 'test_jobs: rand_core rand_pcg fj_invoke fj_trees fj_fold' tests/threads/jobs/{fold_tests,pair,trees,value_tests,worker_tests}.rt.in
}

# replace FILE FIRST BODY: in the copy, all from the line FIRST of a function up to its end is BODY.
replace() {
    FIRST=$2 BODY=$3 perl -0pi -e 's/^\Q$ENV{FIRST}\E\n.*?^}\n/$ENV{BODY}\n}\n/ms or die "not there: $ENV{FIRST}\n"' "$folder/crates/$1"
}

# is_told TEST: whether this test fails.
is_told() {
    local status=0
    (cd "$folder/crates/test_jobs" && timeout "$build_limit" rt try --test) > "$folder/log" 2>&1 || status=$?
    if [ "$status" = 0 ] || ! grep -q "^test $1 \.\.\. FAILED" "$folder/log"; then
        cat "$folder/log" >&2
        echo "not told by $1" >&2
        return 1
    fi
    echo "told by $(grep -c '^test .* \.\.\. FAILED' "$folder/log") of $(grep -c '^test .* \.\.\. ' "$folder/log") tests of jobs, $1 among them"
}

lay_out_jobs
replace fj_invoke/src/invocation.rt '    let RecordedValue {' '    Ok(fj_jobs::compute(job))'
is_told worker_tests::two_workers_run_the_halves_beside_each_other

lay_out_jobs
replace fj_fold/src/folding.rt '    let RecordedValue {' '    match fj_trees::tree_values(alloc, nodes) {
        Ok(values) => values.first().copied().ok_or(Refusal::OutOfMemory),
        Err(_) => Err(Refusal::OutOfMemory),
    }'
is_told fold_tests::two_children_begin_at_once
