#!/usr/bin/env bash
# Refuses each allocation in turn of a test that runs jobs a million levels deep lazily. The test must answer that memory is out, or pass, where
# a half could not be forked and was computed in place.
# Needs a C compiler, and the built tests, as `rt ci` leaves them, or `rt test` in the crate's folder.
set -euo pipefail
. "$(dirname "${BASH_SOURCE[0]}")/trial.bash"

test=a_job_may_be_a_million_levels_deep
refused=0
# How many there are depends on the schedule, so ten that pass in a row are taken for the end.
for ((number = 1, passed = 0; number <= 1000 && passed < 10; number++)); do
    if refuse "$number" "$crates/test_pool/out/test_pool_tests" "deep_tests::$test"; then
        passed=$((passed + 1))
    else
        grep -q '^error: OutOfMemory$' "$folder/out" || fail "allocation $number: another end"
        refused=$((refused + 1))
        passed=0
    fi
done
((refused > 0 && passed == 10)) || fail "$refused allocations were refused, and then $passed runs passed"
echo "$test: $refused allocations, each refused in turn"
