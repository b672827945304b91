#!/usr/bin/env bash
# Refuses each allocation of some tests in turn. Those of what the test makes must be answered by it as out of memory; no other comes
# beside them or later, so with any later one refused the test must pass.
# Needs a C compiler, and the built tests, as `rt ci` leaves them, or `rt test` in a crate's folder.
set -euo pipefail
. "$(dirname "${BASH_SOURCE[0]}")/trial.bash"

# The crate, the test, what it makes, and how many allocations that may take.
while read -r crate test made most; do
    echo -n "$made: "
    refuse_making "$most" $((most + 200)) "$crates/$crate/out/${crate}_tests" "$test"
done <<'END'
test_model queues_tests::many_owners_share_two_cells queues 8
test_model tree_tests::a_task_is_found_behind_thousands_that_were_released tree 20
test_model run_tests::the_largest_limits_hold machine 100
test_pool gate_tests::an_open_gate_meets_without_a_number gate 20
test_pool lane_tests::a_hundred_parcels_in_order lane 20
test_pool making_tests::a_pool_is_made_and_wound_up pool 80
END
