#!/usr/bin/env bash
# Refuses each allocation of tests of a seal in turn. One of the making of its machine must end the test with that answer. One of the
# seal must be answered by it: with the machine unchanged, after which one test seals once more, and the list of moves of the other goes on.
# Needs a C compiler, and the built tests: cd crates/test_model && rt test
set -euo pipefail
. "$(dirname "${BASH_SOURCE[0]}")/trial.bash"

for test in a_seal_without_memory_changes_nothing a_list_goes_on_behind_a_seal_without_memory; do
    making=0
    sealing=0
    for ((number = 1; number <= 100; number++)); do
        if refuse "$number" "$crates/test_model/out/test_model_tests" "epoch_tests::$test"; then
            grep -q 'a seal was refused' "$folder/out" || break
            sealing=$((sealing + 1))
        else
            grep -q 'OutOfMemory' "$folder/out" || fail "allocation $number: another end"
            ((sealing == 0)) || fail "allocation $number: refused after a seal"
            making=$((making + 1))
        fi
    done
    ((making > 0 && sealing == 2)) || fail "$making allocations of the making and $sealing of the seal were seen"
    echo "$test: $making allocations of the making and $sealing of the seal, each refused in turn"
done
