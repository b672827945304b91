#!/usr/bin/env bash
# Runs the trials that are no part of `rt ci`, on the programs that it left: what `fj` and `test_machine` answer beside what is written, the
# samples of the documents, the laws that nothing names, the mutants that do not fit the code, the program through pipes and as an attacker
# would use it, a program that is built without a proof by tools/quick, views of random histories beside their lines, where there is a JDK
# scripts beside Java's pool, where there is a C compiler each allocation refused in turn, and the tests by threads and of texts, built here.
#
#   tests/all.sh            the tests by threads 30 times each, ten minutes of load, a service in flat memory, whether jobs that use no
#                           workers are told, and with a C compiler the C interface
#   tests/all.sh --short    these tests once each, as they are run where they are built, and half a minute of load: what the gate runs
set -euo pipefail
cd "$(dirname "${BASH_SOURCE[0]}")/.."

case ${1:-} in
    "") runs=30 load=600 ;;
    --short) runs=0 load=30 ;;
    *)
        echo "usage: tests/all.sh [--short]" >&2
        exit 2
        ;;
esac

# The tests by threads are built beside the others: that is most of the time of both.
log=$(mktemp)
tests/threads/run.sh --load "$load" "$runs" > "$log" 2>&1 &
by_threads=$!
trap 'kill "$by_threads" 2> /dev/null || true; rm -f "$log"' EXIT

trials=(tests/answers/*.py tests/documents/*.sh tests/documents/*.py tests/proofs/*.py tests/mutants/edits.py tests/quick/*.sh tests/pipes/*.sh tests/hostile/*.sh tests/views/*.sh tests/texts/*.sh)
if ((runs)); then
    trials+=(tests/workers/*.sh tests/load/service.sh)
    if command -v cc > /dev/null; then
        trials+=(tests/c/*.sh)
    fi
fi
if command -v javac > /dev/null; then
    trials+=(tests/java/*.sh)
fi
if command -v cc > /dev/null; then
    trials+=(tests/refused_memory/*.sh)
fi
for trial in "${trials[@]}"; do
    echo "$trial"
    "$trial"
done

echo tests/threads/run.sh
status=0
wait "$by_threads" || status=$?
cat "$log"
exit "$status"
