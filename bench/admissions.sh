#!/usr/bin/env bash
# Times admissions at a gate: how many a second, by several threads at once.
# Usage: bench/admissions.sh [GATES [THREADS..]]
#   At each of GATES gates (default 200) every thread draws 65,536 tickets. THREADS is 1 to 32; the default is 1 and then 4.
set -euo pipefail
cd "$(dirname "${BASH_SOURCE[0]}")/.."

gates=${1:-200}
shift || true
counts=("$@")
if [[ ${#counts[@]} -eq 0 ]]; then
    counts=(1 4)
fi

. bench/loader.sh
build_loader admissions fj_gate
for threads in "${counts[@]}"; do
    time_loader admissions "$threads" "$gates"
done
