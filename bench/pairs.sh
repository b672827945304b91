#!/usr/bin/env bash
# Times pairs of a push and a take at a lane: how many a second, by one thread and by two.
# Usage: bench/pairs.sh [LANES]
#   Through each of LANES lanes (default 200) go 65,536 parcels.
set -euo pipefail
cd "$(dirname "${BASH_SOURCE[0]}")/.."

lanes=${1:-200}

. bench/loader.sh
build_loader pairs fj_lane
for threads in 1 2; do
    time_loader pairs "$threads" "$lanes"
done
