#!/usr/bin/env bash
# Times a load in both versions of scripts, side by side, and its upgrade: lines a second, all in memory.
# Usage: bench/versions.sh [KIND [ROUNDS [SIZE]]]     as bench/run.sh
set -euo pipefail
cd "$(dirname "${BASH_SOURCE[0]}")/.."

. bench/loader.sh
build_loader versions fj_replay
python3 bench/generate.py "${1:-plain}" "${@:2}" > "$loader.script"
steps=$(($(wc -l < "$loader.script") - 1))
"$loader" "$loader.script" | awk -v steps="$steps" '{
    printf "step lines: %d  version 1: %.0f a second  version 2: %.0f  upgrade: %.0f\n", steps, steps / $1 * 1e9, steps / $2 * 1e9, steps / $3 * 1e9
}'
