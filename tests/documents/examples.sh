#!/usr/bin/env bash
# Tests the scripts in examples/: each must give the replies behind its lines, and have the history and the picture that stand beside it; each history
# must pass `fj check`.
# Needs the built program, crates/fj/out/fj. Usage: tests/documents/examples.sh
set -euo pipefail
cd "$(dirname "${BASH_SOURCE[0]}")/../.."

fj=$PWD/crates/fj/out/fj
[[ -x $fj ]] || { echo "$fj is not built: (cd crates/fj && rt run -- replay < stdin)" >&2; exit 1; }
cd examples

for script in *.fj; do
    name=${script%.fj}
    "$fj" test < "$script" || { echo "in $script" >&2; exit 1; }
    sed -E 's/ *(>|#).*//; /^$/d' "$script" | "$fj" trace | diff "$name.history" - || { echo "in $name.history" >&2; exit 1; }
    "$fj" check < "$name.history" > /dev/null || { echo "in $name.history" >&2; exit 1; }
    "$fj" view --as svg < "$name.history" | diff "$name.svg" - || { echo "in $name.svg" >&2; exit 1; }
    grep -qF "($script)" README.md || { echo "README.md does not name $script" >&2; exit 1; }
done
echo "each example has its replies, its history and its picture"
