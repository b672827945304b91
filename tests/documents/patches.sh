#!/usr/bin/env bash
# The patches by which benchmarks count fit the crates, and give what parses: bench/pool/count.patch, and bench/jobs/counted/count.patch behind it.
set -euo pipefail
cd "$(dirname "${BASH_SOURCE[0]}")/../.."
if ! command -v patch > /dev/null; then
    echo "no patch: those of bench/ are not tried"
    exit 0
fi
patches=(bench/pool/count.patch bench/jobs/counted/count.patch)
folder=$(mktemp -d)
trap 'rm -rf "$folder"' EXIT
mapfile -t crates < <(sed -n 's#^+++ b/\([^/]*\)/.*#\1#p' "${patches[@]}" | sort -u)
mkdir -p "$folder/crates/jobs/src"
cp bench/jobs/counted/submit.rt.in "$folder/crates/jobs/src/submit.rt"
for crate in "${crates[@]}"; do
    [[ $crate == jobs ]] || cp -r --parents "crates/$crate/src" "$folder"
done
for patch in "${patches[@]}"; do
    patch -s -p1 -F0 -d "$folder/crates" < "$patch"
done
# The formatter refuses what does not parse.
for crate in "${crates[@]}"; do
    (cd "$folder/crates/$crate" && rt fmt > "$folder/log" 2>&1) || { cat "$folder/log" >&2; exit 1; }
done
echo "${#patches[@]} patches of bench/ fit"
