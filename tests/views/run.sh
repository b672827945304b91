#!/usr/bin/env bash
# Compares the views of random histories with their lines: of few tasks, of some, and of many. `fj` is the built program, or the one in the
# argument. And the picture of the documents is that of its history.
set -euo pipefail
cd "$(dirname "${BASH_SOURCE[0]}")"

fj=${1:-../../crates/fj/out/fj}
work=$(mktemp -d)
trap 'rm -r "$work"' EXIT

checked=0
for size in "1 1 1" "2 1 5" "3 2 20" "4 3 40" "5 3 60" "6 4 200" "7 8 600" "8 4 2000" "9 32 2000"; do
    read -r seed workers tasks <<< "$size"
    python3 history.py "$seed" "$workers" "$tasks" > "$work/history"
    "$fj" check < "$work/history" > /dev/null
    for kind in tasks stats path dot chrome svg; do
        "$fj" view --as "$kind" < "$work/history" > "$work/$kind"
    done
    python3 check.py "$work/history" "$work"
    "$fj" view --as svg --from 10 --to 40 < "$work/history" > "$work/window"
    if command -v xmllint > /dev/null; then
        xmllint --noout "$work/svg" "$work/window"
    fi
    checked=$((checked + 1))
done
"$fj" record --notes "$work/notes" sum --from 1 --to 1000 --grain 10 --workers 4 > "$work/history"
echo 'name 0 <sum> & "all"' >> "$work/notes"
for kind in path dot chrome svg; do
    "$fj" view --as "$kind" --notes "$work/notes" < "$work/history" > "$work/$kind"
done
python3 notes.py "$work/notes" "$work"
if command -v xmllint > /dev/null; then
    xmllint --noout "$work/svg"
fi
"$fj" view --as svg < picture.txt | diff - ../../docs/history.svg
echo "$checked histories"
