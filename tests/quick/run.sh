#!/usr/bin/env bash
# Lays out a repository with ex_body and copies of the crates that it stands on, as a user's would be, builds and runs it there by tools/quick. What
# it writes must stand alone on standard output, the warning before and after it on standard error, and nothing but the program may be left. A crate
# that is nowhere must be told. Usage: tests/quick/run.sh
set -euo pipefail
cd "$(dirname "${BASH_SOURCE[0]}")/../.."
mapfile -t crates < <(tools/crates_below ex_body)
wanted=$(cat crates/ex_body/stdout)

folder=$(mktemp -d)
trap 'rm -rf "$folder"' EXIT
program=$folder/app/crates/ex_body
quick=$PWD/tools/quick

lay_out() {
    mkdir "$folder/app"
    cp HANDLES "$folder/app"
    tar cf - --exclude=out "${crates[@]/#/crates/}" | tar xf - -C "$folder/app"
    grep -E "^($(IFS='|'; echo "${crates[*]}")):" crates.txt > "$folder/app/crates.txt"
}

# fail WHAT: says what is wrong, and what was told.
fail() {
    echo "$1" >&2
    cat "$folder/told" >&2
    exit 1
}

lay_out
cd "$program/src"
find "$folder/app" -type f | sort > "$folder/before"
number=$("$quick" ex_body -- 2> "$folder/told") || fail "it was not built, or has failed"
[[ $number == "$wanted" ]] || fail "it wrote $number"
[[ $(grep -c UNPROVED "$folder/told") == 2 ]] || fail "it was not said twice that it is unproved"
left=$(find "$folder/app" -type f | sort | comm -13 "$folder/before" -)
[[ $left == "$program/out/quick" ]] || fail "it left $left"
status=0
"$quick" no_such_crate 2> "$folder/told" || status=$?
[[ $status == 2 ]] || fail "of a crate that is nowhere the status is $status"
echo "ex_body, built without a proof, writes $number"
