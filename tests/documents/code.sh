#!/usr/bin/env bash
# Compares the code in the documents with the crates: a block whose first line names a file of the repository, as "```rust FILE", must stand in
# that file, in one piece. Usage: tests/documents/code.sh
set -euo pipefail
cd "$(dirname "${BASH_SOURCE[0]}")/../.."

blocks=$(mktemp -d)
trap 'rm -rf "$blocks"' EXIT
count=0
for document in README.md docs/*.md crates/*/README.md; do
    rm -f "$blocks"/*
    awk -v blocks="$blocks" '
        /^```rust [^ ]+$/ { file = blocks "/" ++n; print $2 > (file ".name"); printf "" > file; next }
        /^```/ { file = ""; next }
        file { print > file }' "$document"
    for name in "$blocks"/*.name; do
        [[ -e $name ]] || continue
        source=$(cat "$name")
        code=$(cat "${name%.name}")
        if [[ $(cat "$source") != *"$code"* ]]; then
            echo "$document: not in $source:" >&2
            echo "$code" >&2
            exit 1
        fi
        count=$((count + 1))
    done
done
echo "$count pieces of code are those of the crates"
