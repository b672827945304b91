#!/usr/bin/env bash
# Tests the sample scripts of the documents, which are their blocks with the word `script`, by `fj test`: each reply must be the one behind
# its line. Runs the commands of their blocks with the word `console`, which stand behind `$ `: each must tell what stands below it, on
# standard output or standard error, and end with 0, or with the status of the line `status N`.
# Needs the built program, crates/fj/out/fj. Usage: tests/documents/samples.sh
set -euo pipefail
cd "$(dirname "${BASH_SOURCE[0]}")/../.."

[[ -x crates/fj/out/fj ]] || { echo "crates/fj/out/fj is not built: (cd crates/fj && rt run -- replay < stdin)" >&2; exit 1; }
PATH=$PWD/crates/fj/out:$PATH

# The documents that have scripts, and no others.
expected="README.md: 1
docs/MANUAL.md: 13"

# documents PATTERN: those with such a line.
documents() {
    grep -rlE --include='*.md' --exclude-dir=out "$1" -- *.md bench crates docs tests | LC_ALL=C sort
}

# scripts DOCUMENT: tests each script of a document, and tells how many it has. A heading in a block without a word is a script whose word
# was forgotten.
scripts() {
    local line word=outside script='' number=0 begin=0 count=0
    while IFS= read -r line; do
        number=$((number + 1))
        if [[ $word == outside && $line =~ ^\ *(async|joining)\ [0-9] ]]; then
            echo "$1:$number: a script in a block without its word" >&2
            return 1
        elif [[ $line == '```script' ]]; then
            word=script script='' begin=$number
        elif [[ $line == '```'* && $word == script ]]; then
            fj test <<< "$script" >&2 || { echo "in the script behind $1:$begin" >&2; return 1; }
            word=outside count=$((count + 1))
        elif [[ $line == '```' ]]; then
            word=outside
        elif [[ $line == '```'* ]]; then
            word=other
        elif [[ $word == script ]]; then
            script+=$line$'\n'
        fi
    done < "$1"
    ((count == 0)) || echo "$1: $count"
}

given=$(documents '^ *(```script|(async|joining) [0-9])' | while IFS= read -r document; do scripts "$document" || exit 1; done)
diff <(echo "$expected") <(echo "$given")
echo "each sample gave its replies"

documents '^```console' | while IFS= read -r document; do
    while IFS= read -r line; do
        if [[ $line == '$ '* ]]; then
            printf '%s\n' "$line"
            status=0
            bash -c "${line:2}" 2>&1 < /dev/null || status=$?
            [[ $status == 0 ]] || echo "status $status"
        fi
    done < <(sed -n '/^```console/,/^```$/p' "$document") |
        diff <(sed -n '/^```console/,/^```$/{/^```/!p}' "$document") - || { echo "in $document" >&2; exit 1; }
done
echo "each command told what stands below it"
