#!/usr/bin/env bash
# Compares with the pool of a JDK 17: what Java does where docs/JAVA.md says that it differs, and that it tells the same of scripts at random
# elsewhere. For this `rt ci` has to have built the program.
#
#   tests/java/run.sh [SEED [SCRIPTS]]    by so many seeds, from this one on; 0 and 400 unless said
set -euo pipefail
cd "$(dirname "${BASH_SOURCE[0]}")/../.."
seed=${1:-0}
scripts=${2:-400}
steps=120

if ! command -v javac > /dev/null || [[ $(javac -version 2>&1) != "javac 17"* ]]; then
    echo "no JDK 17: nothing is compared with Java"
    exit 0
fi
folder=$(mktemp -d)
trap 'rm -rf "$folder"' EXIT
javac -Xlint:all -Werror -d "$folder" tests/java/*.java

timeout 60 java -cp "$folder" Differences > "$folder/seen"
diff tests/java/differences.txt "$folder/seen"

follow() {
    timeout 300 java -cp "$folder" Follow
}

python3 tests/java/scripts.py crates/fj/out/fj "$seed" "$scripts" "$steps" > "$folder/scripts"
follow < "$folder/scripts"
# One reply of each kind is made wrong in turn: that must be told.
for reply in 'run [0-9]*' 'counted [0-9]*' 'hook [0-9]*' 'root [0-9]*' 'normal' 'exceptional [0-9]*' 'cancelled' 'count [0-9]*'; do
    sed "0,/> $reply\$/s//> another/" "$folder/scripts" > "$folder/wrong"
    if cmp -s "$folder/scripts" "$folder/wrong"; then
        echo "no script has a reply '$reply'" >&2
        exit 1
    fi
    if follow < "$folder/wrong" > "$folder/told"; then
        echo "a wrong reply in the place of '$reply' is not told" >&2
        exit 1
    fi
done
