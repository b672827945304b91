#!/usr/bin/env bash
# Builds the tests of histories as text and of the command line, unproved, beside copies of the crates that they use, and runs each once.
#
#   tests/texts/run.sh
set -euo pipefail
cd "$(dirname "${BASH_SOURCE[0]}")/../.."
. tests/lay_out.bash
crates='serde_json fj_rules fj_lines fj_history fj_checker fj_machine fj_streams fj_notes fj_check fj_replay fj_expect fj_explain fj_story fj_picture fj_views fj_record fj_commands fj_cli'

folder=$(mktemp -d)
trap 'rm -rf "$folder"' EXIT
lay_out "$folder" "tests_of_texts: $crates" tests/texts/*.rt.in
cd "$folder/crates/tests_of_texts"
TMPDIR=$folder timeout 900 rt try --test > "$folder/log" 2>&1 || { cat "$folder/log" >&2; exit 1; }
all=$(cat src/*.rt | grep -c '^#\[test\]$')
grep -q "^test result: ok. $all passed; 0 failed" "$folder/log" || { cat "$folder/log" >&2; exit 1; }
echo "$all tests of texts passed"
