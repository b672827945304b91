#!/usr/bin/env bash
# Drives `fj replay` through two pipes, one step at a time: each reply comes before the next line is sent.
# Needs the built program, crates/fj/out/fj. Usage: tests/pipes/step_by_step.sh
set -euo pipefail
cd "$(dirname "${BASH_SOURCE[0]}")/../.."

fj=crates/fj/out/fj
[[ -x $fj ]] || { echo "$fj is not built: (cd crates/fj && rt run -- replay < stdin)" >&2; exit 1; }

# How many seconds a reply may take: none is waited for so long if replies come as they should.
patience=10

coproc "$fj" replay
program=$COPROC_PID
replies=${COPROC[0]}
lines=${COPROC[1]}

# ask LINE REPLY: sends a line, and waits for this reply to it.
ask() {
    local reply
    echo "$1" >&"$lines"
    if ! read -r -t "$patience" -u "$replies" reply; then
        echo "no reply to: $1" >&2
        kill "$program"
        exit 1
    fi
    if [[ $reply != "$2" ]]; then
        echo "$1 > $reply, and not $2" >&2
        exit 1
    fi
}

echo "async 1 1 4 64" >&"$lines"
ask "submit 0" "task 0"
ask "poll 0 0" "run 0"
ask "fork 0" "task 1"
ask "join 0 1 0" "run 1"
ask "end 0 ok" "done"
ask "join 0 1 0" "normal"
ask "submit 9" "refused 4"
ask "end 0 ok" "done"

exec {lines}>&-
wait "$program"
echo "each of 8 replies came before the next line was sent"
