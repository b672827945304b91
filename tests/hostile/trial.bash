# Sourced by the scripts beside it: the program, a folder that is removed at the end, and what each run must end with.

fj=$PWD/crates/fj/out/fj
[[ -x $fj ]] || { echo "$fj is not built: (cd crates/fj && rt run -- replay < stdin)" >&2; exit 1; }
folder=$(mktemp -d)
trap 'rm -rf "$folder"' EXIT

# How many seconds a run may take: none takes so long that ends.
patience=60

fail() {
    echo "$1" >&2
    exit 1
}

# run WORD..: runs the program with these words; its status is in `status`, what it says on standard error in $folder/err.
run() {
    status=0
    timeout "$patience" "$fj" "$@" 2> "$folder/err" || status=$?
}

# ended WHAT STATUS TEXT: what the last run ended with must be this.
ended() {
    [[ $status == "$2" && $(cat "$folder/err") == "$3" ]] ||
        fail "$1: status $status, $(cat "$folder/err"), and not status $2, $3"
}

# begins WHAT FILE: what stands there must be a beginning of the right replies, which are in $folder/replies.
begins() {
    head -c "$(wc -c < "$2")" "$folder/replies" | cmp - "$2" || fail "$1: not a beginning of the right replies"
}
