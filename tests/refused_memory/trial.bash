# Sourced by the trials of this folder. Needs a C compiler.

here=$(cd "$(dirname "${BASH_SOURCE[0]}")" && pwd)
crates=$here/../../crates
folder=$(mktemp -d)
trap 'rm -rf "$folder"' EXIT
cc -O1 -shared -fPIC -o "$folder/refuse.so" "$here/refuse.c" -ldl

# refuse NUMBER PROGRAM [ARGUMENT..]: runs the program with its allocation of this number refused. What it printed is in $folder/out.
refuse() {
    local number=$1
    shift
    REFUSE_AT=$number LD_PRELOAD=$folder/refuse.so "$@" > "$folder/out" 2>&1
}

# fail TEXT: ends the trial, and shows what the program printed.
fail() {
    echo "$1" >&2
    cat "$folder/out" >&2
    exit 1
}

# refuse_making MOST LAST PROGRAM [ARGUMENT..]: refuses each allocation of a test in turn. There are at most MOST, all of what it makes,
# which must answer that memory is out. With any later one refused, up to that of number LAST, the test must pass.
refuse_making() {
    local most=$1 last=$2 number later
    shift 2
    for ((number = 1; number <= most; number++)); do
        if refuse "$number" "$@"; then
            break
        fi
        grep -Eq '^error: (OutOfMemory|AllocError|AllocFailed \{ \.\. \})$' "$folder/out" || fail "allocation $number: another end"
    done
    ((number > 1)) || fail "no allocation was seen"
    for ((later = number; later <= last; later++)); do
        refuse "$later" "$@" || fail "allocation $later: refused after the making"
    done
    echo "$((number - 1)) allocations, each refused in turn"
}
