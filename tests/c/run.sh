#!/usr/bin/env bash
# Tests the C interface, installed in a folder of its own: its codes, the program of docs/C.md, random scripts with the replies of `fj replay`, refusals,
# histories and what `fj check` says of them, the examples in C and Python, C++, and all of it under ASan and valgrind. Needs a C compiler, the
# built program (cd crates/fj && rt run -- replay < stdin), and what c/install.sh does. What else is not there is left out: a C++ compiler,
# valgrind, Python 3 as for all tests.
# Usage: tests/c/run.sh [COUNT [SEED]]     COUNT scripts (default: 1000)
set -euo pipefail
cd "$(dirname "${BASH_SOURCE[0]}")/../.."
count=${1:-1000}
seed=${2:-1}
fj=$PWD/crates/fj/out/fj
if [[ ! -x $fj ]]; then
    echo "no $fj: cd crates/fj && rt run -- replay < stdin" >&2
    exit 1
fi

folder=$(mktemp -d)
trap 'rm -rf "$folder"' EXIT
c/install.sh "$folder" > "$folder/log" 2>&1 || { cat "$folder/log" >&2; exit 1; }
export PKG_CONFIG_PATH=$folder/lib/pkgconfig LD_LIBRARY_PATH=$folder/lib
flags=(-I"$folder/include" -L"$folder/lib")
if command -v pkg-config > /dev/null; then
    read -r -a flags < <(pkg-config --cflags fj; echo)
    flags+=(-L"$folder/lib")
fi

# compile PROGRAM SOURCE WORD..: with all warnings. compile_asan makes PROGRAM.asan of the same.
compile() { cc -std=c99 -Wall -Wextra -Wpedantic -Werror -O2 "${flags[@]}" -o "$folder/$1" "$2" "${@:3}"; }
compile_asan() { compile "$1.asan" "${@:2}" -g -fsanitize=address,undefined -fno-sanitize-recover; }
for kind in compile compile_asan; do
    "$kind" replay tests/c/replay.c "$folder/lib/libfj.a"
    "$kind" check tests/c/check.c "$folder/lib/libfj.a"
    "$kind" refusals tests/c/refusals.c "$folder/lib/libfj.a" -Wl,--wrap=malloc,--wrap=realloc
    "$kind" build examples/c/build.c -D_POSIX_C_SOURCE=200809L -pthread -lfj
done
checked=()
if command -v valgrind > /dev/null; then
    checked=(valgrind --quiet --leak-check=full --error-exitcode=99)
fi

tests/c/codes.py
awk '/^```c$/ { inside = 1; next } /^```$/ && inside { exit } inside' docs/C.md > "$folder/page.c"
compile page "$folder/page.c" -lfj
[[ $("$folder/page" | tail -n 1) == "the body of task 2" ]]
"$folder/refusals"
"$folder/refusals.asan"
"${checked[@]}" "$folder/refusals"
if command -v c++ > /dev/null; then
    c++ -std=c++11 -Wall -Wextra -Wpedantic -Werror "${flags[@]}" -o "$folder/cpp" tests/c/cpp.cc "$folder/lib/libfj.a"
    [[ $("$folder/cpp") == "run 0" ]]
fi

# wrong NUMBER FILE: the history with a line left out, doubled or made faulty, or without its last byte.
RANDOM=$seed
wrong() {
    local at=$((1 + RANDOM % $(wc -l < "$2")))
    case $(($1 % 4)) in
        0) sed "${at}d" "$2" ;;
        1) sed "${at}p" "$2" ;;
        2) sed "${at}s/./x/" "$2" ;;
        3) head -c -1 "$2" ;;
    esac
}

# says_alike PROGRAM: whether it says of the wrong history what `fj check` does.
says_alike() { { "$@" < "$script.wrong" || (($? < 6)); } | cmp - "$script.checked"; }

# Every reply of every script, and the history of its run; and what fj_check says of it, and of a wrong one.
mkdir "$folder/scripts"
tests/c/scripts.py "$fj" "$folder/scripts" "$seed" "$count" 200
for ((n = 0; n < count; n++)); do
    script=$folder/scripts/$n
    "$folder/replay" < "$script.script" | cmp - "$script.replies"
    "$folder/replay" history < "$script.script" > "$script.history"
    "$fj" check < "$script.history" > "$script.checked" || { echo "script $n: $(cat "$script.checked")" >&2; exit 1; }
    "$folder/check" < "$script.history" | cmp - "$script.checked"
    wrong "$n" "$script.history" > "$script.wrong"
    { "$fj" check < "$script.wrong" 2>&1 || true; } | sed 's/^\(line [0-9]*\):.*/\1/' > "$script.checked"
    says_alike "$folder/check"
    if ((n % 3 < 2)); then
        "$fj" trace < "$script.script" | cmp - "$script.history"
    fi
    if ((n < 12)); then
        "$folder/replay.asan" < "$script.script" | cmp - "$script.replies"
        "${checked[@]}" "$folder/replay" < "$script.script" | cmp - "$script.replies"
        "${checked[@]}" "$folder/replay" history < "$script.script" | cmp - "$script.history"
        says_alike "$folder/check.asan"
        says_alike "${checked[@]}" "$folder/check"
    fi
done
echo "$count scripts, $(cat "$folder"/scripts/*.replies | wc -l) replies, all the same"

fail() {
    echo "$1" >&2
    exit 1
}

# The build runner: each target once its inputs are there; the history of the run; and what a failure leaves out.
build() { (mkdir -p "$folder/site" && cd "$folder/site" && rm -f -- * && "$@") > "$folder/built"; }
for workers in 1 3 8; do
    build "$folder/build" "$PWD/examples/c/site.build" "$workers" history
    [[ $(wc -l < "$folder/site/site") == 9 && $(wc -l < "$folder/built") == 8 ]] || fail "$workers workers: another site"
    "$fj" check < "$folder/site/history" > /dev/null || fail "$workers workers: no history"
    "$fj" view --as svg < "$folder/site/history" > "$folder/picture"
    grep -q '</svg>' "$folder/picture" || fail "$workers workers: no picture"
done
build "$folder/build.asan" "$PWD/examples/c/site.build" 4 history
sed 's/cat head > news/exit 3/' examples/c/site.build > "$folder/failing.build"
status=0
build "$folder/build" "$folder/failing.build" 3 history 2> "$folder/told" || status=$?
[[ $status == 1 && $(cat "$folder/told") == "build: news failed with status 3" ]] || fail "a failure: $(cat "$folder/told")"
[[ -e $folder/site/about && ! -e $folder/site/home && ! -e $folder/site/site ]] || fail "a failure is built upon"
"$fj" check < "$folder/site/history" > /dev/null || fail "a failure: no history"
[[ $(grep -c 'exceptional 3$' "$folder/site/history") == 4 ]] || fail "a failure: another history"

[[ $(examples/python/sum.py "$folder/lib/libfj.so" 1000000 4) == 499999500000 ]] || fail "another sum in Python"
echo "examples: well"
