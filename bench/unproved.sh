# Sourced by pool.sh, jobs.sh and serve.sh, after loader.sh: how a loader of which nothing is proved is built and run.
. tools/optimised.sh

# try_cases CASES: builds the loader in the folder `loader` as `rt try` does, with checks of each access and no optimisation, and runs it once for
# each file NAME of the folder CASES, with the words of NAME.args. Prints for each a line with NAME and what the loader wrote.
try_cases() {
    if ! (cd "$loader" && rt try --seconds 60 --cases "$1") > "$loader.log" 2>&1; then
        cat "$loader.log" >&2
        exit 1
    fi
    # a line "== NAME", what the loader wrote, and a line "case=NAME .. status=STATUS .."
    awk '/^== / { name = $2; next } /^case=/ { if (!/ status=0 /) { print > "/dev/stderr"; exit 1 } next } name { print name, $0; name = "" }' "$loader.log"
}

# optimise_loader: builds the loader by `optimise`, and names the program in `program`.
optimise_loader() {
    optimise "$loader" "$loader/optimised"
    program=$loader/optimised/program
}

# run_cases CASES: as try_cases, with the program `program`.
run_cases() {
    local words case figures
    for words in "$1"/*.args; do
        mapfile -t case < "$words"
        figures=$(timeout 60 "$program" "${case[@]}")
        echo "$(basename "$words" .args) $figures"
    done
}
