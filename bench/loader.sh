# Sourced by the scripts beside it, at the top of the repository. A loader is no crate of the repository: it is built in a folder of its own,
# beside copies of the crates that it uses, and where nothing else is said proved there.

# lay_out_loader NAME CRATE..: lays out the loader of bench/NAME/ beside CRATE.. and the crates below them, in a folder that is removed at the end,
# and names the loader's own folder there in `loader`. `NAME.antt.in` in bench/NAME/ has the invariants of the loop in a function NAME; `proofs/` has
# whole files of proofs.
lay_out_loader() {
    local name=$1 folder source invariants
    shift
    # shellcheck disable=SC2046
    set -- $(tools/crates_below "$@")
    folder=$(mktemp -d)
    # The folder's name is put in now: it is gone when the trap is run.
    trap "rm -rf '$folder'" EXIT
    loader=$folder/crates/$name
    mkdir -p "$loader/src"
    cp HANDLES "$folder"
    cp -r "${@/#/crates/}" "$folder/crates"
    for source in "bench/$name"/*.rt.in; do
        cp "$source" "$loader/src/$(basename "$source" .in)"
    done
    for invariants in "bench/$name"/*.antt.in; do
        [[ -e $invariants ]] || continue
        mkdir -p "$loader/proofs/$(basename "$invariants" .antt.in)"
        cp "$invariants" "$loader/proofs/$(basename "$invariants" .antt.in)/Invariants.antt"
    done
    if [[ -d bench/$name/proofs ]]; then
        (cd "bench/$name" && find proofs -name '*.antt.in') | while read -r proof; do
            mkdir -p "$loader/$(dirname "$proof")"
            cp "bench/$name/$proof" "$loader/${proof%.in}"
        done
    fi
    grep -E "^($(IFS='|'; echo "$*")):" crates.txt > "$folder/crates.txt"
    echo "$name: $* anyhow" >> "$folder/crates.txt"
}

# build_loader NAME CRATE..: lays the loader out, proves and builds it, and names its program in `loader`.
build_loader() {
    lay_out_loader "$@"
    if ! (cd "$loader" && rt run -- 1 1) > "$loader.log" 2>&1; then
        cat "$loader.log" >&2
        exit 1
    fi
    loader=$loader/out/$1
}

# time_loader WHAT THREADS ROUNDS: runs the loader, and prints how many of WHAT it made, the seconds, and how many a second.
time_loader() {
    local count nanoseconds
    read -r count nanoseconds < <("$loader" "$2" "$3")
    awk -v what="$1" -v threads="$2" -v count="$count" -v nanoseconds="$nanoseconds" 'BEGIN {
        printf "threads: %d  %s: %d  seconds: %.2f", threads, what, count, nanoseconds / 1e9
        if (nanoseconds > 0) printf "  %s/second: %.0f", what, count / nanoseconds * 1e9
        print ""
    }'
}

# build_rayon NAME: builds the program of bench/NAME/rayon over rayon as Debian has it, without a network, in `folder`, to rayon/release/NAME.
build_rayon() {
    local of_package sources
    command -v cargo > /dev/null || return 1
    of_package=$(dpkg -L librust-rayon-dev 2> /dev/null | grep '/rayon-[^/]*$') || return 1
    sources=$(dirname "$of_package")
    cp -r "bench/$1/rayon" "$folder/rayon_source"
    cargo build --release --offline --quiet --manifest-path "$folder/rayon_source/Cargo.toml" --target-dir "$folder/rayon" \
        --config 'source.crates-io.replace-with="debian"' --config "source.debian.directory=\"$sources\"" > "$loader.log" 2>&1
}
