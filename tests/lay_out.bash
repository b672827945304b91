# Sourced by scripts that build tests unproved, beside copies of the crates that they use.

# lay_out FOLDER LINE FILE..: in the folder a crate with this line of crates.txt, each file a module of it, and the crates that it stands on.
lay_out() {
    local folder=$1 line=$2 crate=${2%%:*} below file name
    shift 2
    # shellcheck disable=SC2086
    below=$(tools/crates_below ${line#*:})
    mkdir -p "$folder/crates/$crate/src"
    cp HANDLES "$folder"
    # shellcheck disable=SC2086
    tar cf - --exclude=out -C crates $below | tar xf - -C "$folder/crates"
    grep -E "^(${below//$'\n'/|}):" crates.txt > "$folder/crates.txt"
    echo "$line" >> "$folder/crates.txt"
    echo '#![tactic(auto)]' > "$folder/crates/$crate/src/lib.rt"
    for file; do
        name=$(basename "$file" .rt.in)
        cp "$file" "$folder/crates/$crate/src/$name.rt"
        printf '#[cfg(test)]\nmod %s;\n' "$name" >> "$folder/crates/$crate/src/lib.rt"
    done
}
