# Sourced by tools/quick and bench/unproved.sh: how a program of which nothing is proved is built with optimisation, and without checks.

# optimise CRATE FOLDER [--test]: has `rt try` make the module of the program in the folder CRATE, or of its tests, makes it like that of a proved
# build, and compiles it as such a one, to FOLDER/program. All that it makes stands in FOLDER; `log` there has what `rt try` says.
optimise() {
    local kit copy=$2/kit work=$2 file compile tools
    kit=$(dirname "$(rt doc)")
    tools=$(dirname "${BASH_SOURCE[0]}")
    # A kit whose clang keeps the module and stops, in the place of a compilation with checks.
    mkdir -p "$copy/bin" "$copy/toolchain/bin"
    for file in "$kit"/* "$kit"/bin/rattle* "$kit"/toolchain/lib "$kit"/toolchain/bin/*; do
        [[ -e $copy/${file#"$kit/"} ]] || ln -s "$file" "$copy/${file#"$kit/"}"
    done
    cp "$kit"/bin/rt* "$copy/bin"
    rm "$copy/toolchain/bin/clang"
    printf '%s\n' '#!/bin/sh' 'case "$*" in' \
        "*-fsanitize=address*) cp module.bc '$work/module.bc'; exit 1 ;;" 'esac' \
        "exec '$kit/toolchain/bin/clang' \"\$@\"" > "$copy/toolchain/bin/clang"
    chmod +x "$copy/toolchain/bin/clang"
    rm -f "$work/module.bc"
    (cd "$1" && "$copy/bin/rt" try "${@:3}") > "$work/log" 2>&1 < /dev/null || [[ -e $work/module.bc ]] || { cat "$work/log" >&2; return 1; }
    compile=("$kit/toolchain/bin/clang" --target=x86_64-unknown-linux-gnu --no-default-config -x ir)
    "${compile[@]}" -S -emit-llvm -Xclang -disable-llvm-passes -o "$work/module.ll" "$work/module.bc"
    "$tools/as_proved.py" "$1/.." "$work/module.ll" > "$work/as_proved.ll"
    "${compile[@]}" --sysroot="$kit/toolchain" "${options_of_run[@]}" -c -o "$work/module.o" "$work/as_proved.ll"
    "$kit/bin/rattle-link" --target x86_64-unknown-linux-gnu --toolchain "$kit/toolchain" -o "$work/program" "$work/module.o" \
        "$kit/c/libos_c.a" "$kit/c/liblibc_c.a" > "$work/linking" 2>&1 || { cat "$work/linking" >&2; return 1; }
}

# With what `rt run` compiles a module.
options_of_run=(-march=x86-64 -fPIE -O3 -ffunction-sections -fdata-sections -Xclang -fmerge-functions -mllvm -mergefunc-use-aliases
    -mllvm -disable-machine-licm -mllvm -disable-postra-machine-licm -mllvm -sink-common-insts=false -mllvm -no-x86-call-frame-opt
    -mllvm -trap-unreachable -mllvm -no-trap-after-noreturn)
