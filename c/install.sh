#!/usr/bin/env bash
# Builds the library of include/fj.h, and installs it: include/fj.h, lib/libfj.a, lib/libfj.so and lib/pkgconfig/fj.pc below a folder.
# Usage: c/install.sh [FOLDER]     (default: /usr/local)
# Needs rt, Python 3, a C compiler as cc, and GNU's ld, objcopy and ar. crates/fj_c is proved and built first, where it has changed.
set -euo pipefail
cd "$(dirname "${BASH_SOURCE[0]}")/.."

prefix=${1:-/usr/local}
archive=$(tools/archive.py fj_c)
kit=$(dirname "$(rt doc)")
work=$(mktemp -d)
trap 'rm -rf "$work"' EXIT

# One object, in which only what fj.h names can be seen: the guard, what is proved, and the toolchain's calls of malloc, realloc and free.
cc -std=c99 -O2 -fPIC -Wall -Wextra -Iinclude -c -o "$work/guard.o" c/guard.c
ld -r -o "$work/fj.o" "$work/guard.o" --whole-archive "$archive" "$kit/c/liblibc_c.a"
objcopy --wildcard --localize-symbol='fj_c_*' --localize-symbol='rattle_*' "$work/fj.o"

mkdir -p "$prefix/include" "$prefix/lib/pkgconfig"
cp include/fj.h "$prefix/include"
rm -f "$prefix/lib/libfj.a"
ar rcs "$prefix/lib/libfj.a" "$work/fj.o"
cc -shared -Wl,-soname,libfj.so -Wl,-z,defs -o "$prefix/lib/libfj.so" "$work/fj.o"
sed "s|@prefix@|$(cd "$prefix" && pwd)|" c/fj.pc.in > "$prefix/lib/pkgconfig/fj.pc"
