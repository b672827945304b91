#!/usr/bin/env python3
"""Makes the text of a module of `rt try` like that of one of `rt run`, on standard output.

Usage: as_proved.py CRATES MODULE     CRATES is the folder of the crates of which the module was made

It takes out the pattern with which each local is filled; the checks of sums, places and the like, and what stops where one fails; the marks of
functions for checks of each access, and for frame pointers. It puts in the instruction by which a thread that spins pauses, and the hints
`#[inline(always)]`, which `rt try` leaves out.
"""
import re
import sys
from pathlib import Path

LEFT_OUT = re.compile(r'  call void (@llvm\.memset\.p0\.i64\(ptr %[^,]*, i8 -86, |@"rattle-llvm-checks::|@llvm\.trap\(\)$)')
NAME = re.compile(r'define [^@]*@"?([^"(]+)')


def hinted(crates):
    """The functions with a hint, each as its crate, the module of its file, and its name."""
    for source in sorted(Path(crates).glob("*/src/**/*.rt")):
        crate, _, *path = source.relative_to(crates).with_suffix("").parts
        for name in re.findall(r"#\[inline\(always\)\]\s+(?:pub(?:\(crate\))? )?fn (\w+)", source.read_text()):
            yield crate, "::".join(path), name


def functions_of(names, crates):
    """Those of these functions that have a hint. A method stands under the module of its type, which may be another file."""
    found = set()
    for crate, module, name in hinted(crates):
        same = [n for n in names if n.startswith(crate + "::") and re.sub(r"::<.*", "", n).endswith("::" + name)]
        found.update([n for n in same if n.startswith(f"{crate}::{module}::")] or same)
    return found


def main(crates, module):
    lines = Path(module).read_text().splitlines()
    always = functions_of({NAME.match(line)[1] for line in lines if NAME.match(line)}, crates)
    spins = False
    for line in lines:
        if LEFT_OUT.match(line):
            continue
        defined = NAME.match(line)
        if defined:
            spins = defined[1] == "core::hint::spin_loop"
            if defined[1] in always:
                line = re.sub(r"( #\d+)?( |$)\{$", r" alwaysinline\1 {", line)
        elif line.startswith("attributes "):
            line = line.replace('sanitize_address "frame-pointer"="all"', "nounwind").replace('"target-cpu"="x86-64"', '"target-cpu"="x86-64-v2"')
        elif spins and line.startswith("  ret void"):
            print("  call void @llvm.x86.sse2.pause()")
        print(line)
    print("declare void @llvm.x86.sse2.pause()")


main(*sys.argv[1:])
