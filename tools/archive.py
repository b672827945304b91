#!/usr/bin/env python3
"""Proves a static library and builds its archive: archive.py CRATE prints its path, out/libCRATE.a in the folder of the crate.

Over the libraries that `rt ci` left this takes a minute or two. Where one is not there, or is older than its sources, `rt lib` proves all of them
first, some ten minutes. An archive that is newer than all sources stays as it is.
"""
import os
import subprocess
import sys

TOP = os.path.dirname(os.path.dirname(os.path.realpath(__file__)))


def dependencies():
    """The crates of crates.txt, each with those that it names."""
    with open(f"{TOP}/crates.txt", encoding="utf-8") as it:
        rows = [row.split(":", 1) for row in it if ":" in row and not row.startswith("#")]
    return {head.split()[0]: below.split() for head, below in rows}


def newest_source(crate):
    folders = [f"{TOP}/crates/{crate}/{it}" for it in ("src", "specs", "proofs")]
    return max(os.path.getmtime(os.path.join(at, name)) for folder in folders for at, _, names in os.walk(folder) for name in names)


def rlib(crate):
    return f"{TOP}/crates/{crate}/out/rlib/{crate}.rlib"


def build(kit, crate, archive, deps, below):
    """Builds the archive over the libraries below, as `rt lib` does."""
    words = ["--crate-name", crate, "src/lib.rt", "--crate-type", "staticlib", "--links", f"{crate}=", "--jobs", "2"]
    for it in ["std", *deps[crate]]:
        words += ["--extern", f"{it}={rlib(it) if it in deps else f'{kit}/rlibs/{it}.rlib'}"]
    for folder in [f"{kit}/rlibs", *(os.path.dirname(rlib(it)) for it in below)]:
        words += ["-L", f"dependency={folder}"]
    words += ["--antt-project", f"{kit}/rattle/logic/antt-project.json", "--logic-built", f"{kit}/logic_built"]
    words += ["--toolchain", f"{kit}/toolchain", "--backend", "llvm", "-o", archive]
    return [f"{kit}/bin/rattle", "build", *words]


def main(crate):
    deps = dependencies()
    below = [crate]
    for it in below:
        below += [dep for dep in deps[it] if dep in deps and dep not in below]
    below.remove(crate)
    archive = f"{TOP}/crates/{crate}/out/lib{crate}.a"
    if not os.path.exists(archive) or os.path.getmtime(archive) < max(map(newest_source, [crate, *below])):
        left = all(os.path.exists(rlib(it)) and os.path.getmtime(rlib(it)) >= newest_source(it) for it in below)
        kit = os.path.dirname(subprocess.run(["rt", "doc"], check=True, capture_output=True, text=True).stdout.strip())
        words = build(kit, crate, archive, deps, below) if left else ["rt", "lib"]
        os.makedirs(os.path.dirname(archive), exist_ok=True)
        if subprocess.run(words, cwd=f"{TOP}/crates/{crate}", stdout=sys.stderr).returncode:
            sys.exit(f"{crate} was not built")
    print(archive)


main(*sys.argv[1:])
