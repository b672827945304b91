#!/usr/bin/env python3
"""Prints a table of the mutants: the crate, the function that one changes, the clauses of its contract, the mutants.

    tests/mutants/table.py [--bare] [CRATE ..]

Of the crates named, or of all. A mutant in italics stands under tests/mutants/, another one in must-fail/. A clause without a
name is printed as `result`. A method of a trait has the trait's clauses, or what the `impl` says of a trait of a library. A
function without a clause, a constant and a type have none: there a mutant breaks an invariant, or a precondition.

With --bare: the public functions that have a contract, and that no mutant changes. One of a function that they call may try it.
"""
import argparse
import glob
import os
import re
import sys

sys.dont_write_bytecode = True
from run import FUNCTION, IMPL, KEPT, MORE, TOP, mutants_in

CLAUSE = re.compile(r"\s*(ensures|requires) (\w*)")
OTHER = re.compile(r"\s*(?:pub(?:\([^)]*\))? )?(?:const|static|struct|enum|type) (\w+)")


class Item:
    """A function, a constant or a type of a file, and the block in which it stands: a trait, or an `impl`."""

    def __init__(self, name, block, head):
        self.name, self.block, self.clauses = name, block, []
        self.is_public, self.trait = head.lstrip().startswith("pub fn"), block[1]


def items(crate, file):
    """The items of a file of a crate: for each line the one in which it stands, or None."""
    found, item, end, block = [], None, "", ("", "", [])
    with open(f"{TOP}/crates/{crate}/{file}", encoding="utf-8") as it:
        for line in it.read().split("\n"):
            if head := IMPL.match(line):
                block = (head[2], head[1] or "", [])
            elif head := re.match(r"(?:pub )?trait (\w+)", line):
                block = (head[1], head[1], [])
            elif line == "}" and not item:
                block = ("", "", [])
            if head := FUNCTION.match(line):
                item, end = Item(f"{block[0]}::{head[2]}" if block[0] else head[2], block, line), head[1] + "}"
            elif not item and (head := OTHER.match(line)):
                item, end = Item(head[1], ("", "", []), line), re.match(r"\s*", line)[0] + "}"
            clause = CLAUSE.match(line)
            if clause and clause[1] == "ensures":
                item.clauses.append(clause[2] or "result")
            elif not item and (head := re.match(r"\s+ghost (\w+) = ", line)):
                block[2].append(head[1])
            found.append(item)
            # it ends by its brace; without a body on its first line, or behind its last clause
            is_last = line in (end, end + ";") or line.endswith((";", "{}")) and not line.startswith(end[:-1] + " ")
            if is_last or clause and line.endswith("};"):
                item = None
    return found


class Crate:
    """The items of a crate by their files."""

    def __init__(self, name):
        paths = glob.glob(f"{TOP}/crates/{name}/src/**/*.rt", recursive=True)
        self.files = {it: items(name, it) for it in (os.path.relpath(it, f"{TOP}/crates/{name}") for it in sorted(paths))}

    def all(self):
        """Each item with its file, once."""
        return [(file, it) for file in self.files for it in dict.fromkeys(self.files[file]) if it]


def clauses_of(item, own, crates):
    """The names of the clauses of an item: its own, or else those of the trait."""
    if item.clauses or not item.trait:
        return item.clauses
    method = f"{item.trait}::{item.name.rpartition('::')[2]}"
    found = [it for crate in [own, *crates.values()] for _, it in crate.all() if it.name == method and it.block[0] == it.trait]
    return found[0].clauses if found else [it for it in item.block[2] if it not in ("Value", "laws")]


def main():
    words = argparse.ArgumentParser(description=__doc__, formatter_class=argparse.RawDescriptionHelpFormatter)
    words.add_argument("--bare", action="store_true")
    words.add_argument("crates", nargs="*")
    asked = words.parse_args()
    crates = {it: Crate(it) for it in sorted(os.listdir(f"{TOP}/crates"))}
    if unknown := [it for it in asked.crates if it not in crates]:
        words.error(f"no such crate: {unknown[0]}")
    changed = {}
    for place, mark in ((KEPT, "`"), (MORE, "*`")):
        for mutant in mutants_in(place):
            crate, _, name = mutant.name.partition("/")
            # where the head of an `impl` is changed too, it is for the sake of a method
            for file, line in (it for it in mutant.lines if it[0].startswith("src/")):
                if item := crates[crate].files[file][line]:
                    changed.setdefault(item, {})[f"{mark}{name}{mark[::-1]}"] = None
    print("| Crate | Function | Clauses |" + " Mutants |" * (not asked.bare))
    print("|---|---|---|" + "---|" * (not asked.bare))
    for name in (it for it in crates if not asked.crates or it in asked.crates):
        for file, item in crates[name].all():
            told, clauses = changed.get(item, {}), clauses_of(item, crates[name], crates)
            is_bare = item.is_public and clauses and not told and "tests" not in file
            if is_bare if asked.bare else told:
                row = f"| {name} | `{item.name}`, {file[len('src/') :]} | {', '.join(f'`{it}`' for it in clauses)} |"
                print(row + f" {', '.join(told)} |" * (not asked.bare))


if __name__ == "__main__":
    main()
