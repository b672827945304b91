#!/usr/bin/env python3
"""Looks up whether the mutants fit the code: of each the files are there, and each `old:` stands once in its file; none has the name of another
one of its crate. Tells those that do not; the exit status is 1 if there are any. None is tried: that is run.py.

Usage: tests/mutants/edits.py
"""
import collections
import os
import sys

sys.dont_write_bytecode = True
from run import BY_TESTS, KEPT, MORE, TOP, mutants_in


def main():
    mutants = [it for place in (KEPT, MORE, BY_TESTS) for it in mutants_in(place)]
    told = [f"{it.name}: {it.bad or 'changes nothing'}" for it in mutants if it.bad or not it.lines]
    told += [f"{name}: {times} have this name" for name, times in collections.Counter(it.name for it in mutants).items() if times > 1]
    folders = [it for it in sorted(os.listdir(f"{TOP}/tests/mutants")) if os.path.isdir(MORE % it)]
    told += [f"tests/mutants/{it}: no such crate" for it in folders if not os.path.isdir(f"{TOP}/crates/{it}")]
    print("\n".join(told) or f"each of {len(mutants)} mutants fits the code")
    sys.exit(1 if told else 0)


if __name__ == "__main__":
    main()
