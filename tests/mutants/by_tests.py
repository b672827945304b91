#!/usr/bin/env python3
"""Tries the mutants that a proof lets through, and that a test must detect: those of tests/mutants/CRATE/by_tests/.

    tests/mutants/by_tests.py [CRATE | CRATE/NAME ..]

The line `test:` of each names a test by threads, or a crate and a test of it, or a script that takes `fj` as its argument, or a crate and a
script for its tests. It is run in a copy of the repository, built unproved.
The exit status is 1 if a mutant is let through or cannot be tried.
"""
import os
import re
import shutil
import subprocess
import sys
import tempfile

sys.dont_write_bytecode = True
from run import BY_TESTS, TOP, mutants_in


def run(room, *words):
    """Runs a command in the copy. Returns its status and what it said."""
    done = subprocess.run(words, cwd=room, stdin=subprocess.DEVNULL, stdout=subprocess.PIPE, stderr=subprocess.STDOUT, text=True, errors="replace")
    return done.returncode, done.stdout


def keep_tests(room, crate):
    """Builds the tests of a crate as LLVM does it, where `rt test` would. Returns what was said where that fails."""
    os.makedirs(f"{room}/crates/{crate}/out")
    os.mkdir(f"{room}/optimised")
    build = f". tools/optimised.sh; optimise crates/{crate} {room}/optimised --test"
    status, said = run(room, "bash", "-ec", f"{build}; mv {room}/optimised/program crates/{crate}/out/{crate}_tests")
    return said if status else ""


def tried(room, test):
    """Runs the test in the copy. Returns whether it could be run, whether it failed, and what was said."""
    if test.endswith(".py"):
        unbuilt, said = run(room, "tools/quick", "fj")
        if unbuilt:
            return False, False, said
        status, said = run(room, test, "crates/fj/out/quick")
        return "Traceback" not in said, status != 0, said
    crate, _, name = test.rpartition(" ")
    if name.endswith(".sh"):
        said = keep_tests(room, crate)
        if said:
            return False, False, said
        status, said = run(room, name)
        return True, status != 0, said
    said = run(f"{room}/crates/{crate}", "rt", "try", "--test")[1] if crate else run(room, "tests/threads/run.sh", "0", name)[1]
    failed = re.search(rf"^test {name} \.\.\. FAILED", said, re.M)
    passed = re.search(rf"^test {name} \.\.\. ok|: ok$", said, re.M)
    return bool(failed or passed), bool(failed), said


def try_one(mutant):
    """Tries a mutant. Returns what is said of it."""
    if mutant.bad or not mutant.test:
        return f"BAD EDIT: {mutant.bad or 'it names no test'}"
    crate = mutant.name.split("/")[0]
    with tempfile.TemporaryDirectory(prefix="mutant-") as room:
        shutil.copytree(TOP, room, ignore=shutil.ignore_patterns(".git", "out"), dirs_exist_ok=True)
        for (file, number), line in mutant.lines.items():
            with open(f"{room}/crates/{crate}/{file}", encoding="utf-8") as it:
                lines = it.read().split("\n")
            lines[number] = line
            with open(f"{room}/crates/{crate}/{file}", "w", encoding="utf-8") as it:
                it.write("\n".join(lines))
        ran, failed, said = tried(room, mutant.test)
    if not ran:
        return f"BAD EDIT: {mutant.test} cannot be run: {said[-500:]}"
    return f"detected by {mutant.test}" if failed else f"LET THROUGH by {mutant.test}"


def main():
    asked = sys.argv[1:]
    mutants = [it for it in mutants_in(BY_TESTS) if not asked or it.name in asked or it.name.split("/")[0] in asked]
    if not mutants:
        sys.exit("no such mutant")
    wrong = 0
    for mutant in mutants:
        told = try_one(mutant)
        print(f"{mutant.name}: {told}", flush=True)
        wrong += not told.startswith("detected")
    print(f"{len(mutants) - wrong} detected, {wrong} not")
    sys.exit(1 if wrong else 0)


if __name__ == "__main__":
    main()
