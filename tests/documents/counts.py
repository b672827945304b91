#!/usr/bin/env python3
"""Counts what the documents and the help count: samples, scripts, limits; the folders of tests by threads beside their table, the crates of others beside what is
trusted, our own in the table of all. Tells what differs; the exit status is 1 if anything does. Usage: tests/documents/counts.py
"""
import glob
import os
import re
import sys

os.chdir(os.path.dirname(os.path.dirname(os.path.dirname(os.path.realpath(__file__)))))
WORDS = "no one two three four five six seven eight nine ten eleven twelve".split()


def text_of(path):
    with open(path, encoding="utf-8") as it:
        return it.read()


def number(word):
    return WORDS.index(word.lower()) if word.lower() in WORDS else int(re.sub(r"[,_]", "", word))


def constant(name):
    """The value of a constant, which one crate alone has."""
    found = [re.search(rf"pub const {name}: \w+ = ([\d_]+);", text_of(it)) for it in glob.glob("crates/*/src/**/*.rt", recursive=True)]
    return number(next(it[1] for it in found if it))


def differing_numbers():
    """What a document says of how many there are, and how many there are."""
    samples = [text_of(it) for it in glob.glob("crates/fj_rules/proofs/Samples/*.antt") if "AllowedTest" not in it and "/Scripts." not in it]
    laws = [law for it in samples for law in re.findall(r"^pub \w+\s*:\s*(\w+)", it, flags=re.M)]
    refused = len(re.findall(r"^pub \w+ :", text_of("crates/fj_rules/proofs/Samples/RefusedHistories.antt"), flags=re.M))
    replayed = laws.count("IsReplayed")
    others = len(laws) - replayed - refused
    scripts = sum(int(it) for it in re.findall(r": (\d+)$", text_of("crates/test_machine/stdout"), flags=re.M))
    limits = [constant(f"MAX_{it}") for it in ("WORKERS", "SUBMITTERS", "TASKS", "EVENTS")]
    pool = [*limits[:2], constant("MAX_TICKETS"), *limits[2:]]
    for page, said, there in [
        ("docs/PROOFS.md", r"\| (\d+) sample scripts .* Of (\w+) more", [replayed, others]),
        ("docs/PROOFS.md", r"\| (\w+) small histories are refused", [refused]),
        ("docs/PROOFS.md", r"\| (\d+) scripts, by values from outside", [scripts]),
        ("crates/fj_rules/README.md", r"computes (\d+) sample scripts .* and (\w+) small histories", [replayed + others, refused]),
        ("README.md", r"Bounds: (\S+) workers, (\S+) submitters of (\S+) bodies each, (\S+) live tasks, (\S+) events", pool),
        ("docs/MODEL.md", r"1 to (\S+) workers, 1 to (\S+) submitters, 1 to (\S+) kept tasks and 1 to (\S+) events", limits),
        ("docs/POOL.md", r"1 to (\S+) workers and submitters, 1 to (\S+) tasks, 1 to (\S+) events", limits[1:]),
        ("docs/MANUAL.md", r"More than (\S+) are a fault of the command line", [constant("MAX_BLOCKS")]),
        ("crates/fj_arguments/src/help.rt", r"at least 1 of each, at\s+most (\d+), (\d+), (\d+) and (\d+)", limits),
        ("crates/fj_arguments/src/help.rt", r"At most (\d+) blocks", [constant("MAX_BLOCKS")]),
    ]:
        given = re.search(said, text_of(page))
        numbers = [number(it) for it in given.groups()] if given else "nothing like"
        if numbers != there:
            yield f"{page}: {numbers} by {said}, and there are {there}"


def missing_names():
    """What should stand in a table, and does not; and what stands there alone."""
    tests = {os.path.basename(os.path.dirname(it)) for it in glob.glob("tests/threads/*/*_tests.rt.in")}
    told = set(re.findall(r"^\| `(\w+)/` \|", text_of("tests/threads/README.md"), flags=re.M))
    yield from (f"tests/threads/README.md: {it}" for it in sorted(tests ^ told))
    names = re.findall(r"^(\w+)(?: staticlib)?: ?(.*)$", text_of("crates.txt"), flags=re.M)
    foreign = {it for _, below in names for it in below.split() if it not in dict(names)}
    trusted = text_of("docs/PROOFS.md").partition("## What is trusted")[2]
    yield from (f"docs/PROOFS.md, what is trusted: {it}" for it in sorted(foreign) if f"`{it}`" not in trusted)
    page = text_of("docs/ARCHITECTURE.md")
    yield from (f"docs/ARCHITECTURE.md: {it}" for it, _ in names if not re.search(rf"\b{it}\b", page))
    for crate, _ in names:
        if len(glob.glob(f"crates/{crate}/must-fail/*.edit")) > 30:
            yield f"crates/{crate}/must-fail: more than 30"


def main():
    told = [*differing_numbers(), *missing_names()]
    print("\n".join(told) or "each number in the documents is right")
    sys.exit(1 if told else 0)


if __name__ == "__main__":
    main()
