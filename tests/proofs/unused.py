#!/usr/bin/env python3
"""Tells the laws of crates/*/proofs/ that nothing names: no proof, definition, clause or document. The search of the check uses a law only
where it is named, so such a law is left over from a proof that has changed.

Usage: tests/proofs/unused.py
Laws of proofs/Samples, which are theorems for their own sake, are left out, and so are the answers to goals, which the check looks for by
their names. The exit status is 0 where each law is named.
"""
import collections
import pathlib
import re
import sys

ROOT = pathlib.Path(__file__).resolve().parents[2]
NAME = r"[A-Za-z_][A-Za-z0-9_'\-≡≢≤]*"
DECLARED = re.compile(rf"^( *)((?:abbrev |pub )*)([a-z][A-Za-z0-9_'\-≡≢≤]*) : ")
READ = ["crates/*/**/*.antt", "crates/*/**/*.rt", "bench/**/*.in", "tests/threads/**/*.in", "docs/*.md", "crates/*/README.md"]


def indent(line):
    return len(line) - len(line.lstrip())


def belongs(line, name, depth):
    """Whether a line goes on with the declaration of this name, which stands so deep."""
    if not line.strip() or indent(line) > depth:
        return True
    heads = rf" *({re.escape(name)}(?![A-Za-z0-9_'\-≡≢≤])|unfolding |[}}\])])"
    return indent(line) == depth and re.match(heads, line) is not None


def laws(text):
    """The name of each law with its lines. A field of a record has no equation, and is none."""
    lines = text.split("\n")
    for at, line in enumerate(lines):
        declared = DECLARED.match(line)
        if not declared or len(declared[1]) > 2:
            continue
        end = at + 1
        while end < len(lines) and belongs(lines[end], declared[3], len(declared[1])):
            end += 1
        whole = lines[at:end]
        if any(re.match(rf" *{re.escape(declared[3])}(?![A-Za-z0-9_'\-≡≢≤])", one) for one in whole[1:]):
            yield declared[3], "pub" in declared[2], "\n".join(whole)


def is_answer(path):
    return path.name in ("Answers.antt", "Invariants.antt", "Proof.antt")


def main():
    paths = {path for pattern in READ for path in ROOT.glob(pattern) if "out" not in path.relative_to(ROOT).parts}
    texts = {path: path.read_text() for path in paths}
    named = collections.Counter(name for text in texts.values() for name in re.findall(NAME, text))
    unused = []
    for path in sorted(paths):
        parts = path.relative_to(ROOT).parts
        if path.suffix != ".antt" or "proofs" not in parts or "Samples" in parts:
            continue
        for name, public, whole in laws(texts[path]):
            if is_answer(path) and public:
                continue
            if named[name] == re.findall(NAME, whole).count(name):
                unused.append(f"{path.relative_to(ROOT)}: nothing names {name}")
    print("\n".join(unused) or "each law is named")
    return 1 if unused else 0


sys.exit(main())
