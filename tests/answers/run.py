#!/usr/bin/env python3
"""Runs the cases of the texts beside it on `fj`: what it answers must be what is written. The program is the built one, or that in the argument.

A case begins with `== ` and has one of these forms.
`== fj WORDS`: its input, then `--` with the exit status, if that is not 0, then what is written to standard output and standard error. In an
    input `\\x20`, `\\r`, `\\t` and `\\\\` stand for a byte, and `\\c` at the end for no line feed. `-- count` is followed by numbers with a text:
    so many lines of the output have that text.
`== fj WORDS, each`: a table of lines, of which each is run alone, behind the lines above `..`, with the same answer.
`== rows`, or `== rows with WORDS; WORDS`: a run a line, with each of these further words. A row has the words, the input, the output, standard
    error and the status between ` | `; `;` stands for a line feed.
`== parts STATUS`: a run a line, with the words and then parts that its output has, or at a status above 0 standard error. The other one stays
    empty, and the output has 80 columns.
"""
import pathlib
import re
import subprocess
import sys

HERE = pathlib.Path(__file__).parent
FJ = sys.argv[1] if len(sys.argv) > 1 else f"{HERE}/../../crates/fj/out/fj"
BYTES = {b"\\r": b"\r", b"\\t": b"\t", b"\\\\": b"\\"}


def run(words, given):
    """What the program writes to standard output and to standard error, and its exit status."""
    ran = subprocess.run([FJ, *words.split()], input=given, stdout=subprocess.PIPE, stderr=subprocess.PIPE, timeout=60)
    return ran.stdout.decode(), ran.stderr.decode(), ran.returncode


def decoded(lines):
    """The bytes of these lines of an input."""
    text = "".join(f"{line}\n" for line in lines)
    text = (text.removesuffix("\\c\n") if text.endswith("\\c\n") else text).encode()
    byte = lambda found: BYTES.get(found[0]) or bytes.fromhex(found[0][2:].decode())
    return re.sub(rb"\\(x[0-9a-f]{2}|[rt\\])", byte, text)


def cut(row):
    """The parts of a row."""
    return f"{row} ".split(" | ") if row.startswith("|") is False else f" {row} ".split(" | ")


def whole(words, lines):
    """The runs of a case with an input and an answer: words, input, and whether an answer is right."""
    (at,) = [at for at, line in enumerate(lines) if re.fullmatch(r"--( \d| count)?", line)]
    given, kind, wanted = lines[:at], lines[at][3:], lines[at + 1 :]
    words, each, _ = words.partition(", each")
    if kind == "count":
        counts = [row.split(" ", 1) for row in wanted]
        is_right = lambda out, err, status: status == 0 and all(sum(text in it for it in out.split("\n")) == int(n) for n, text in counts)
    else:
        answer = "".join(f"{line}\n" for line in wanted)
        is_right = lambda out, err, status: (out + err, status) == (answer, int(kind or 0))
    if not each:
        return [(words, decoded(given), is_right)]
    behind = given.index("..")
    return [(words, decoded([*given[:behind], line]), is_right) for line in given[behind + 1 :]]


def rows(more, lines):
    """The runs of rows, with each of these words."""
    found = []
    for row in lines:
        words, given, out, err, status = [*(it.strip() for it in cut(row)), "", "", ""][:5]
        answer = (out.replace(";", "\n"), err.replace(";", "\n"), int(status or 0))
        found += [(f"{words} {it}", given.replace(";", "\n").encode(), lambda *told, answer=answer: told == answer) for it in more]
    return found


def parts(status, lines):
    """The runs of rows that say which parts a text has."""

    def is_right(wanted, out, err, ended):
        told, silent = (err, out) if status else (out, err)
        fits = status or all(len(line.encode()) <= 80 for line in told.split("\n"))
        return ended == status and silent == "" and fits and all(part in told for part in wanted)

    found = []
    for row in lines:
        words, *wanted = cut(row)
        wanted[-1] = wanted[-1].removesuffix(" ")
        wanted = [part.replace("\\n", "\n") for part in wanted]
        found.append((words, b"", lambda *told, wanted=wanted: is_right(wanted, *told)))
    return found


def cases_in(text):
    """Each case: the number of its line, and its runs."""
    lines = text.rstrip("\n").split("\n")
    starts = [at for at, line in enumerate(lines) if line.startswith("== ")]
    for at, end in zip(starts, [*starts[1:], len(lines) + 1]):
        head, case = lines[at][3:], lines[at + 1 : end - 1]
        said = [line for line in case if not line.startswith("# ")]
        if head.startswith("rows"):
            yield at + 1, rows(head.removeprefix("rows").removeprefix(" with ").split("; "), said)
        elif head.startswith("parts "):
            yield at + 1, parts(int(head[6:]), said)
        else:
            yield at + 1, whole(head.removeprefix("fj "), case)


def main():
    count, wrong = 0, 0
    for file in sorted(HERE.glob("*.txt")):
        for line, runs in cases_in(file.read_text()):
            for words, given, is_right in runs:
                out, err, status = run(words, given)
                count += 1
                if not is_right(out, err, status):
                    wrong += 1
                    print(f"{file.name}, line {line}: fj {words}, of {given!r}, ends with {status}, and writes\n{out}{err}", file=sys.stderr)
    if wrong:
        sys.exit(f"{wrong} of {count} answers are others")
    print(f"{count} answers are those written")


if __name__ == "__main__":
    main()
