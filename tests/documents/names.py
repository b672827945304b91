#!/usr/bin/env python3
"""Looks up what the documents name: each file and heading to which a link leads, each name, `Type::method` and path in their text; in docs/PROOFS.md
each function, whether it has the clauses named behind it, each definition in its file, and each test; under "What is proved" of a crate's page each
name. So with paths from the top in comments of code. What a library exports has a doc comment, and is named on the page of its crate. Tells what
is not there; the exit status is 1 if there is any.
"""
import glob
import os
import re
import sys

TOP = os.path.dirname(os.path.dirname(os.path.dirname(os.path.realpath(__file__))))
# What is made by a build, and is no part of the repository.
MADE = {"out", "target", ".git"}
# What docs/PROOFS.md and the pages of crates name of the standard library.
STANDARD = {"AllocError", "Display", "From", "Hash", "Iterator", "Read::read", "Write::flush", "Write::write", "position", "spawn", "usize"}
# What the text of a document names that is of no file here: of Java, of the toolchain, or no name.
ELSEWHERE = {"ManagedBlocker", "Throwable", "chunks_from"}
# The crates whose definitions, and whose traits with their clauses, those above share.
SHARED = ("fj_rules", "fj_body", "fj_calls")
# Definitions with their file, as docs/PROOFS.md names them.
DEFINED = re.compile(r"((?:`[^`]+`(?:, )?)+) \((\w+)\)")


def files(folder, *endings):
    """The files below a folder with one of these endings."""
    for place, below, names in os.walk(os.path.join(TOP, folder)):
        below[:] = sorted(it for it in below if it not in MADE)
        yield from (os.path.join(place, it) for it in sorted(names) if it.endswith(endings))


def text_of(path):
    with open(path, encoding="utf-8", errors="replace") as it:
        return it.read()


def anchors(text):
    """The names of the headings of a document, as links have them."""
    prose = re.sub(r"^```.*?^```", "", text, flags=re.M | re.S)
    for title in re.findall(r"^#+ (.*)$", prose, flags=re.M):
        plain = re.sub(r"\[([^]]*)\]\([^)]*\)", r"\1", title).lower().replace("`", "")
        yield re.sub(r"[^\w\- ]", "", plain).replace(" ", "-")


def broken_links(path, text):
    """The links of a document that lead nowhere."""
    for link in re.findall(r"\]\(([^)\s]+)\)", text):
        if "://" in link:
            continue
        file, _, heading = link.partition("#")
        target = os.path.normpath(os.path.join(os.path.dirname(path), file)) if file else path
        if not os.path.exists(target):
            yield f"{link}: no such file"
        elif heading and heading not in anchors(text_of(target)):
            yield f"{link}: no such heading"


class Names:
    """What the sources of a crate declare."""

    def __init__(self, crate):
        code = "\n".join(text_of(it) for it in files(f"crates/{crate}/src", ".rt"))
        self.files = {os.path.relpath(it, f"{TOP}/crates/{crate}/src") for it in files(f"crates/{crate}/src", ".rt")}
        self.functions = set(re.findall(r"\bfn (\w+)", code))
        self.types = set(re.findall(r"\b(?:struct|enum|trait|type) (\w+)", code)) | set(re.findall(r"^impl.* for (\w+)", code, flags=re.M))
        self.constants = set(re.findall(r"\bconst (\w+)", code))
        # Clauses, invariants of types, and what a trait or a ghost declaration names.
        self.clauses = set(re.findall(r"\b(?:ensures|requires|ghost|law) (\w+)", code))
        # The clauses of each function: those between its name and the next one.
        self.contracts = {}
        for name, contract in re.findall(r"\bfn (\w+)(.*?)(?=\bfn \w|\Z)", code, flags=re.S):
            self.contracts.setdefault(name, set()).update(re.findall(r"\b(?:ensures|requires) (\w+)", contract))
        self.fields = set(re.findall(r"^\s*(?:pub(?:\(crate\))? )?(\w+):", code, flags=re.M))
        self.variants = set(re.findall(r"^\s+([A-Z]\w*)(?:\(|\s*\{|,|$)", code, flags=re.M))
        self.definitions = {}
        for it in [*files(f"crates/{crate}/specs", ".antt"), *files(f"crates/{crate}/proofs", ".antt")]:
            words = set(re.findall(r"^\s*(?:abbrev |unfoldable |unfolding |record |pub |mod )+([^\s:(]+)", text_of(it), flags=re.M))
            words |= set(re.findall(r"^([^\s:(]+) :", text_of(it), flags=re.M))
            self.definitions.setdefault(os.path.basename(it)[: -len(".antt")], set()).update(words)

    def has(self, word):
        """Whether a word of a cell is declared here."""
        head, _, method = word.rpartition("::")
        if head:
            return head in self.types and method in self.functions | self.variants | self.constants | self.clauses
        known = self.functions | self.types | self.constants | self.clauses | self.fields | self.variants
        return word in known or any(word in it for it in self.definitions.values())


def code_words(cell):
    return [it for it in re.findall(r"`([^`]+)`", cell) if re.fullmatch(r"[\w:/.]+", it)]


def unknown_in_part(part, own, others, shared):
    """The functions, clauses and definitions in a part of docs/PROOFS.md, a cell or a paragraph on a crate, that neither it nor the others have."""
    for words, file in DEFINED.findall(part):
        there = {word for it in others for word in it.definitions.get(file, ())} | own.definitions.get(file, set())
        yield from (f"{it}: not in {file}" for it in re.findall(r"`([^`]+)`", words) if it not in there)
    for piece in DEFINED.sub("", part).replace(")", "; ").split("; "):
        head, _, clauses = piece.partition("`: `")
        functions = [it.rpartition("::")[2] for it in re.findall(r"`([\w:]+)", head)]
        known = {clause for name in functions for it in [own, *shared] for clause in it.contracts.get(name, ())} or own.clauses
        if clauses and "the same" not in head:
            yield from (f"{it}: no clause of {', '.join(functions)}" for it in code_words(f"`{clauses}") if it not in known)
        for word in code_words(piece):
            is_name = "/" not in word and not word.startswith("fj_") and not word.endswith(".rt") and word not in STANDARD
            if is_name and not any(it.has(word) for it in [own, *others]):
                yield f"{word}: not declared"


def unknown_tests(cells, names, trials):
    """The files and the tests of a row of what is only tested that are not there. `trials` are the texts of those below `tests/`."""
    yield from (f"{it}: no such crate" for it in re.findall(r"\bfj_\w+", cells[1]) if it not in names)
    for word in code_words(cells[1]):
        if word.endswith(".rt") and not any(word in it.files for it in names.values()):
            yield f"{word}: no such file"
    for word in code_words(cells[2]):
        if "/" in word:
            is_there = os.path.exists(f"{TOP}/{word}")
        else:
            # A word without `_` is part of a run, as `args`.
            is_there = "_" not in word or any(word in it.functions for it in names.values())
        if not is_there and not any(it == word or f"fn {word}(" in text for it, text in trials.items()):
            yield f"{word}: no such test"


def words_of_files():
    """Every word in a file that is no document, and in the name of one."""
    words = set()
    for path in files("", ""):
        words.update(re.findall(r"\w+", os.path.relpath(path, TOP)))
        if not path.endswith(".md"):
            words.update(re.findall(r"\w+", text_of(path)))
    return words


def unheard_in_text(text, words):
    """The names in the text of a document, in capitals or with `_`, that are in no other file."""
    prose = re.sub(r"^```.*?^```", "", text, flags=re.M | re.S)
    for word in sorted(set(re.findall(r"`([a-z]\w*_\w+|[A-Z]\w+)`", prose)) - words - ELSEWHERE):
        yield f"{word}: in no file"


def unknown_in_text(path, text, names):
    """The methods and the paths that a document names and that are not there. A word with a capital in a path stands for any name, and what is
    made by a build, or lies outside, is left out."""
    prose = re.sub(r"^```.*?^```", "", text, flags=re.M | re.S)
    for word in code_words(prose):
        head, _, method = word.rpartition("::")
        declaring = [it for it in names.values() if head in it.types] if "::" in word else []
        if declaring and not any(it.has(word) for it in declaring):
            yield f"{word}: not declared"
    inside = ["", "src/", "specs/", "proofs/"]
    places = [TOP, os.path.dirname(path), *(f"{TOP}/crates/{crate}/{it}" for crate in names for it in inside)]
    for word in re.findall(r"`((?:\w+/)+[\w.*]*)`", prose):
        parts = word.split("/")
        is_left_out = parts[0] in MADE or any(it.isupper() for it in parts)
        if not is_left_out and not any(glob.glob(f"{it}/{word}") or os.path.exists(f"{it}/{word}.antt") for it in places):
            yield f"{word}: no such path"


def unknown_in_code(text):
    """The paths from the top that comments of code name and that are not there."""
    for word in re.findall(r"`((?:bench|crates|docs|tests)/[\w./]+)`", text):
        if not os.path.exists(f"{TOP}/{word}"):
            yield f"{word}: no such path"


def unknown_on_page(text, names):
    """What the page of a crate names under "What is proved", functions, clauses, types and definitions, and no crate declares."""
    proved = text.partition("## What is proved")[2].partition("\n## ")[0]
    for word in code_words(re.sub(r"^```.*?^```", "", proved, flags=re.M | re.S)):
        is_file = "/" in word or "." in word
        if not is_file and word not in STANDARD and word not in names and not any(it.has(word) for it in names.values()):
            yield f"{word}: not declared"


def unnamed_exports(crate, page):
    """What a library exports without a doc comment, or without a word on its page."""
    uses = re.findall(r"^pub use (\w+)::([^;]+);", text_of(f"{TOP}/crates/{crate}/src/lib.rt"), flags=re.M)
    exported = {it for module, items in uses if not module.startswith("fj_") for it in re.findall(r"\w+", items)}
    for path in files(f"crates/{crate}/src", ".rt"):
        of, lines = "", text_of(path).split("\n")
        for at, line in enumerate(lines):
            of = (re.match(r"impl(?:<.*?>)? (?:.* for )?(\w+)", line) or [0, of])[1]
            item = re.match(r"( *)pub (?:fn|const|struct|enum|trait|type) (\w+)", line)
            if not item or (of if item[1] else item[2]) not in exported:
                continue
            above = next(it for it in reversed(lines[:at]) if not it.strip().startswith("#["))
            if not above.strip().startswith("///"):
                yield f"{item[2]}: exported without a doc comment"
            if not re.search(rf"\b{item[2]}\b", page):
                yield f"{item[2]}: exported, and not named here"


def main():
    crates = sorted(os.listdir(f"{TOP}/crates"))
    names = {it: Names(it) for it in crates}
    told, words = [], words_of_files()
    for path in files("", ".md"):
        text = text_of(path)
        page = os.path.relpath(path, TOP)
        told += [f"{page}: {it}" for it in [*broken_links(path, text), *unknown_in_text(path, text, names), *unheard_in_text(text, words)]]
    for path in files("", ".rt", ".rt.in", ".antt"):
        told += [f"{os.path.relpath(path, TOP)}: {it}" for it in unknown_in_code(text_of(path))]
    for crate in crates:
        if not os.path.exists(f"{TOP}/crates/{crate}/README.md"):
            told.append(f"crates/{crate}: no README.md")
            continue
        page = text_of(f"{TOP}/crates/{crate}/README.md")
        unknown = [*unknown_on_page(page, names)]
        if os.path.exists(f"{TOP}/crates/{crate}/src/lib.rt"):
            unknown += unnamed_exports(crate, page)
        told += [f"crates/{crate}/README.md: {it}" for it in unknown]
    trials = {os.path.basename(it): text_of(it) for it in files("tests", ".rt.in", ".sh")}
    crate, is_tested = "", False
    for number, line in enumerate(text_of(f"{TOP}/docs/PROOFS.md").split("\n"), 1):
        if line.startswith("## "):
            crate = {"The headline": "fj_machine"}.get(line[3:], line[3:] if line[3:] in crates else "")
            is_tested = line == "## What is only tested"
        cells = line.strip("| ").split(" | ") if line.startswith("| ") else []
        unknown = unknown_tests(cells, names, trials) if is_tested and len(cells) == 3 else []
        if crate and not line.startswith("#"):
            # The second cell names what the crate has, and what crates share; the others name what any crate has.
            shared = [names[it] for it in SHARED]
            parts = [(it, shared if it is cells[1] else names.values()) for it in cells[1:]] or [(line, names.values())]
            unknown = [word for it, others in parts for word in unknown_in_part(it, names[crate], others, shared)]
        told += [f"docs/PROOFS.md:{number}: {it}" for it in unknown]
    print("\n".join(told) or "each name in the documents is there")
    sys.exit(1 if told else 0)


if __name__ == "__main__":
    main()
