#!/usr/bin/env python3
"""Tries mutants: edits of the code that the check must refuse. Mutants of different functions share one check.

    tests/mutants/run.py [--kept] [--jobs N] [CRATE | CRATE/NAME ..]

They are those of tests/mutants/CRATE/, or with --kept those of crates/CRATE/must-fail/; with no CRATE those of all
crates. The checks run in copies, over what earlier checks kept in out/. The last line is `N refused, M let through`.
The exit status is 1 if a mutant is let through or cannot be tried, 2 if a crate is not proved without any.
"""
import argparse
import os
import re
import shutil
import subprocess
import sys
import tempfile
import time

TOP = os.path.dirname(os.path.dirname(os.path.dirname(os.path.realpath(__file__))))
HEAD = re.compile(r"\s*(//|#\[)")
IMPL = re.compile(r"(?:unsafe )?impl(?:<[^{]*?>)? (?:(?:\w+::)*(\w+)[^{]* for )?(\w+)")
FUNCTION = re.compile(r"(\s*)(?:pub(?:\([^)]*\))? )?(?:const |unsafe |extern \"C\" )*fn (\w+)")
# what is said of a proof that names what the edit took away: that judges no contract
FORM = re.compile(r"has no field|is not in scope|has no `|was not admitted")
# what is said of a function that waits for the proof of another
WAITS = re.compile(r"(no proof|not proved)[:;] it (calls|waits)")
# where the mutants of a crate stand: those that `rt ci` tries, and all others
KEPT, MORE = f"{TOP}/crates/%s/must-fail", f"{TOP}/tests/mutants/%s"
# those that a test detects, and no proof: `by_tests.py` tries them
BY_TESTS = f"{MORE}/by_tests"


def functions(crate, file, lines):
    """Returns for each line a pattern of the name that the check has for the function in which it stands, or None."""
    found, impl, at = [None] * len(lines), "", 0
    module = "::".join([crate, *(it for it in file[len("src/") : -len(".rt")].split("/") if it != "lib")])
    while at < len(lines):
        first = at
        while at + 1 < len(lines) and HEAD.match(lines[at]):
            at += 1
        if head := IMPL.match(lines[at]):
            impl = f".*::{head[2]}{head[1]}\\w*" if head[1] else f".*::{head[2]}"
        if head := FUNCTION.match(lines[at]):
            while at + 1 < len(lines) and lines[at].rstrip() not in (head[1] + "}", head[1] + ");"):
                at += 1
            found[first : at + 1] = [f"{impl if head[1] else module}::{head[2]}(::.*)?"] * (at + 1 - first)
        at += 1
    return found


class Mutant:
    """An edit: the lines that it changes, and the functions in which they stand."""

    def __init__(self, crate, edit):
        self.name = f"{crate}/{os.path.basename(edit)[: -len('.edit')]}"
        self.lines, self.functions, self.bad, self.told, self.test = {}, set(), "", "", ""
        file, old, texts, names = "", "", {}, {}
        with open(edit, encoding="utf-8") as text:
            for word, _, rest in (it.rstrip("\n").partition(": ") for it in text):
                if word == "test":
                    self.test = rest
                elif word == "file":
                    file = rest
                    if not os.path.isfile(f"{TOP}/crates/{crate}/{file}"):
                        self.bad = f"there is no file {file}"
                        return
                    if file not in texts:
                        with open(f"{TOP}/crates/{crate}/{file}", encoding="utf-8") as it:
                            texts[file] = it.read().split("\n")
                        if file.startswith("src/"):
                            names[file] = functions(crate, file, texts[file])
                elif word == "old":
                    old = rest
                elif word == "new":
                    at = [number for number, line in enumerate(texts[file]) for _ in range(line.count(old))]
                    if len(at) != 1:
                        self.bad = f"a text stands {len(at)} times in {file}: {old.strip()}"
                        return
                    self.lines[file, at[0]] = texts[file][at[0]] = texts[file][at[0]].replace(old, rest)
                    self.functions.update([names[file][at[0]]] if file in names else [])

    def may_join(self, batch):
        """Returns whether no mutant of the batch changes a function or a line of this one."""
        mine = self.functions | self.lines.keys()
        return None not in mine and not any(None in it.functions or mine & (it.functions | it.lines.keys()) for it in batch)


def mutants_in(place):
    """Returns the mutants that stand in this place, of all crates."""
    crates = [it for it in sorted(os.listdir(f"{TOP}/crates")) if os.path.isdir(place % it)]
    return [Mutant(crate, f"{place % crate}/{it}") for crate in crates for it in sorted(os.listdir(place % crate)) if it.endswith(".edit")]


def check(room, crate, jobs, mutants):
    """Checks a copy of the crate with these mutants in it. Returns what is said."""
    folder, texts = f"{room}/crates/{crate}", {}
    shutil.copytree(f"{room}/{crate}", folder)
    for (file, number), line in ((at, line) for it in mutants for at, line in it.lines.items()):
        if file not in texts:
            with open(f"{folder}/{file}", encoding="utf-8") as it:
                texts[file] = it.read().split("\n")
        texts[file][number] = line
    for file, lines in texts.items():
        with open(f"{folder}/{file}", "w", encoding="utf-8") as it:
            it.write("\n".join(lines))
    how = {"cwd": folder, "stdin": subprocess.DEVNULL, "stdout": subprocess.PIPE, "stderr": subprocess.STDOUT}
    said = subprocess.run(["rt", "check", *jobs], **how, text=True, errors="replace").stdout
    # what a check without mutants has proved is kept for those that follow
    shutil.rmtree(folder if mutants else f"{room}/{crate}")
    if not mutants:
        os.rename(folder, f"{room}/{crate}")
    return said


def refusals(said):
    """Returns what the check refused, by its name, and the goals that it did not prove."""
    found = {}
    for name, why in re.findall(r"^\w+ (\S+::\S+): (no.*)$", said, re.M):
        # the folder of a function that calls itself begins with a plus
        *outer, last = map(re.escape, name.split("::")[1:])
        folder = "/".join([*outer, rf"\+?{last}"])
        errors = re.findall(rf"^\./proofs/{folder}/\w+\.antt:\d+:\d+: error: (.*)$", said, re.M)
        goals = re.findall(r"`([^`]+)`", why.partition("did not prove ")[2].partition(";")[0])
        goals += [it[1] for it in (re.match(r"`([^`]+)`: ", it) for it in errors if not FORM.search(it)) if it]
        if goals or errors or not WAITS.match(why):
            form = f"by the form of its proof alone: {errors[0]}" if errors else why
            found[name] = ", ".join(dict.fromkeys(goals)) or form
    return found


def judge(room, crate, jobs, mutants):
    """Tries the mutants by one check, those that compile."""
    started = time.monotonic()
    said = check(room, crate, jobs, mutants)
    print(f"{crate}: {len(mutants)} in one check, {time.monotonic() - started:.0f} s", flush=True)
    if re.search(r"^logic=", said, re.M):
        found = refusals(said)
        for it in mutants:
            own = [name for name in found if any(re.fullmatch(place, name) for place in it.functions if place)]
            own = own or (list(found) if len(mutants) == 1 else [])
            it.told = "; ".join(f"{name}: {found[name]}" for name in own)
        return
    errors = re.findall(r"^(\S+?):(\d+):\d+: (error.*)$", said, re.M)
    for it in mutants:
        other = "" if len(mutants) > 1 else f"it does not reach the prover: {said[:200]}"
        it.bad = next((why for file, line, why in errors if (file, int(line) - 1) in it.lines), other)
    left = [it for it in mutants if not it.bad]
    # where no line tells whose error it is, each is tried alone
    for batch in [[it] for it in left] if left == mutants else [left] if left else []:
        judge(room, crate, jobs, batch)


def try_all(room, crate, jobs, mutants):
    """Tries the mutants of a crate in as few checks as may be, and those that are let through once more, each alone."""
    made = []
    for mutant in (it for it in mutants if not it.bad):
        batch = next((it for it in made if mutant.may_join(it)), None)
        made.append([mutant]) if batch is None else batch.append(mutant)
    for batch in made:
        judge(room, crate, jobs, batch)
        for it in (it for it in batch if len(batch) > 1 and not it.told and not it.bad):
            judge(room, crate, jobs, [it])
    for it in mutants:
        print(f"{it.name}: " + (f"BAD EDIT: {it.bad}" if it.bad else f"refused: {it.told}" if it.told else "LET THROUGH"), flush=True)


def main():
    words = argparse.ArgumentParser(description=__doc__, formatter_class=argparse.RawDescriptionHelpFormatter)
    words.add_argument("--kept", action="store_true")
    words.add_argument("--jobs", default="1")
    words.add_argument("crates", nargs="*")
    asked = words.parse_args()
    mutants, jobs = mutants_in(KEPT if asked.kept else MORE), ["--jobs", asked.jobs]
    if unknown := [it for it in asked.crates if not any(it in (mutant.name, mutant.name.split("/")[0]) for mutant in mutants)]:
        words.error(f"no such crate or mutant: {unknown[0]}")
    mutants = [it for it in mutants if not asked.crates or it.name in asked.crates or it.name.split("/")[0] in asked.crates]
    with tempfile.TemporaryDirectory(prefix="mutants-") as room:
        shutil.copytree(TOP, room, ignore=shutil.ignore_patterns(".git", "bench", "incremental"), dirs_exist_ok=True)
        for crate in dict.fromkeys(it.name.split("/")[0] for it in mutants):
            os.rename(f"{room}/crates/{crate}", f"{room}/{crate}")
            if os.path.isdir(f"{TOP}/crates/{crate}/out/incremental"):
                shutil.copytree(f"{TOP}/crates/{crate}/out/incremental", f"{room}/{crate}/out/incremental")
            said = check(room, crate, jobs, [])
            if not re.search(r"^logic=proved", said, re.M):
                print(f"{said}\n{crate} is not proved as it stands", file=sys.stderr)
                sys.exit(2)
            try_all(room, crate, jobs, [it for it in mutants if it.name.startswith(f"{crate}/")])
            shutil.rmtree(f"{room}/{crate}/out/incremental", ignore_errors=True)
            os.rename(f"{room}/{crate}", f"{room}/crates/{crate}")
    bad = sum(bool(it.bad) for it in mutants)
    through = sum(not it.bad and not it.told for it in mutants)
    print(f"{bad} cannot be tried\n" * bool(bad) + f"{len(mutants) - bad - through} refused, {through} let through")
    sys.exit(1 if bad or through else 0)


if __name__ == "__main__":
    main()
