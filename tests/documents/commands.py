#!/usr/bin/env python3
"""Compares the manual page and the completions in share/ with what `fj --help` and the help of each command tell: commands and options. Tells what
differs; the exit status is 1 if anything does. Needs the built program, crates/fj/out/fj. Usage: tests/documents/commands.py
"""
import os
import re
import subprocess
import sys

os.chdir(os.path.dirname(os.path.dirname(os.path.dirname(os.path.realpath(__file__)))))
FJ = "crates/fj/out/fj"


def text_of(path):
    with open(path, encoding="utf-8") as it:
        return it.read()


def told(*words):
    return subprocess.run([FJ, *words, "--help"], check=True, capture_output=True, text=True).stdout


def options_in(text):
    return set(re.findall(r"--([a-z]+)", text))


def commands_in(text):
    """The commands in a help text, but `help`."""
    listed = re.search(r"^Commands:\n((?:  .*\n)+)", text, flags=re.M)
    return {it.split()[0] for it in listed[1].splitlines()} - {"help"} if listed else set()


def options_of(text):
    """The options in a help text, but `--help`."""
    listed = re.search(r"^Options:\n((?:.*\n)+?)\n", text + "\n", flags=re.M)
    return set(re.findall(r"^ +(?:-\w, )?--([a-z]+)", listed[1], flags=re.M)) - {"help"}


def in_manual(command):
    page = text_of("share/man/man1/fj.1").replace("\\-", "-")
    section = re.search(rf"^\.SS fj {command}\b.*\n((?:(?!\.S[SH]).*\n)*)", page, flags=re.M)
    return options_in(section[1]) if section else None


def in_bash(command):
    """What bash offers behind a command, or in its place."""
    script = 'source share/bash-completion/completions/fj; COMP_WORDS=(fj $1); COMP_CWORD=$#; _fj fj "" fj; echo "${COMPREPLY[*]}"'
    said = subprocess.run(["bash", "-c", script, "bash", *([command, ""] if command else [""])], check=True, capture_output=True, text=True).stdout
    return said.split()


def in_zsh(command):
    page = text_of("share/zsh/site-functions/_fj")
    groups = {name: options_in(body) for name, body in re.findall(r"^(\w+)=\(\n((?:    .*\n)+)\)", page, flags=re.M)}
    line = re.search(rf"^    {command}\) (.*) ;;", page, flags=re.M) or re.search(r"^    \*\) (.*) ;;", page, flags=re.M)
    return options_in(line[1]).union(*(groups[it] for it in re.findall(r"\$(\w+)", line[1]))) - {"help"}


def in_fish(command):
    lines = text_of("share/fish/vendor_completions.d/fj.fish").splitlines()
    seen = [it for it in lines if re.search(rf"'__fish_seen_subcommand_from [^';]*\b{command}\b", it)]
    return {it for line in seen for it in re.findall(r" -l ([a-z]+)", line)}


def differences():
    commands = commands_in(told())
    manual = set(re.findall(r"^\.SS fj (\w+)", text_of("share/man/man1/fj.1"), flags=re.M))
    zsh = set(re.findall(r"^    '(\w+):", text_of("share/zsh/site-functions/_fj"), flags=re.M)) - {"help"}
    fish = set(re.findall(r' -a (\w+) -d', text_of("share/fish/vendor_completions.d/fj.fish"))) - {"help"}
    bash = {it for it in in_bash("") if not it.startswith("--")} - {"help"}
    for place, named in [("manual page", manual), ("zsh", zsh), ("fish", fish), ("bash", bash), ("help, in bash", set(in_bash("help")))]:
        yield from (f"{place}: {it}" for it in sorted(named ^ commands))
    for command in sorted(commands):
        wanted = options_of(told(command))
        bash = {it[2:] for it in in_bash(command) if it.startswith("--")} - {"help"}
        for place, there in [("manual page", in_manual(command)), ("bash", bash), ("zsh", in_zsh(command)), ("fish", in_fish(command))]:
            if there != wanted:
                yield f"{place}, {command}: {sorted(there or [])}, and not {sorted(wanted)}"


found = list(differences())
print("\n".join(found) if found else "each command and option is in the manual page and the completions")
sys.exit(1 if found else 0)
