#!/usr/bin/env python3
"""Compares the codes of fj_codes, and the numbers of refusals, with those of fj.h. Tells what differs; the exit status is 1 if anything does."""
import os
import re
import sys

os.chdir(os.path.dirname(os.path.dirname(os.path.dirname(os.path.realpath(__file__)))))


def text_of(path):
    with open(path, encoding="utf-8") as it:
        return it.read()


def main():
    header = text_of("include/fj.h")
    there = {name: int(number) for name, number in re.findall(r"\b(FJ_\w+) = (\d+)\b", header)}
    there |= {"FJ_STATUS_FAULT": 2**32, "FJ_NO_TASK": 2**64 - 1}
    wanted = {}
    for name, number in re.findall(r"pub const (\w+): u\d\d = ([\w:]+);", text_of("crates/fj_codes/src/codes.rt")):
        wanted[f"FJ_{name}"] = 2**64 - 1 if number == "u64::MAX" else int(number.replace("_", ""))
    for name, number in re.findall(r"Refusal::(\w+) => (\d+),", text_of("crates/fj_rules/src/refusal.rt")):
        if name != "LaneSpent":
            wanted["FJ" + re.sub(r"([A-Z])", r"_\1", name).upper()] = int(number)
    exact = ["#define FJ_STATUS_FAULT ((uint64_t)1 << 32)", "#define FJ_NO_TASK UINT64_MAX"]
    told = [f"{it}: not in fj.h" for it in exact if it not in header]
    told += [f"{name}: {there.get(name)} in fj.h, and {number} in the crates" for name, number in wanted.items() if there.get(name) != number]
    print("\n".join(told) or f"{len(wanted)} codes of fj.h are those of the crates")
    sys.exit(1 if told else 0)


main()
