#!/usr/bin/env python3
"""Replays 100 random scripts, and their upgrades: the replies must be the same, with tT for task T. The program is the built one, or that in the
argument."""
import pathlib
import random
import re
import subprocess
import sys

FJ = sys.argv[1] if len(sys.argv) > 1 else f"{pathlib.Path(__file__).parent}/../../crates/fj/out/fj"

# Tasks have numbers below 24; one worker or submitter in three is unknown.
LINES = """submit W; submit W; submit W N relay; submit W N relay; fork W; fork W - N stop; fork W T N relay; fork W T N relay; trigger W N; poll W T;
    poll W T; poll W T; poll W T; help W T; join W T N; end W ok; end W try; end W pass; hook W; add W T N; root W T; cancel T; state T;
    release T"""
TELLS_OF_TASK = re.compile(r"^(task|run|skip|counted|hook|spent|early|root) (\d+)$", re.MULTILINE)


def fj(command, text):
    return subprocess.run([FJ, command], input=text, stdout=subprocess.PIPE, check=True, text=True).stdout


def script(draw):
    lines = [" ".join(it.split()) for it in LINES.split(";")]
    numbers = {"W": 3, "T": 24, "N": 3}
    steps = [re.sub(r"\b[WTN]\b", lambda found: str(draw.randrange(numbers[found[0]])), draw.choice(lines)) for _ in range(200)]
    return "".join(f"{line}\n" for line in [f"{draw.choice(['async', 'joining'])} 2 2 16 4096", *steps])


def main():
    tasks = 0
    for seed in range(100):
        text = script(random.Random(seed))
        wanted = TELLS_OF_TASK.sub(r"\1 t\2", fj("replay", text))
        if fj("replay", fj("upgrade", text)) != wanted:
            sys.exit(f"the upgrade of script {seed} has other replies:\n{text}")
        tasks += wanted.count("task t")
    if tasks < 1000:
        sys.exit(f"only {tasks} tasks were made")
    print(f"100 upgrades keep the replies, of {tasks} tasks")


main()
