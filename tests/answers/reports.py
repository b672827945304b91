#!/usr/bin/env python3
"""Gives texts to the program that replays scripts with their replies, crates/test_machine: how many scripts it counts in each, which wrong
reply it tells, with its place, and its status. The program is the built one, or that in the argument."""
import pathlib
import subprocess
import sys
import tempfile

HERE = pathlib.Path(__file__).parent
PROGRAM = pathlib.Path(sys.argv[1] if len(sys.argv) > 1 else HERE / "../../crates/test_machine/out/test_machine").resolve()

# A text, how many scripts it has, and the report, if a reply is wrong.
ROWS = [
    ("""# About the file.

# One task.
async 1 1 1 4
submit 0 > task 0      # the first
# A remark between two lines.
poll 0 0 > run 0

# A seal.
async 1 1 1 4
seal > sealed 0 events, gone none
""", 2, ""),
    ("# Nothing", 0, "file: no script\n"),
    ("# One task.\nasync 1 1 1 4\nsubmit 0 > task 0\npoll 0 0 > run 1", 1,
     "file:4: One task.: poll 0 0 > run 0, and not run 1 (Machine at async 1 1 1 4)\n"),
    ("async 1 1 1 4\nsubmit 0 > task 0\n\njoining 1 1 1 4\nsubmit 1 > task 0", 2,
     "file:5: : submit 1 > refused 4, and not task 0 (Machine at joining 1 1 1 4)\n"),
    ("async 1 1 1 4\nsubmit 0", 1, "file:2: : submit 0 > task 0, and not  (Machine at async 1 1 1 4)\n"),
    ("async 1 1 1 4\nsumbit 0 > task 0", 1, "file:2: : sumbit 0 > no step, and not task 0 (Machine at async 1 1 1 4)\n"),
    ("async 1 0 1 4\nsubmit 0 > task 0", 1, "file:1: : no heading: async 1 0 1 4\n"),
    ("async 1 1 1 4\n# no line", 1, "file:1: : no steps\n"),
    ("async 1 1 1 4 or async 1 1 1 0 or async 1 1 1 1\nsubmit 0 > task 0", 1, "file:1: : no heading: async 1 1 1 0\n"),
    # The second and the last heading have room for one event only.
    ("async 1 1 1 2 or async 1 1 1 1 or joining 1 1 1 1\nsubmit 0 > task 0\npoll 0 0 > run 0 or refused 3\n", 1, ""),
    ("async 1 1 1 2 or async 1 1 1 1\nsubmit 0 > task 0\npoll 0 0 > run 0", 1,
     "file:3: : poll 0 0 > refused 3, and not run 0 (Machine at async 1 1 1 1)\n"),
    ("async 1 1 1 4\nopen > none\nsubmit 0 > task 0\nquiet > yes", 1, "file:4: : quiet > no, and not yes (Machine at async 1 1 1 4)\n"),
    # Tasks with names.
    ("fj 2\nasync 1 1 1 4\nsubmit a 0 > task a\nquiet > no", 1, ""),
    ("fj 2\nasync 1 1 1 4\nsubmit a 0 > task a\nquiet > yes", 1, "file:4: : quiet > no, and not yes (Replayed by name)\n"),
]


def ran(folder, *names):
    """Status, standard output and standard error."""
    it = subprocess.run([PROGRAM, *names], cwd=folder, capture_output=True, check=False, text=True, timeout=60)
    return it.returncode, it.stdout, it.stderr


def main():
    failed = "Error: not each script gave its replies\n"
    with tempfile.TemporaryDirectory() as folder:
        wanted = [((), (1, "", "Error: usage: test_machine FILE..\n"))]
        for number, (text, scripts, report) in enumerate(ROWS):
            pathlib.Path(folder, f"{number}").write_text(text, encoding="utf-8")
            report = report.replace("file:", f"{number}:")
            wanted.append(((f"{number}",), (1 if report else 0, f"scripts in {number}: {scripts}\n", report + failed if report else "")))
        # A wrong reply in one file, and none in the next.
        wanted.append((("1", "0"), (1, "scripts in 1: 0\nscripts in 0: 2\n", f"1: no script\n{failed}")))
        for names, given in wanted:
            told = ran(folder, *names)
            if told != given:
                sys.exit(f"test_machine {' '.join(names)}: {told}, and not {given}")
    print(f"{len(wanted)} reports of wrong replies are as they should be")


main()
