#!/usr/bin/env python3
"""Writes scripts of all steps at random, each with the replies of `fj replay`.

    scripts.py FJ FOLDER SEED COUNT STEPS     FOLDER/N.script and FOLDER/N.replies, for N from 0 on

Most steps fit what the workers hold, as the replies told; the others name any worker, task or count, also such as there is none. Every third
script has seals, which `fj` reads in version 2: there task T has the name tT, and the files have the lines of version 1, with `seal` and `epoch`.
"""
import random
import re
import subprocess
import sys

LARGE = 4294967295


class Script:
    def __init__(self, fj, draw, has_seals):
        self.draw, self.has_seals = draw, has_seals
        self.fj = subprocess.Popen([fj, "replay"], stdin=subprocess.PIPE, stdout=subprocess.PIPE, text=True)
        self.workers, self.submitters = draw.choice([1, 2, 2, 3, 4, 32]), draw.choice([1, 2, 3])
        limits = f"{self.workers} {self.submitters} {draw.choice([4, 40, 400, 400])} {draw.choice([60, 1000, 1000, 4000])}"
        self.lines, self.replies = [f"{draw.choice(['async', 'joining'])} {limits}"], []
        self.kinds, self.stacks, self.hooks = [], [[] for _ in range(self.workers)], [None] * self.workers
        if has_seals:
            self.fj.stdin.write("fj 2\n")
        self.fj.stdin.write(self.lines[0] + "\n")

    # ---- what fj is asked

    def named(self, words):
        """The line of version 2."""
        names = {"submit": [], "fork": [2], "trigger": [], "join": [2], "add": [2], "root": [2], "fault": [1], "cancel": [1], "state": [1], "release": [1]}
        found = [f"t{word}" if at in names.get(words[0], []) and word != "-" else word for at, word in enumerate(words)]
        if words[0] in ("submit", "fork", "trigger"):
            found.insert(1, f"t{len(self.kinds)}")
        return found

    def ask(self, line):
        words = line.split()
        self.fj.stdin.write(" ".join(self.named(words) if self.has_seals else words) + "\n")
        self.fj.stdin.flush()
        reply = re.sub(r"\bt(\d+)", r"\1", self.fj.stdout.readline().rstrip("\n"))
        self.lines.append(line)
        self.replies.append(reply)
        self.learn(words, reply.split())

    def learn(self, words, reply):
        if reply[0] == "refused":
            return
        if reply[0] == "task":
            self.kinds.append("completer" if len(words) > 2 else "plain")
        elif reply[0] == "run":
            self.stacks[int(words[1])].append(int(reply[1]))
        if words[0] == "end":
            self.stacks[int(words[1])].pop()
        if words[0] in ("end", "hook"):
            self.hooks[int(words[1])] = int(reply[1]) if reply[0] == "hook" else None

    # ---- what comes next

    def task(self):
        return self.draw.choice([*range(len(self.kinds) + 1), *([LARGE] if self.draw.random() < 0.1 else [])])

    def worker(self):
        return self.draw.choice([*range(self.workers), self.workers, LARGE])

    def count(self):
        return self.draw.choice([0, 0, 0, 1, 1, 2, 65535, 65536, LARGE])

    def relay(self):
        return self.draw.choice(["relay", "stop"])

    def any_step(self):
        w, t, n = self.worker(), self.task(), self.count()
        return self.draw.choice([
            f"submit {w}", f"submit {w} {n} {self.relay()}", f"fork {w}", f"fork {w} {t} {n} {self.relay()}", f"fork {w} - {n} {self.relay()}",
            f"trigger {w} {n}", f"poll {w} {n}", f"help {w} {n}", f"join {w} {t} {n}", f"end {w} ok", f"end {w} quiet", f"end {w} try", f"end {w} pass",
            f"end {w} complete", f"end {w} fail {n}", f"hook {w}", f"add {w} {t} {n}", f"root {w} {t}", f"fault {t} {n}", f"cancel {t}", "quiet",
            f"state {t}", f"release {t}", *(["seal", "epoch"] if self.has_seals else []),
        ])

    def parent(self, w):
        completers = [t for t in range(len(self.kinds)) if self.kinds[t] == "completer"]
        held = [t for t in self.stacks[w] if self.kinds[t] == "completer"]
        return self.draw.choice(held or completers or ["-"])

    def step_of(self, w):
        """A step that fits what this worker holds."""
        if self.hooks[w] is not None:
            return f"hook {w}"
        if not self.stacks[w]:
            return f"poll {w} {self.draw.randrange(8)}"
        running = self.stacks[w][-1]
        ends = ["ok"] if self.kinds[running] == "plain" else ["quiet", "try", "try", "try", "pass", "complete"]
        return self.draw.choice([
            f"fork {w}", f"fork {w} {self.parent(w)} {self.draw.choice([0, 0, 1, 2])} {self.relay()}", f"trigger {w} {self.draw.choice([0, 1])}",
            f"help {w} {self.draw.randrange(8)}", f"join {w} {self.task()} 0", f"add {w} {self.parent(w)} 1".replace(" - ", f" {running} "),
            *[f"end {w} {self.draw.choice(ends)}"] * 4, f"end {w} fail {self.draw.randrange(100)}", f"root {w} {running}",
        ])

    def step_outside(self):
        s, t = self.draw.randrange(self.submitters), self.task()
        return self.draw.choice([
            f"submit {s}", f"submit {s}", f"submit {s} {self.draw.choice([0, 0, 1])} {self.relay()}", f"state {t}", f"release {t}", f"release {t}",
            f"cancel {t}", f"fault {t} {self.draw.randrange(100)}", "quiet",
        ])

    def next_step(self, left):
        chance = self.draw.random()
        if left < 10 and chance < 0.1:
            return self.draw.choice(["shutdown", "stop"])
        if self.has_seals and chance < 0.05:
            return self.draw.choice(["seal", "epoch"])
        if chance < 0.15:
            return self.any_step()
        if chance < 0.7:
            return self.step_of(self.draw.randrange(min(self.workers, 4)))
        return self.step_outside()

    def run(self, steps):
        for left in range(steps, 0, -1):
            self.ask(self.next_step(left))
        self.fj.stdin.close()
        if self.fj.stdout.read() or self.fj.wait():
            sys.exit(f"fj ended with status {self.fj.returncode}")


def main(fj, folder, seed, count, steps):
    for n in range(int(count)):
        script = Script(fj, random.Random(f"{seed} {n}"), n % 3 == 2)
        script.run(int(steps))
        for ending, lines in ("script", script.lines), ("replies", script.replies):
            with open(f"{folder}/{n}.{ending}", "w") as it:
                it.writelines(line + "\n" for line in lines)


main(*sys.argv[1:])
