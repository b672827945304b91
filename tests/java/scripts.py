#!/usr/bin/env python3
"""Writes scripts of one worker at random, each line with the reply of `fj replay` behind it, in which the pool and Java's must agree.

    scripts.py FJ SEED COUNT STEPS

What docs/JAVA.md lists as a difference is left out: no arrival at a completer that is spent, done, or has neither ended nor counts; no ending
but `quiet` and `fail` of a completer that is done; no join but of a plain task that is done or next; no `stop`. A worker of Java's takes its
next task at once, so a poll follows wherever there is one.
"""
import random
import subprocess
import sys


class Task:
    def __init__(self, number, place, parent=None, pending=None, relays=False):
        self.number, self.place, self.parent, self.pending, self.relays = number, place, parent, pending, relays
        self.status, self.spent = "undone", False

    def is_plain(self):
        return self.pending is None

    def is_undone(self):
        return self.status == "undone"


class Script:
    """One script, with what it has come to."""

    def __init__(self, fj, draw, mode):
        self.fj = subprocess.Popen([fj, "replay"], stdin=subprocess.PIPE, stdout=subprocess.PIPE, text=True)
        self.draw, self.mode, self.tasks, self.stack, self.own, self.outside, self.hook = draw, mode, [], [], [], [], None
        heading = f"{mode} 1 1 256 65536"
        self.fj.stdin.write(heading + "\n")
        print(heading)

    def say(self, line):
        self.fj.stdin.write(line + "\n")
        self.fj.stdin.flush()
        reply = self.fj.stdout.readline().rstrip("\n")
        print(f"{line} > {reply}")
        return reply

    # ---- what the step may be

    def may_arrive(self, task, is_own=False):
        """Whether Java's pool does the same where this completer is arrived at, and all that follows from it."""
        if task.spent or not task.is_undone():
            return False
        if task.pending > 0:
            return True
        if not is_own and task.place != "open":
            return False
        return task.parent is None or self.may_arrive(task.parent)

    def endings(self, task):
        if task.is_plain():
            return ["ok", "ok", "ok", "fail 7"]
        found = ["quiet", "fail 7"]
        if self.may_arrive(task, is_own=True):
            found += ["try"] * 6 + ["pass"] * 2
        if task.is_undone() and not task.spent and (task.parent is None or self.may_arrive(task.parent)):
            found += ["complete"]
        return found

    def joinable(self):
        following = self.own[:1] if self.mode == "async" else self.own[-1:]
        return [it for it in self.tasks if it.is_plain() and it not in self.stack and (not it.is_undone() or it in following)]

    def kind(self, parents):
        if self.draw.random() < 0.4:
            return ""
        parent = self.draw.choice(["-", *(it.number for it in parents)]) if parents is not None else None
        words = [str(self.draw.choice([0, 0, 1, 2])), self.draw.choice(["relay", "stop"])]
        return " " + " ".join(([] if parent is None else [str(parent)]) + words)

    def next_step(self):
        if self.hook:
            return "hook 0"
        if not self.stack and (self.own or self.outside):
            return "poll 0 0"
        if not self.stack:
            return "submit 0" + self.kind(None)
        completers = [it for it in self.tasks if not it.is_plain()]
        steps = ["submit 0" + self.kind(None), f"trigger 0 {self.draw.choice([0, 1, 2])}"]
        steps += ["fork 0" + self.kind(completers) for _ in range(4)]
        steps += [f"join 0 {it.number} 0" for it in self.joinable()[-3:]]
        steps += [f"end 0 {it}" for it in self.endings(self.stack[-1])]
        if completers:
            steps += [f"add 0 {self.draw.choice(completers).number} {self.draw.choice([0, 1])}"]
        if self.draw.random() < 0.2:
            any_task = self.draw.choice(self.tasks).number
            steps = [f"cancel {any_task}", f"fault {any_task} 9"]
            steps += [f"root 0 {self.draw.choice(completers).number}"] if completers else []
        return self.draw.choice(steps)

    # ---- what the reply says

    def accept(self, words, place):
        number = len(self.tasks)
        if words[0] == "trigger":
            self.tasks.append(Task(number, "open", None, int(words[2]), True))
            return
        kind = words[2:]
        if not kind:
            self.tasks.append(Task(number, place))
        else:
            parent = None if len(kind) == 2 or kind[0] == "-" else self.tasks[int(kind[0])]
            self.tasks.append(Task(number, place, parent, int(kind[-2]), kind[-1] == "relay"))
        (self.own if words[0] == "fork" else self.outside).append(self.tasks[-1])

    def leave(self, task):
        if task.place == "open":
            task.place = "gone"

    def fail(self, task, code):
        while task is not None and task.is_undone():
            task.status = f"exceptional {code}"
            self.leave(task)
            task = task.parent if task.relays else None

    def end_body(self, ending):
        task = self.stack.pop()
        is_waiting = not task.is_plain() and task.is_undone() and not task.spent
        task.place = "open" if is_waiting else "gone"
        if ending == "ok" and task.is_undone():
            task.status = "normal"
        if ending.startswith("fail"):
            self.fail(task, ending.split()[1])
        return task

    def climb(self, task, said):
        """A pass spends all up to the one that the reply names."""
        while said[0] == "root" and task is not None or said[0] == "counted" and task.number != int(said[1]):
            task.spent = True
            self.leave(task)
            task = task.parent

    def note(self, line, reply):
        words, said = line.split(), reply.split()
        at = self.tasks[int(said[1])] if len(said) == 2 and said[1].isdigit() and said[0] not in ("task", "exceptional", "count") else None
        if said[0] == "task":
            self.accept(words, "queued")
        elif said[0] in ("run", "skip"):
            (self.own if at in self.own else self.outside).remove(at)
            at.place = "gone" if said[0] == "skip" and (at.is_plain() or not at.is_undone()) else "held"
            if said[0] == "run":
                self.stack.append(at)
        elif words[0] == "end":
            task = self.end_body(" ".join(words[2:]))
            if words[2] == "pass":
                self.climb(task, said)
        elif words[0] == "hook":
            if self.hook.is_undone() and self.by_complete:
                self.hook.status = "normal"
            self.hook = None
        elif words[0] == "add":
            self.tasks[int(words[2])].pending = int(said[1])
        elif words[0] == "cancel" and reply == "yes":
            self.tasks[int(words[1])].status = "cancelled"
            self.leave(self.tasks[int(words[1])])
        elif words[0] == "fault" and reply == "yes":
            self.fail(self.tasks[int(words[1])], words[2])
        if said[0] == "counted":
            at.pending -= 1
        elif said[0] == "root":
            at.status = "normal"
            self.leave(at)
        elif said[0] == "hook":
            self.hook, self.by_complete = at, line.endswith("complete")
            at.spent = True
            self.leave(at)

    def run(self, steps):
        for _ in range(steps):
            line = self.next_step()
            self.note(line, self.say(line))
        for task in self.tasks:
            self.say(f"state {task.number}")
        self.fj.stdin.close()
        if self.fj.wait() != 0:
            sys.exit("fj has failed")


def main():
    fj, seed, count, steps = sys.argv[1], *map(int, sys.argv[2:])
    for number in range(seed, seed + count):
        draw = random.Random(number)
        Script(fj, draw, draw.choice(["async", "joining"])).run(steps)


if __name__ == "__main__":
    main()
