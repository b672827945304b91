#!/usr/bin/env python3
"""Writes a history of a pool whose workers act at random: history.py SEED WORKERS TASKS.

A body forks, joins and ends; some tasks are completers, some fail, some are cancelled while they wait. A worker in a body may take another
task inside it. Nothing here is taken from the crates: the events follow from the words of docs/MODEL.md.
"""
import random
import sys


class Task:
    def __init__(self, number, kind, parent, count, relay):
        self.number, self.kind, self.parent, self.pending, self.relay = number, kind, parent, count, relay
        self.status, self.spent, self.opened, self.children = "undone", False, False, 0


class Pool:
    def __init__(self, seed, workers, tasks):
        self.random = random.Random(seed)
        self.workers, self.most = workers, tasks
        self.mode = self.random.choice(["async", "joining"])
        self.lines, self.tasks = [], []
        self.queues = {("sub", s): [] for s in range(2)} | {("work", w): [] for w in range(workers)}
        self.stacks = [[] for _ in range(workers)]
        self.hands = [None] * workers

    def say(self, *words):
        self.lines.append(" ".join(str(word) for word in words))

    def settle(self, task, status):
        if task.status == "undone":
            task.status = status
            self.say("settle", task.number, status)

    def accept(self, owner, parent):
        number = len(self.tasks)
        if parent is not None or self.random.random() < 0.4:
            task = Task(number, "completer", parent, 0, self.random.random() < 0.8)
            up = "-" if parent is None else parent.number
            kind = f"completer {up} 0 {'relay' if task.relay else 'stop'}"
        else:
            task, kind = Task(number, "plain", None, 0, True), "plain"
        self.tasks.append(task)
        self.queues[owner].append(task)
        self.say("acc", number, *owner, kind)
        return task

    def take(self, worker):
        others = list(self.queues)
        self.random.shuffle(others)
        own = ("work", worker)
        for owner in [own] + [other for other in others if other != own]:
            if self.queues[owner]:
                newest = owner == own and self.mode == "joining"
                task = self.queues[owner].pop(-1 if newest else 0)
                break
        else:
            return
        if task.status != "undone":
            self.say("skip", task.number, worker)
            return
        self.stacks[worker].append(task)
        self.say("out", task.number, worker)

    def fork(self, worker):
        body = self.stacks[worker][-1]
        if body.kind == "completer" and not body.spent and body.children < 3:
            body.children += 1
            body.pending += 1
            self.say("add", body.number, 1)
            self.accept(("work", worker), body)
        else:
            self.accept(("work", worker), None)

    def arrive(self, task, worker):
        if task is None or task.spent or task.status != "undone":
            return
        if task.pending:
            task.pending -= 1
            self.say("dec", task.number)
        elif task.opened:
            task.spent = True
            self.hands[worker] = task
            self.say("fire", task.number, "zero")

    def end(self, worker):
        task = self.stacks[worker].pop()
        self.say("end", task.number, worker)
        task.opened = True
        if self.random.random() < 0.05:
            self.settle(task, f"exceptional {self.random.randrange(9)}")
        elif task.kind == "plain":
            self.settle(task, "normal")
        else:
            self.arrive(task, worker)

    def hook(self, worker):
        task, self.hands[worker] = self.hands[worker], None
        self.say("hooked", task.number)
        if task.parent is None:
            self.settle(task, "normal")
        else:
            self.arrive(task.parent, worker)

    def cancel(self):
        waiting = [task for queue in self.queues.values() for task in queue if task.kind == "plain"]
        if waiting:
            self.settle(self.random.choice(waiting), "cancelled")

    def step(self):
        worker, chance = self.random.randrange(self.workers), self.random.random()
        room = len(self.tasks) < self.most
        if chance < 0.02:
            self.cancel()
        elif chance < 0.1 and room:
            self.accept(("sub", self.random.randrange(2)), None)
        elif self.hands[worker]:
            self.hook(worker)
        elif not self.stacks[worker]:
            self.take(worker)
        elif chance < 0.5 and room:
            self.fork(worker)
        elif chance < 0.7 and len(self.stacks[worker]) < 4:
            self.take(worker)
        else:
            self.end(worker)

    def run(self):
        while len(self.tasks) < self.most or any(self.queues.values()) or any(self.stacks) or any(self.hands):
            self.step()
        if self.random.random() < 0.5:
            self.say("make", len(self.tasks), "completer - 1 relay")
        self.say("seal")
        self.say("close")


def main():
    seed, workers, tasks = (int(word) for word in sys.argv[1:4])
    pool = Pool(seed, workers, tasks)
    pool.run()
    print(pool.mode, workers, 2, min(tasks + 1, 4096), len(pool.lines))
    print("\n".join(pool.lines))


main()
