"""What the lines of a history say, for the checks of its views: read anew, with nothing from the crates."""


class Told:
    def __init__(self, path):
        lines = open(path).read().splitlines()
        self.mode, *limits = lines[0].split()
        self.workers, self.submitters = int(limits[0]), int(limits[1])
        self.lines = [line.split() for line in lines[1:] if line != "seal"]
        self.seals = lines.count("seal")

    def count(self, *words):
        return sum(line[0] in words for line in self.lines)

    def tasks(self):
        """The columns of the table, by task: each is the event's number, or a word of the task."""
        tasks = []
        for at, (word, *rest) in enumerate(self.lines, 1):
            if word in ("acc", "make"):
                kind = rest[3:] if word == "acc" else rest[1:]
                tasks.append({
                    "kind": "plain" if kind[0] == "plain" else "completer" if word == "acc" else "trigger",
                    "parent": kind[1] if kind[0] == "completer" else "-",
                    "count": int(kind[2]) if kind[0] == "completer" else 0,
                    "status": "undone",
                    "queue": f"{rest[1]}:{rest[2]}" if word == "acc" else "-",
                    "acc": at,
                    "stops": kind[0] == "completer" and kind[3] == "stop",
                })
            elif word in ("close", "stop"):
                if word == "stop":
                    for task in tasks:
                        if task["status"] == "undone":
                            task["status"] = "cancelled"
            else:
                self.follow(tasks[int(rest[0])], word, rest, at)
        for task in tasks:
            task["place"] = place(task)
        return tasks

    @staticmethod
    def follow(task, word, rest, at):
        if word == "add":
            task["count"] += int(rest[1])
        elif word == "dec":
            task["count"] -= 1
        elif word == "settle":
            task["status"] = ":".join(rest[1:])
        else:
            task[word] = at
            if word in ("out", "skip"):
                task["worker"] = rest[1]

    def stretches(self):
        """(worker, from, to, 'body' or 'hook', task, depth): to one event after the last one while it goes on."""
        done, stacks, hands, last, ended = [], {}, {}, None, None
        for at, (word, *rest) in enumerate(self.lines, 1):
            if word == "out":
                stack = stacks.setdefault(rest[1], [])
                stack.append((at, rest[0]))
            elif word == "end":
                begun, task = stacks[rest[1]].pop()
                assert task == rest[0]
                done.append((int(rest[1]), begun, at, "body", int(task), len(stacks[rest[1]])))
                ended = (at, task, rest[1])
            elif word == "fire":
                worker = ended[2] if ended and ended[:2] == (at - 1, rest[0]) else last
                hands[rest[0]] = (worker, at)
            elif word == "hooked":
                worker, begun = hands.pop(rest[0])
                done.append((int(worker), begun, at, "hook", int(rest[0]), len(stacks.get(worker, []))))
                last = worker
        assert not hands and not any(stacks.values()), "the samples end when all is done"
        return sorted(done, key=lambda stretch: stretch[1])

    def steals(self):
        return [n for n, task in enumerate(self.tasks())
                if "out" in task and task["queue"].startswith("work") and task["queue"] != "work:" + task["worker"]]


def place(task):
    """The place of a task, as docs/MODEL.md defines it."""
    if task["queue"] != "-" and "out" not in task and "skip" not in task:
        return "queued"
    if "out" in task and "end" not in task:
        return "held"
    spent = "fire" in task or "pass" in task or task["status"] != "undone"
    opened = "end" in task or task["queue"] == "-"
    return "open" if task["kind"] != "plain" and opened and not spent else "gone"
