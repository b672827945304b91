#!/usr/bin/env python3
"""Writes a script to standard output, of so many rounds, or as many as the history has room for.

plain: a plain task is submitted, polled, ended and released.
polls: the same, and before each submission a worker polls in vain.
tree: a completer forks children, which count it down; then all are released.
chain: each completer forks the next one; the last is climbed from by hooks, or by pass in every other round; all are released.
churn: a population of plain tasks is kept; some are cancelled or fail while they are queued; tasks are released in random order.
queues: 32 submitters hand in and 32 workers poll, each from another queue; half of them fork, and all tasks are ended and released.
refusals: with a history that is full, every step is refused, or changes nothing.

In all but refusals and polls, every step line changes the machine. A script has the same lines each time.
"""

import argparse
import random
import sys
from collections.abc import Iterator
from itertools import count, islice

TASKS = 4_096
EVENTS = 1_048_576
WORKERS = 32
ONE_WORKER = f"async 1 1 {TASKS} {EVENTS}\n"
ROUNDS_OF_REFUSALS = 200_000

# The heading with what comes before the rounds, and then each round; with each the number of events that it appends.
Parts = Iterator[tuple[str, int]]


def plain(_size: int) -> Parts:
    yield ONE_WORKER, 0
    for task in count():
        yield f"submit 0\npoll 0 0\nend 0 ok\nrelease {task}\n", 5


def polls(_size: int) -> Parts:
    yield ONE_WORKER, 0
    for task in count():
        yield f"poll 0 0\nsubmit 0\npoll 0 0\nend 0 ok\nrelease {task}\n", 5


def tree(children: int) -> Parts:
    yield ONE_WORKER, 0
    for root in count(step=children + 1):
        lines = [f"submit 0 {children} relay\npoll 0 0\n"]
        lines.append(f"fork 0 {root} 0 relay\n" * children)
        lines.append("end 0 try\n")
        lines.append("poll 0 0\nend 0 try\nhook 0\n" * children)
        lines.append("hook 0\n")
        lines.extend(f"release {child}\n" for child in range(root + 1, root + children + 1))
        lines.append(f"release {root}\n")
        yield "".join(lines), 7 * (children + 1)


def chain(depth: int) -> Parts:
    yield ONE_WORKER, 0
    for turn in count():
        root = turn * depth
        leaf = root + depth - 1
        lines = ["submit 0 1 relay\npoll 0 0\n"]
        lines.extend(f"fork 0 {parent} 1 relay\nend 0 try\npoll 0 0\n" for parent in range(root, leaf - 1))
        lines.append(f"fork 0 {leaf - 1} 0 relay\nend 0 try\npoll 0 0\n")
        by_hooks = turn % 2 == 0
        lines.append("end 0 try\n" + "hook 0\n" * depth if by_hooks else "end 0 pass\n")
        lines.extend(f"release {task}\n" for task in range(leaf, root - 1, -1))
        yield "".join(lines), (7 if by_hooks else 6) * depth


class Bag:
    """Numbers, of which a random one can be taken out, or a given one."""

    def __init__(self) -> None:
        self.numbers: list[int] = []
        self.places: dict[int, int] = {}
        self.random = random.Random(1)

    def add(self, number: int) -> None:
        self.places[number] = len(self.numbers)
        self.numbers.append(number)

    def take(self, number: int) -> None:
        place = self.places.pop(number)
        last = self.numbers.pop()
        if last != number:
            self.numbers[place] = last
            self.places[last] = place

    def take_any(self) -> int:
        number = self.random.choice(self.numbers)
        self.take(number)
        return number


def churn(population: int) -> Parts:
    """Half of the kept tasks are queued, the others are gone. A key that a release leaves is that of the next task."""
    queued = population // 2
    oldest = population - queued
    undone, gone = Bag(), Bag()
    for task in range(oldest):
        gone.add(task)
    for task in range(oldest, population):
        undone.add(task)
    yield ONE_WORKER + "submit 0\n" * population + "poll 0 0\nend 0 ok\n" * oldest, population + 3 * oldest

    for task in count(population):
        lines = [f"release {gone.take_any()}\nsubmit 0\n"]
        events = 3
        undone.add(task)
        if task % 3 != 0:
            lines.append(f"cancel {undone.take_any()}\n" if task % 3 == 1 else f"fault {undone.take_any()} 7\n")
            events += 1
        lines.append("poll 0 0\n")
        if oldest in undone.places:
            undone.take(oldest)
            lines.append("end 0 ok\n")
            events += 2
        gone.add(oldest)
        oldest += 1
        yield "".join(lines), events


def queues(_size: int) -> Parts:
    """The workers without a fork of their own poll first, and so take those of others."""
    yield f"async {WORKERS} {WORKERS} {TASKS} {EVENTS}\n", 0
    workers = range(WORKERS)
    submits = "".join(f"submit {submitter}\n" for submitter in workers)
    forks = "".join(f"fork {worker}\nfork {worker}\n" for worker in workers[::2])
    ends = "".join(f"end {worker} ok\n" for worker in workers)
    for turn in count():
        polls = [f"poll {worker} {(2 * worker + turn) % (2 * WORKERS)}\n" for worker in workers]
        first = 2 * WORKERS * turn
        releases = "".join(f"release {task}\n" for task in range(first, first + 2 * WORKERS))
        lines = [submits, *polls, forks, ends, *polls[1::2], *polls[::2], ends, releases]
        yield "".join(lines), 10 * WORKERS


def refusals(_size: int) -> Parts:
    yield "async 1 1 1 4\nsubmit 0\npoll 0 0\nend 0 ok\n", 4
    while True:
        yield "submit 0\npoll 0 0\nend 0 ok\ncancel 0\nfault 1 7\nrelease 0\npoll 1 0\n", 0


LOADS = {"plain": plain, "polls": polls, "tree": tree, "chain": chain, "churn": churn, "queues": queues, "refusals": refusals}
# The smallest size, the largest one, and the one that is taken where none is given.
SIZES = {"tree": (1, TASKS - 1, TASKS - 1), "chain": (2, TASKS, TASKS), "churn": (2, TASKS, 2_048)}


def positive(text: str) -> int:
    number = int(text)
    if number < 1:
        raise argparse.ArgumentTypeError("at least 1")
    return number


def size_of(kind: str, given: int | None) -> int:
    if kind not in SIZES:
        if given is not None:
            sys.exit(f"{kind} has no size")
        return 0
    least, most, usual = SIZES[kind]
    size = usual if given is None else given
    if not least <= size <= most:
        sys.exit(f"the size of {kind} is {least} to {most}")
    return size


def main() -> None:
    parser = argparse.ArgumentParser(description=__doc__, formatter_class=argparse.RawDescriptionHelpFormatter)
    parser.add_argument("kind", choices=LOADS.keys())
    parser.add_argument("rounds", type=positive, nargs="?", help=f"how many rounds (refusals: {ROUNDS_OF_REFUSALS}, others: what fits)")
    parser.add_argument("size", type=positive, nargs="?", help="tree: children; chain: depth; churn: population")
    given = parser.parse_args()

    parts = LOADS[given.kind](size_of(given.kind, given.size))
    opening, used = next(parts)
    sys.stdout.write(opening)
    most = ROUNDS_OF_REFUSALS if given.kind == "refusals" else None
    for lines, events in islice(parts, given.rounds or most):
        used += events
        if used > EVENTS:
            break
        sys.stdout.write(lines)


if __name__ == "__main__":
    main()
