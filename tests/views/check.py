#!/usr/bin/env python3
"""Compares the views of a history with its lines: check.py HISTORY FOLDER, where the folder has a file for each view, by its name."""
import json
import pathlib
import re
import sys
import xml.dom.minidom

from told import Told


def check_tasks(told, text):
    rows = [row.split() for row in text.splitlines()]
    names = rows.pop(0)
    tasks = told.tasks()
    assert len(rows) == len(tasks)
    for row, (n, task) in zip(rows, enumerate(tasks)):
        cells = dict(zip(names, row, strict=True))
        assert cells["task"] == str(n)
        for name in names[1:]:
            wanted = {"out": task.get("out", task.get("skip", "-")), "fire": task.get("fire", "-")}.get(name, task.get(name, "-"))
            assert cells[name] == str(wanted), (n, name, cells[name], wanted)


def check_stats(told, text):
    facts = {line.split()[0]: line.split()[1:] for line in text.splitlines() if not line.startswith("worker ")}
    tasks, stretches, steals = told.tasks(), told.stretches(), told.steals()
    bodies = [stretch for stretch in stretches if stretch[3] == "body"]
    wanted = {
        "events": len(told.lines), "tasks": len(tasks), "bodies": told.count("out"), "hooks": told.count("fire"),
        "skipped": told.count("skip"), "triggers": told.count("make"), "steals": len(steals),
        "submitted": sum(task["queue"].startswith("sub") for task in tasks),
        "forked": sum(task["queue"].startswith("work") for task in tasks),
        "completers": sum(task["kind"] != "plain" for task in tasks),
        "nested": sum(stretch[5] > 0 for stretch in bodies), "deepest": max((stretch[5] + 1 for stretch in bodies), default=0),
    } | {name: sum(task["status"].startswith(name) for task in tasks) for name in ("undone", "normal", "exceptional", "cancelled")}
    for name, value in wanted.items():
        assert facts[name] == [str(value)], (name, facts[name], value)
    check_queues(told, facts)
    check_busy(told, stretches, text, facts)


def check_queues(told, facts):
    tasks, lengths, longest, most = told.tasks(), {}, (0, 0), (0, 0)
    for at, (word, *rest) in enumerate(told.lines, 1):
        queue = tasks[int(rest[0])]["queue"] if rest else "-"
        if word == "acc":
            lengths[queue] = lengths.get(queue, 0) + 1
            longest = longest if lengths[queue] <= longest[0] else (lengths[queue], at)
            together = sum(lengths.values())
            most = most if together <= most[0] else (together, at)
        elif word in ("out", "skip"):
            lengths[queue] -= 1
    assert facts["longest-queue"] == [str(longest[0]), "at", str(longest[1])], (facts["longest-queue"], longest)
    assert facts["queued"] == [str(most[0]), "at", str(most[1])], (facts["queued"], most)


def check_busy(told, stretches, text, facts):
    tasks, steals, all_busy = told.tasks(), told.steals(), 0
    lines = [line.split() for line in text.splitlines() if line.startswith("worker ")]
    for w in range(told.workers):
        events = {at for stretch in stretches if stretch[0] == w for at in range(stretch[1], stretch[2])}
        all_busy += len(events)
        ran = sum(stretch[0] == w and stretch[3] == "body" for stretch in stretches)
        stole = sum(tasks[n]["worker"] == str(w) for n in steals)
        lost = sum(tasks[n]["queue"] == f"work:{w}" for n in steals)
        percent = f"{len(events) * 100 // len(told.lines)}%"
        assert lines[w] == f"worker {w} ran {ran} stole {stole} lost {lost} busy {percent}".split(), lines[w]
    hundredths = all_busy * 100 // len(told.lines)
    assert facts["busy-workers"] == [f"{hundredths // 100}.{hundredths % 100:02}"], facts["busy-workers"]


NEEDED = {
    "X": ("name", "cat", "ts", "dur", "pid", "tid"), "M": ("name", "pid", "tid", "args"), "i": ("name", "ts", "pid", "tid", "s"),
    "s": ("name", "cat", "id", "ts", "pid", "tid"), "f": ("name", "cat", "id", "ts", "pid", "tid", "bp"),
}


def check_chrome(told, text):
    events = json.loads(text)["traceEvents"]
    for event in events:
        assert all(key in event for key in NEEDED[event["ph"]]), event
        assert event["ph"] == "M" or event["ts"] >= 0
        assert event.get("s", "g") in ("g", "p", "t")
    bodies = [event for event in events if event["ph"] == "X" and event["cat"].startswith("task")]
    hooks = [event for event in events if event["ph"] == "X" and event["cat"] == "hook"]
    submissions = [event for event in events if event["ph"] == "X" and event["cat"] == "submit"]
    found = sorted((event["ts"], event["tid"], event["ts"] + event["dur"], event["name"]) for event in bodies + hooks)
    wanted = sorted((begun, w, end, f"{'task' if what == 'body' else 'hook'} {task}") for w, begun, end, what, task, _ in told.stretches())
    assert found == wanted
    assert sum(event["cat"] == "task,stolen" for event in bodies) == len(told.steals())
    assert len(submissions) == sum(line[0] == "acc" and line[2] == "sub" for line in told.lines)
    assert sum(event["ph"] == "i" for event in events) == told.count("skip", "make", "close", "stop") + told.seals
    check_nesting(bodies + hooks)
    check_flows(told, events, bodies + submissions)


def check_nesting(slices):
    """The slices of a thread nest: a viewer draws no others."""
    for tid in {event["tid"] for event in slices}:
        open_ends = []
        for begun, minus, in sorted((event["ts"], -event["dur"]) for event in slices if event["tid"] == tid):
            while open_ends and open_ends[-1] <= begun:
                open_ends.pop()
            assert not open_ends or begun - minus <= open_ends[-1], (tid, begun)
            open_ends.append(begun - minus)


def check_flows(told, events, slices):
    """An arrow for each body, and both its ends lie in slices: a viewer drops others."""
    starts = {event["id"]: event for event in events if event["ph"] == "s"}
    ends = {event["id"]: event for event in events if event["ph"] == "f"}
    assert starts.keys() == ends.keys() and len(starts) == told.count("out")
    for event in list(starts.values()) + list(ends.values()):
        assert any(at["tid"] == event["tid"] and at["ts"] <= event["ts"] <= at["ts"] + at["dur"] for at in slices), event


def check_dot(told, text):
    tasks = told.tasks()
    nodes = set(map(int, re.findall(r"^  t(\d+) \[", text, re.M)))
    edges = {(int(p), int(c)) for p, c in re.findall(r"^  t(\d+) -> t(\d+);$", text, re.M)}
    assert nodes == {n for n, task in enumerate(tasks) if task["kind"] != "plain"}
    assert edges == {(int(task["parent"]), n) for n, task in enumerate(tasks) if task["parent"] != "-"}
    assert text.count("peripheries=2") == sum(task["stops"] for task in tasks)
    assert text.startswith("digraph completers {\n") and text.endswith("}\n")


def check_path(told, text):
    links = [tuple(map(int, link)) for link in re.findall(r"^(\d+)\.\.(\d+) ", text, re.M)]
    sums = {name: int(n) for name, n in re.findall(r"^(links|runs|waits|others) (\d+)$", text, re.M)}
    stretches = told.stretches()
    assert sums["links"] == len(links) and links
    assert all(begun <= end for begun, end in links)
    assert all(earlier[1] == later[0] for earlier, later in zip(links, links[1:])), "the links follow each other"
    assert links[-1][1] == max(stretch[2] for stretch in stretches), "the path ends at the last end"
    assert sums["runs"] + sums["waits"] + sums["others"] == links[-1][1] - links[0][0]
    assert told.lines[links[0][0] - 1][0] == "acc" and told.lines[links[0][0] - 1][2] == "sub", "it begins with a submission"
    runs = {(w, task, what) for w, _, _, what, task, _ in stretches}
    for task, w in re.findall(r"task (\d+) runs on worker (\d+)", text):
        assert (int(w), int(task), "body") in runs
    for task, w in re.findall(r"the action of (\d+) runs on worker (\d+)", text):
        assert (int(w), int(task), "hook") in runs


def check_svg(told, text):
    picture = xml.dom.minidom.parseString(text)
    groups = picture.getElementsByTagName("g")
    titles = [group.getElementsByTagName("title")[0].firstChild.data for group in groups]
    drawn = {re.sub(r"^.*(?:task|completer) (\d+): .* on (worker \d+ from .*)$", r"body \1 \2", title) for title in titles}
    drawn = {re.sub(r"^completion action of (\d+), on (worker .*)$", r"hook \1 \2", title) for title in drawn}
    wanted = {f"{what} {task} worker {w} from {begun} to {end}" for w, begun, end, what, task, _ in told.stretches()}
    assert drawn == wanted, drawn ^ wanted
    assert text.count('class="st"') == text.count('class="d"') == len(told.steals())
    crosses = sum('class="k"' in line for line in text.splitlines())
    assert crosses == told.count("skip") + (told.count("skip") > 0)
    assert text.count(">shutdown</text>") == told.count("close")
    assert ("completion action</text>" in text) == (told.count("fire") > 0)
    check_places(picture)
    height = float(picture.documentElement.getAttribute("height"))
    for box in picture.getElementsByTagName("rect"):
        if box.hasAttribute("y"):
            assert 0 <= float(box.getAttribute("x")) <= 1240 and float(box.getAttribute("x")) + float(box.getAttribute("width")) <= 1240
            assert float(box.getAttribute("y")) + float(box.getAttribute("height")) <= height


def check_places(picture):
    """A box is in the lane of its worker, and begins where its band's axis says, or at the left edge if it goes on from the band before."""
    lanes, ticks = [], {}
    for at in picture.getElementsByTagName("*"):
        words = at.getAttribute("class")
        if words == "lane" and at.getAttribute("height") != "7":
            lanes.append((float(at.getAttribute("y")), float(at.getAttribute("height"))))
        elif words == "a":
            ticks.setdefault(float(at.getAttribute("y")), []).append((float(at.getAttribute("x")), int(at.firstChild.data)))
    workers = max(int(at.firstChild.data.split()[1]) for at in picture.getElementsByTagName("text") if at.firstChild.data.startswith("worker ")) + 1
    for group in picture.getElementsByTagName("g"):
        box, title = group.getElementsByTagName("rect")[0], group.getElementsByTagName("title")[0].firstChild.data
        x, y = float(box.getAttribute("x")), float(box.getAttribute("y"))
        lane = max(n for n, (top, _) in enumerate(lanes) if top <= y)
        worker, begun, end = map(int, re.search(r"on worker (\d+) from (\d+) to (\d+)$", title).groups())
        assert lane % workers == worker and y + float(box.getAttribute("height")) <= sum(lanes[lane]), title
        band = lanes[lane - worker][0]
        axis = ticks[max(top for top in ticks if top < band)]
        if len(axis) > 1:
            (left, first), (right, last) = axis[0], axis[-1]
            event = (right - left) / (last - first)
            wanted = max(86, left + (begun - first) * event)
            assert abs(x - wanted) < 0.3, (title, x, wanted)
            wide = min(1216, left + (end - first) * event) - wanted
            assert abs(float(box.getAttribute("width")) - wide) < 1.3, (title, box.getAttribute("width"), wide)


def main():
    told, folder = Told(sys.argv[1]), pathlib.Path(sys.argv[2])
    for view, check in {
        "tasks": check_tasks, "stats": check_stats, "chrome": check_chrome, "dot": check_dot, "path": check_path, "svg": check_svg,
    }.items():
        try:
            check(told, (folder / view).read_text())
        except AssertionError:
            print(f"{view} of {sys.argv[1]}", file=sys.stderr)
            raise


main()
