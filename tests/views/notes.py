#!/usr/bin/env python3
"""Compares views with the notes that they were given: bodies in the trace begin when the notes say, or later where an event before has a later
time, and the one name is in each view. Usage: notes.py NOTES FOLDER
"""
import json
import sys

notes, folder = sys.argv[1:]
begins, name = {}, ""
with open(notes, encoding="utf-8") as it:
    for line in it:
        word, task, rest = line.rstrip("\n").split(" ", 2)
        if word == "name":
            name = f"{task} {rest}"
        elif rest.startswith("begin "):
            begins[int(task)] = int(rest.split(" ")[1])


def text_of(kind):
    with open(f"{folder}/{kind}", encoding="utf-8") as it:
        return it.read()


trace = json.loads(text_of("chrome"))["traceEvents"]
bodies = {int(it["name"].split(" ")[1]): it for it in trace if it["ph"] == "X" and it["name"].startswith("task ")}
assert bodies.keys() == begins.keys(), (sorted(bodies), sorted(begins))
begun = {task: round(body["ts"] * 1000) for task, body in bodies.items()}
assert all(begun[task] >= begins[task] for task in begins)
assert begun[0] == begins[0] and sum(begun[task] == begins[task] for task in begins) * 10 >= len(begins)
assert all(it["dur"] >= 0 for it in trace if it["ph"] == "X")
assert bodies[0]["name"] == f"task {name}"
assert f"task {name} runs on worker" in text_of("path")
assert name.replace("&", "&amp;").replace("<", "&lt;").replace(">", "&gt;") in text_of("svg")
