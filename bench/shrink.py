#!/usr/bin/env python3
"""Cuts generated histories down to witnesses, COUNT of each kind of first fault. Prints as a table how many events they have
before and after. Each witness is judged, and must have a fault of the same kind and the status of the history.

usage: shrink.py [COUNT [EVENTS]]

A history has up to EVENTS events of 4 components. Those of the kinds integrity and proximity are atomic except for one entry of one
view. Those of the kind read have updates that stay open while views show any of them. Those of the kind write have updates, and
one view that is open all the while. What comes out with another kind of first fault is left out.
"""
import asked  # answers --help
import os
import random
import subprocess
import sys

import generate

PROGRAM = os.path.join(os.path.dirname(os.path.abspath(__file__)), "..", "built", "snapjudge")
KINDS = ["integrity", "proximity", "read", "write"]
COMPONENTS = 4


def run(command, text):
    ran = subprocess.run([PROGRAM, command], input=text, capture_output=True, check=False)
    return ran.returncode, ran.stdout


def first_kind(report):
    """The kind of the first line of a fault in a report, in the order of the kinds."""
    words = [line.split()[0].decode() for line in report.splitlines()]
    return next((kind for kind in KINDS if kind in words), None)


def changed_entry(rows, draw, change):
    """The rows with one entry of one view changed."""
    ends = [i for i, row in enumerate(rows) if row.startswith("end") and ":" in row]
    place = draw.choice(ends)
    front, shown = rows[place].rsplit(",", 1)
    shown = [[int(part) for part in entry.split(":")] for entry in shown.split()]
    change(draw.choice(shown))
    shown = " ".join(f"{k}:{n}:{v}" for k, n, v in shown if n)
    return rows[:place] + [f"{front},{shown}"] + rows[place + 1:]


def other_value(entry):
    entry[2] += 1


def other_number(draw):
    def change(entry):
        entry[1] = max(0, entry[1] + draw.choice([-3, -2, -1, 1, 2, 3]))
        entry[2] = entry[1] * 3 + entry[0]
    return change


def updates_beside_a_view(events, draw):
    """Updates alone, of an atomic history, and one view over all of them, which shows any of them."""
    rows = [row for row in generate.atomic(events, COMPONENTS, draw) if ",update," in row]
    numbers = [sum(row.startswith("begin") and f",{k}:" in row for row in rows) for k in range(COMPONENTS)]
    shown = generate.entries([draw.randrange(n + 1) for n in numbers])
    return ["begin,9,view,"] + rows + [f"end,9,view,{shown}"]


def history(kind, events, draw):
    if kind == "integrity":
        return changed_entry(generate.atomic(events, COMPONENTS, draw), draw, other_value)
    if kind == "proximity":
        return changed_entry(generate.atomic(events, COMPONENTS, draw), draw, other_number(draw))
    if kind == "read":
        return generate.overlapping(events, COMPONENTS, draw)
    return updates_beside_a_view(events, draw)


def text_of(rows):
    return "".join(row + "\n" for row in ["event,process,op,data"] + rows).encode()


def measure(kind, count, most):
    """How many events each of this many histories of a kind has, and its witness."""
    sizes, seed = [], 0
    while len(sizes) < count:
        seed += 1
        draw = random.Random(f"{kind} {seed}")
        rows = history(kind, draw.randrange(50, most + 1), draw)
        status, report = run("check", text_of(rows))
        if first_kind(report) != kind:
            continue
        cut_status, witness = run("shrink", text_of(rows))
        judged_status, judged = run("check", witness)
        assert status == cut_status == judged_status, (kind, seed)
        assert first_kind(judged) == kind, (kind, seed)
        sizes.append((len(rows), len(witness.splitlines()) - 1))
    return sizes


def main():
    count = int(sys.argv[1]) if len(sys.argv) > 1 else 1000
    most = int(sys.argv[2]) if len(sys.argv) > 2 else 1000
    print("| kind | histories | events before, mean | events after, mean | events after, most |")
    print("|---|---|---|---|---|")
    for kind in KINDS:
        sizes = measure(kind, count, most)
        before = sum(size for size, _ in sizes) / count
        after = sum(size for _, size in sizes) / count
        print(f"| {kind} | {count} | {before:.1f} | {after:.2f} | {max(size for _, size in sizes)} |", flush=True)


main()
