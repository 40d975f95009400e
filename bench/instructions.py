#!/usr/bin/env python3
"""Counts the instructions of `snapjudge check` with one worker by callgrind, and prints where they go.

usage: instructions.py [--program PROGRAM] [--functions N] [KIND ..]

Each history is made by generate.py from the number 1; with KINDs only those are counted. The counts do not depend on what else the
machine does. A part has the instructions in its functions and in everything that these call, in millions. A part whose functions were
drawn into their callers counts with these. With --functions the N functions that take most are printed too.
"""
import argparse
import os
import re
import subprocess
import sys
import tempfile

HERE = os.path.dirname(os.path.abspath(__file__))
PROGRAM = os.environ.get("SNAPJUDGE", os.path.join(HERE, "..", "built", "snapjudge"))
HISTORIES = [
    ("atomic", 10, 3), ("atomic", 1024, 8), ("atomic", 16384, 8), ("atomic", 2048, 256), ("pending", 4096, 256),
    ("overlapping", 4096, 4), ("overlapping", 16384, 8), ("toggling", 4096, 4), ("late", 4096, 32), ("stale", 4096, 8),
    ("writes", 4096, 8), ("writes", 2048, 256), ("random", 4096, 256),
]
# by part: the outermost functions, which do not call one another
PARTS = [
    ("tally", [r"snap_pairs::whole::tally_and_chain"]),
    ("order", [r"snap_order::printing::build"]),
    ("report", [r"snap_report::text::report_in"]),
]


def run(program, history, room):
    """What callgrind wrote of one run."""
    out = os.path.join(room, "callgrind.out")
    words = ["valgrind", "--tool=callgrind", f"--callgrind-out-file={out}", program, "check", "--workers", "1", history]
    subprocess.run(words, stdout=subprocess.DEVNULL, stderr=subprocess.DEVNULL, check=False)
    return out


def costs_in(out):
    """The inclusive cost of each function, and of the whole."""
    words = ["callgrind_annotate", "--inclusive=yes", "--threshold=100", out]
    said = subprocess.run(words, stdout=subprocess.PIPE, check=True, text=True).stdout
    costs = {}
    for line in said.splitlines():
        found = re.match(r"\s*([\d,]+) \([^)]*\)\s+[^:]*:(.*?)(?: \[[^]]*\])?$", line)
        if found:
            name = found.group(2)
            costs[name] = max(costs.get(name, 0), int(found.group(1).replace(",", "")))
    return costs, max(costs.values())


def part(costs, patterns):
    """The cost of the functions of a part; of a recursive function, whose calls of itself are listed apart, its outermost alone."""
    total = 0
    for pattern in patterns:
        by_name = {}
        for name, cost in costs.items():
            if re.match(pattern, name.replace("core::", "", 1)) or re.match(pattern, name):
                outer = name.split("'")[0]
                by_name[outer] = max(by_name.get(outer, 0), cost)
        total += sum(by_name.values())
    return total


def dearest(out, count):
    """The lines of the functions that take most themselves."""
    told = subprocess.run(["callgrind_annotate", out], stdout=subprocess.PIPE, text=True, check=True).stdout
    return [line for line in told.splitlines() if "(" in line and "%" in line][: count + 1]


def main():
    words = argparse.ArgumentParser(description="instructions of `snapjudge check`")
    words.add_argument("--program", default=PROGRAM)
    words.add_argument("--functions", type=int, default=0, metavar="N")
    words.add_argument("kinds", nargs="*", metavar="KIND")
    asked = words.parse_args()
    names = [name for name, _ in PARTS]
    print(f"| history | all | text, records and index | {' | '.join(names)} | beside tally and order, a byte | an event |")
    print(f"|{'---|' * (len(names) + 5)}")
    with tempfile.TemporaryDirectory() as room:
        for kind, events, components in HISTORIES:
            if asked.kinds and kind not in asked.kinds:
                continue
            history = os.path.join(room, "history.csv")
            with open(history, "wb") as text:
                made = [sys.executable, os.path.join(HERE, "generate.py"), kind, str(events), str(components)]
                subprocess.run(made, stdout=text, check=True)
            size = os.path.getsize(history)
            out = run(asked.program, history, room)
            costs, whole = costs_in(out)
            spent = {name: part(costs, patterns) for name, patterns in PARTS}
            beside = whole - spent["tally"] - spent["order"]
            millions = [whole, whole - sum(spent.values()), *spent.values()]
            row = [f"{kind} {events} {components}", *(f"{cost / 1e6:.2f}" for cost in millions), f"{beside / size:.2f}", f"{beside / events:.0f}"]
            print(f"| {' | '.join(row)} |", flush=True)
            if asked.functions:
                print("\n".join(dearest(out, asked.functions)))


main()
