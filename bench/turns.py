#!/usr/bin/env python3
"""Prints after how many runs the drivers find what is wrong with objects, when threads run freely and when they take turns.

usage: turns.py [SEEDS [RUNS [PROGRAM]]]: the seeds of each row, 10 by default, and the most runs of each seed, 100

The objects are those of recorders/objects.c, all wrong. A cell has the median of the runs until one was not atomic, over all seeds, and
how many seeds found one. With a median over RUNS fewer than half of the seeds did.
"""
import asked  # answers --help
import os
import re
import statistics
import subprocess
import sys
import tempfile

HERE = os.path.dirname(os.path.abspath(__file__))
WAYS = {"free": "", **{f"pct, depth {depth}": f"--schedule pct --depth {depth}" for depth in (3, 6, 20)}}
ROWS = [
    ("naive", ""),
    ("naive", "--calls 10"),
    ("naive", "--threads 3 --components 2 --calls 10"),
    ("first-move", "--calls 10"),
    ("old-view", "--calls 20"),
    ("old-view", "--calls 20 --order turn"),
    ("late-version", "--threads 8 --components 2 --calls 10"),
    ("one-shot", "--calls 2"),
    ("one-shot", "--threads 8 --components 4 --calls 2"),
]


def runs_until_found(words, seed, runs, folder):
    """How many runs it took, or nothing."""
    command = ["./objects", *words, "--seed", str(seed), "--runs", str(runs), "--stop", "1", "--views", "0"]
    done = subprocess.run(command, cwd=folder, stdout=subprocess.PIPE, stderr=subprocess.DEVNULL, text=True, timeout=600)
    found = re.match(r"\S+: atomic (\d+), only-regular (\d+), not-regular (\d+);", done.stdout)
    if not found or done.returncode > 2:
        sys.exit(f"{command} ended with status {done.returncode}")
    return int(found[1]) + 1 if done.returncode else None


def cell(words, seeds, runs, folder):
    found = [runs_until_found(words, seed, runs, folder) for seed in range(1, seeds + 1)]
    median = statistics.median(runs + 1 if it is None else it for it in found)
    told = f"over {runs}" if median > runs else f"{median:g}"
    return f"{told} ({seeds - found.count(None)})"


def main():
    seeds, runs = (int(sys.argv[at]) if len(sys.argv) > at else preset for at, preset in ((1, 10), (2, 100)))
    program = sys.argv[3] if len(sys.argv) > 3 else os.path.join(HERE, "..", "built", "snapjudge")
    os.environ["SNAPJUDGE_PROGRAM"], os.environ["SNAPJUDGE_LIBRARY"] = os.path.realpath(program), ""
    print(f"| object | options | {' | '.join(WAYS)} |\n|---|---|{'---|' * len(WAYS)}")
    with tempfile.TemporaryDirectory() as folder:
        subprocess.run(["cc", "-std=gnu11", "-O2", "-pthread", "-o", f"{folder}/objects", f"{HERE}/recorders/objects.c"], check=True)
        for name, options in ROWS:
            cells = [cell([name, *options.split(), *way.split()], seeds, runs, folder) for way in WAYS.values()]
            print(f"| {name} | {f'`{options}`' if options else ''} | {' | '.join(cells)} |", flush=True)


main()
