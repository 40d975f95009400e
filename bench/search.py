#!/usr/bin/env python3
"""Prints how long `snapjudge check` takes, beside searches for an order in the manner of Porcupine and Knossos.

usage: search.py [--repeats N] [--seconds S] [--megabytes M] [--events N ..] [PROGRAM]

The searches are in search/search.cpp, which says what they are; they need `c++`. Each history goes to the program and to both searches
in turn, N times (5 by default), and the median of the processor times counts. It includes the start of the program and
the reading of the text. A search that takes more than S seconds (60) or M megabytes (4096) gives up: it then ends without an answer,
and is not tried with more events of this kind. What it answers is compared with the verdict `atomic`.

A search stops at the first order, or when there is none. The program also tests the other conditions, and prints its whole report.
"""
import argparse
import os
import random
import statistics
import subprocess
import sys
import tempfile

import histories
from run import SNAPJUDGE
from shapes import run

HERE = os.path.dirname(os.path.abspath(__file__))
GAVE_UP = 4
WAYS = ["wing-gong", "just-in-time"]


def faulty_at_last(events, components):
    """Calls of 8 processes, whose last view shows an update too few."""
    rows = histories.atomic(events, components, random.Random(1))
    return histories.with_views(rows, "the last view", lambda k, number, value: (k, number - 1, value - 3))


def of_shape(name):
    return lambda events: histories.texts_of(name, events)[1]


KINDS = {
    "no two calls overlap": of_shape("none overlaps, width 8"),
    "8 processes, atomic": of_shape("atomic, width 8"),
    "8 processes, a fault in the last view": lambda events: histories.text_of(faulty_at_last(events, 8)),
    "the same with 64 components": lambda events: histories.text_of(faulty_at_last(events, 64)),
    "all views overlap, atomic": of_shape("views in a chain, all open, width 8"),
    "all calls overlap, many faults": of_shape("all open, width 8"),
}


def programs_of(asked, folder):
    """The words of each program by its name."""
    search = os.path.join(folder, "search")
    subprocess.run(["c++", "-std=c++17", "-O2", "-o", search, os.path.join(HERE, "search", "search.cpp")], check=True)
    limits = [str(asked.seconds), str(asked.megabytes)]
    return {"snapjudge": [asked.program, "check"], **{way: [search, way, *limits] for way in WAYS}}


def measure(programs, history, report, repeats):
    """The status and the median of the milliseconds, by programs. One that gives up runs once."""
    taken, status = {name: [] for name in programs}, {}
    for _ in range(repeats):
        for name, words in programs.items():
            if status.get(name) != GAVE_UP:
                status[name], milliseconds, _ = run(words, history, report)
                taken[name].append(milliseconds)
    return {name: (status[name], statistics.median(times)) for name, times in taken.items()}


def cell(found, judged):
    """What a search took, and how many times as much as the program."""
    if found is None:
        return "gives up"
    status, milliseconds = found
    if status == GAVE_UP:
        return "gives up"
    if status not in (0, 1) or (status == 0) != (judged[0] == 0):
        sys.exit(f"a search ends with status {status}, and the program with {judged[0]}")
    return f"{milliseconds:.0f} ({milliseconds / judged[1]:.1f})"


def print_kind(kind, programs, asked, folder):
    history, report = os.path.join(folder, "history.csv"), os.path.join(folder, "report")
    going = dict(programs)
    for events in asked.events:
        with open(history, "w", encoding="ascii") as file:
            file.write(KINDS[kind](events))
        found = measure(going, history, report, asked.repeats)
        judged = found["snapjudge"]
        cells = [cell(found.get(way), judged) for way in WAYS]
        print(f"| {kind} | {events} | {'yes' if judged[0] == 0 else 'no'} | {judged[1]:.1f} | {' | '.join(cells)} |", flush=True)
        going = {name: words for name, words in going.items() if name in found and found[name][0] != GAVE_UP}


def main():
    parser = argparse.ArgumentParser(description="How long snapjudge check takes, beside searches for an order.")
    parser.add_argument("--repeats", type=int, default=5)
    parser.add_argument("--seconds", type=int, default=60)
    parser.add_argument("--megabytes", type=int, default=4096)
    parser.add_argument("--events", type=int, nargs="+", default=[64, 256, 1024, 4096, 16384, 65536])
    parser.add_argument("program", nargs="?", type=os.path.abspath, default=os.path.abspath(SNAPJUDGE))
    asked = parser.parse_args()
    print("| history | events | atomic | snapjudge, ms | Wing and Gong, ms (times) | just in time, ms (times) |\n|---|---|---|---|---|---|")
    with tempfile.TemporaryDirectory() as folder:
        programs = programs_of(asked, folder)
        for kind in KINDS:
            print_kind(kind, programs, asked, folder)
    print(f"\nload of the machine: {os.getloadavg()[0]:.1f}, of {os.cpu_count()} processors")


main()
