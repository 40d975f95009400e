#!/usr/bin/env python3
"""Prints what a page of `snapjudge draw` costs, for each shape of history: its time and its bytes.

usage: draw.py [--events N] [--repeats N] [PROGRAM]

Histories have 65,536 events by default. Times are the least of some runs (5 by default), of wall time and of
processor time. The bytes are those of the page.
"""
import argparse
import os
import sys
import tempfile
import time

from histories import SHAPES, texts_of
from run import SNAPJUDGE
from shapes import run

# The statuses of a verdict.
VERDICTS = (0, 1, 2)


def row(program, name, events, repeats, room):
    """The cells of a shape: its status, the least times, and the bytes of its page."""
    history, page = os.path.join(room, "history.csv"), os.path.join(room, "page.html")
    with open(history, "w", encoding="utf-8") as file:
        file.write(texts_of(name, events)[0])
    taken = []
    for _ in range(repeats):
        begun = time.perf_counter()
        status, processor, _ = run([program, "draw"], history, page)
        taken.append(((time.perf_counter() - begun) * 1000, processor))
    if status not in VERDICTS:
        sys.exit(f"{name}: status {status}")
    by_clock, processor = (min(times) for times in zip(*taken))
    return f"| {name} | {status} | {by_clock:.0f} | {processor:.0f} | {os.path.getsize(page):,} |"


def main():
    parser = argparse.ArgumentParser(usage=__doc__)
    parser.add_argument("--events", type=int, default=65536)
    parser.add_argument("--repeats", type=int, default=5)
    parser.add_argument("program", nargs="?", default=SNAPJUDGE)
    asked = parser.parse_args()
    print("| shape | status | wall time, ms | processor time, ms | bytes of the page |\n|---|---|---|---|---|")
    with tempfile.TemporaryDirectory() as room:
        for name in SHAPES:
            print(row(os.path.abspath(asked.program), name, asked.events, asked.repeats, room), flush=True)
    print(f"\n{os.cpu_count()} processors, load {' '.join(f'{it:.1f}' for it in os.getloadavg())}")


main()
