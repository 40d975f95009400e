#!/usr/bin/env python3
"""Prints where the time of `snapjudge check` goes, in wall time: the text, the tally, the order and the report.

usage: parts.py [--against PROGRAM] [--runs N] [KIND ..]

Each history is made by generate.py from the number 1. With `--views 32768`, more views than it has, a check ends when its text
is read and its calls are indexed. With `--quiet` it ends after the tally, except for three lines. So the tally is what `--quiet`
takes beyond `--views`. The order and the report are what the whole takes beyond `--quiet`. The rest is the whole without the
tally. It is printed for one worker, and the tally for two as well.

Each time is the least of N runs (40 by default), taken in turn, in milliseconds from the start of the process to its end. What
is written is thrown away. With --against another judge of the same text runs in turn with the others.
"""
import argparse
import os
import subprocess
import sys
import tempfile

from run import HERE, SNAPJUDGE, run

CASES = [
    ("atomic", 17900, 8), ("atomic", 42800, 256),
    ("atomic", 16384, 8), ("pending", 16384, 8), ("overlapping", 16384, 4), ("toggling", 16384, 4), ("late", 16384, 32),
    ("stale", 16384, 8), ("writes", 16384, 8), ("random", 16384, 8),
    ("atomic", 16384, 256), ("pending", 16384, 256), ("overlapping", 16384, 256), ("writes", 16384, 256), ("random", 16384, 256),
    ("writes", 65536, 8), ("overlapping", 65536, 256), ("writes", 65536, 256),
]


def least(programs, history, runs):
    """The least milliseconds of each program, run in turn."""
    seen = [[] for _ in programs]
    for _ in range(runs):
        for times, words in zip(seen, programs):
            times.append(run(words, history, os.devnull)[1])
    return [min(times) for times in seen]


def main():
    words = argparse.ArgumentParser(description="where the time of `snapjudge check` goes")
    words.add_argument("--against", metavar="PROGRAM", help="another judge of the same text")
    words.add_argument("--runs", type=int, default=40)
    words.add_argument("kinds", nargs="*", metavar="KIND")
    asked = words.parse_args()
    alone, both = ([SNAPJUDGE, "check", "--workers", str(n)] for n in (1, 2))
    programs = [alone, [*alone, "--views", "32768"], [*alone, "--quiet"], [*both, "--views", "32768"], [*both, "--quiet"]]
    if asked.against:
        programs.append([asked.against, "check"])
    print("| kind | events | components | bytes | whole | text and index | tally | order and report | beside the tally | tally, 2 workers | ratio | other judge | ratio to it |")
    print("|---|---|---|---|---|---|---|---|---|---|---|---|---|")
    with tempfile.TemporaryDirectory() as room:
        history = os.path.join(room, "history.csv")
        for kind, events, components in CASES:
            if asked.kinds and kind not in asked.kinds:
                continue
            with open(history, "wb") as text:
                subprocess.run([sys.executable, os.path.join(HERE, "generate.py"), kind, str(events), str(components)], stdout=text, check=True)
            whole, read, judged, read_by_two, judged_by_two, *other = least(programs, history, asked.runs)
            tally, by_two = judged - read, judged_by_two - read_by_two
            told = f"{other[0]:.1f} | {whole / other[0]:.1f}" if other else "- | -"
            print(f"| {kind} | {events} | {components} | {os.path.getsize(history)} | {whole:.1f} | {read:.1f} | {tally:.1f} | {whole - judged:.1f} | {whole - tally:.1f} | {by_two:.1f} | {by_two / tally:.2f} | {told} |", flush=True)


if __name__ == "__main__":
    main()
