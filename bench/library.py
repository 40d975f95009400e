#!/usr/bin/env python3
"""Prints a table of histories a second, one thread: through the library, and by starting the program for each.

usage: library.py        (build first: ffi/build.sh and ./snapjudge)

Each history is made by generate.py from the number 1. Each rate is the best of REPEATS runs of SECONDS.
"""
import asked  # answers --help
import os
import subprocess
import sys
import tempfile

HERE = os.path.dirname(os.path.abspath(__file__))
FFI = os.path.join(HERE, "..", "ffi")
PROGRAM = os.path.join(HERE, "..", "built", "snapjudge")
CASES = [("atomic", 10, 3), ("overlapping", 10, 2), ("atomic", 64, 4), ("atomic", 1024, 8), ("overlapping", 1024, 4), ("writes", 1024, 4)]
REPEATS, SECONDS = 3, 1


def main():
    print("| kind | events | components | bytes | library, a second | program, a second |")
    print("|---|---|---|---|---|---|")
    with tempfile.TemporaryDirectory() as room:
        bench, history = os.path.join(room, "library"), os.path.join(room, "history.csv")
        source, library = os.path.join(HERE, "library.c"), os.path.join(FFI, "build", "libsnapjudge.a")
        subprocess.run(["cc", "-O2", "-I", os.path.join(FFI, "c"), "-o", bench, source, library], check=True)
        for kind, events, components in CASES:
            with open(history, "wb") as text:
                subprocess.run([sys.executable, os.path.join(HERE, "generate.py"), kind, str(events), str(components)], stdout=text, check=True)
            runs = [subprocess.run([bench, history, PROGRAM, str(SECONDS)], capture_output=True, check=True).stdout.split() for _ in range(REPEATS)]
            alone, started = (max(float(run[which]) for run in runs) for which in (0, 1))
            print(f"| {kind} | {events} | {components} | {os.path.getsize(history)} | {alone:,.0f} | {started:,.0f} |", flush=True)


main()
