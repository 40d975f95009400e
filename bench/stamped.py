#!/usr/bin/env python3
"""Compares the time of `snapjudge check` on a text with stamps with that on the same history's text without them. The
records with stamps are in reverse order. Prints a table of the least milliseconds of several runs, of wall time and in
turn.

usage: stamped.py [RUNS]
"""
import asked  # answers --help
import os
import subprocess
import sys
import tempfile

from run import HERE, SNAPJUDGE, run

CASES = [("atomic", 16384, 8), ("overlapping", 16384, 4), ("atomic", 16384, 256)]


def stamped(text):
    """The text with stamps of the same history, the last record first."""
    header, *records = text.splitlines()
    rows = [b"%d,%s" % (at, record) for at, record in enumerate(records)]
    return b"\n".join([b"at," + header, *reversed(rows), b""])


def main():
    runs = int(sys.argv[1]) if len(sys.argv) > 1 else 15
    print("| kind | events | components | without stamps, ms | in reverse order, ms | ratio | reports |")
    print("|---|---|---|---|---|---|---|")
    with tempfile.TemporaryDirectory() as room:
        for kind, events, components in CASES:
            made = subprocess.run([sys.executable, os.path.join(HERE, "generate.py"), kind, str(events), str(components)],
                                  stdout=subprocess.PIPE, check=True).stdout
            plain, turned = os.path.join(room, "plain.csv"), os.path.join(room, "turned.csv")
            for name, text in ((plain, made), (turned, stamped(made))):
                with open(name, "wb") as file:
                    file.write(text)
            done, reports = {plain: [], turned: []}, set()
            for _ in range(runs):
                for name in done:
                    report = os.path.join(room, "report")
                    status, taken, *_ = run([SNAPJUDGE, "check"], name, report)
                    done[name].append(taken)
                    with open(report, "rb") as file:
                        reports.add((status, file.read()))
            without, reverse = (min(done[name]) for name in (plain, turned))
            same = "same" if len(reports) == 1 else "DIFFERENT"
            print(f"| {kind} | {events} | {components} | {without:.1f} | {reverse:.1f} | {reverse / without:.2f} | {same} |", flush=True)


if __name__ == "__main__":
    main()
