#!/usr/bin/env python3
"""Prints how the scans of recorded runs went, as a table over RUNS runs of `record --scan --stamped --rounds ROUNDS`. It has the
share of scans that were interfered with, the mean tries of the others, and what `check` says of the history.

usage: scans.py [RUNS [ROUNDS]]

Each of two workers stores ROUNDS times and scans as often, with at most 64 tries. A scan that was interfered with leaves no
record, so their number is that of the calls that the text lacks. The text lacks stamps below its last one. Such a scan draws 66
of them: its begin, its tries and its end. The others are one for each try of the scans that answered. Stamps that a scan draws
after the last record are not seen. So the mean may be a little too low if a run ends with a scan that was interfered with.
"""
import asked  # answers --help
import os
import subprocess
import sys

HERE = os.path.dirname(os.path.abspath(__file__))
PROGRAM = os.path.join(HERE, "..", "built", "snapjudge")
WORKERS = 2
STAMPS_OF_INTERFERED = 66


def record(rounds):
    """The text of one run."""
    words = [PROGRAM, "record", "--scan", "--stamped", "--rounds", str(rounds)]
    return subprocess.run(words, check=True, capture_output=True).stdout


def judge(text):
    """The status of the report on a text, and whether it says that the history is atomic."""
    judged = subprocess.run([PROGRAM, "check"], input=text, capture_output=True)
    return judged.returncode, b"\natomic yes\n" in judged.stdout


def measure(text, planned):
    """How many of these planned scans were interfered with, and the mean tries of the others."""
    stamps = [int(line.split(b",", 1)[0]) for line in text.splitlines()[1:]]
    interfered = 2 * planned - len(stamps) // 2
    tries = stamps[-1] + 1 - len(stamps) - STAMPS_OF_INTERFERED * interfered
    return interfered, tries / (planned - interfered)


def main():
    runs = int(sys.argv[1]) if len(sys.argv) > 1 else 20
    rounds = int(sys.argv[2]) if len(sys.argv) > 2 else 2048
    planned = WORKERS * rounds
    print("| run | scans | interfered | share | mean tries | status | atomic |")
    print("|---|---|---|---|---|---|---|")
    for run in range(1, runs + 1):
        text = record(rounds)
        interfered, tries = measure(text, planned)
        status, is_atomic = judge(text)
        atomic = "yes" if is_atomic else "no"
        print(f"| {run} | {planned} | {interfered} | {interfered / planned:.4f} | {tries:.2f} | {status} | {atomic} |")


main()
