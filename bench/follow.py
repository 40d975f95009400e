#!/usr/bin/env python3
"""Prints what `snapjudge check --follow` costs by how the lines of a recording are written, beside a check of the same text.

usage: follow.py [--events N] [--repeats N] [PROGRAM]

The recording has 1,000,000 events by default, with a quiet moment after each call. Its lines end in LF or in CR LF,
and no field is quoted, or the last one of each record, or all fields. Two texts have a stamp in each record, and the stamps rise.
A last text has the header and as many empty lines.

Times are processor time, user and system, in milliseconds. The runs are made in turn, 5 times by default, and the
least of each counts. The ratio is the time of following to that of following the lines that end in LF without quotes. All ways of one
recording must have the same lines of windows byte for byte.
"""
import argparse
import filecmp
import os
import sys
import tempfile

from histories import HEADER, STAMPED, texts_of
from run import SNAPJUDGE
from shapes import run

SHAPE = "none overlaps, width 2"
# The greatest limit of events, and how many each window has at least.
MOST, WINDOW = 1048576, 1000


def quoted(row):
    """A row with all fields in quotes."""
    return ",".join(f'"{field}"' for field in row.split(","))


def last_quoted(row):
    """A row with its last field in quotes."""
    front, field = row.rsplit(",", 1)
    return f'{front},"{field}"'


def stamped(rows):
    """The same rows, each with its number among those under the header as its stamp."""
    return [STAMPED, *(f"{at},{row}" for at, row in enumerate(rows[1:]))]


# How a recording may be written: the name, what is made of all rows, and then of each row, and the end of each line.
WAYS = (
    ("LF", list, str, "\n"),
    ("CR LF", list, str, "\r\n"),
    ("LF, the last field quoted", list, last_quoted, "\n"),
    ("LF, all fields quoted", list, quoted, "\n"),
    ("CR LF, all fields quoted", list, quoted, "\r\n"),
    ("LF, with stamps", stamped, str, "\n"),
    ("LF, with stamps, all fields quoted", stamped, quoted, "\n"),
)


def written(room, number, rows, end):
    """The name of a new file with these rows."""
    name = os.path.join(room, f"{number}.csv")
    with open(name, "w", encoding="utf-8", newline="") as file:
        file.writelines(row + end for row in rows)
    return name


def measured(words, name, report):
    """The milliseconds and the status of a run over a file."""
    status, taken, _ = run(words, name, report)
    if status not in (0, 1, 2):
        sys.exit(f"{' '.join(words)} ended with status {status}")
    return taken


def main():
    words = argparse.ArgumentParser(description=__doc__.splitlines()[0])
    words.add_argument("--events", type=int, default=1000000)
    words.add_argument("--repeats", type=int, default=5)
    words.add_argument("program", nargs="?", default=SNAPJUDGE)
    asked = words.parse_args()
    program = os.path.abspath(asked.program)
    follow = [program, "check", "--follow", "--window", str(WINDOW)]
    check = [program, "check", "--quiet", "--events", str(MOST)]
    with tempfile.TemporaryDirectory() as room:
        rows = texts_of(SHAPE, asked.events)[0].splitlines()
        texts = [(name, written(room, number, map(change, made(rows)), end)) for number, (name, made, change, end) in enumerate(WAYS)]
        texts.append(("empty lines", written(room, len(WAYS), [HEADER] + [""] * asked.events, "\n")))
        lines = [os.path.join(room, f"lines{number}") for number in range(len(texts))]
        followed, checked = [[] for _ in texts], [[] for _ in texts]
        for _ in range(asked.repeats):
            for number, (_, text) in enumerate(texts):
                followed[number].append(measured(follow, text, lines[number]))
                checked[number].append(measured(check, text, os.devnull))
        print("| lines | text, MB | follow, ms | ratio | check, ms | lines of windows |\n|---|---|---|---|---|---|")
        for number, (name, text) in enumerate(texts):
            same = "-" if number == len(WAYS) else "same" if filecmp.cmp(lines[0], lines[number], shallow=False) else "DIFFERENT"
            least = min(followed[number])
            print(f"| {name} | {os.path.getsize(text) / 1e6:.1f} | {least:.0f} | {least / min(followed[0]):.1f} | {min(checked[number]):.0f} | {same} |")


if __name__ == "__main__":
    main()
