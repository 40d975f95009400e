#!/usr/bin/env python3
"""Prints the table of a gate, from what `./test` wrote.

usage: gate.py LOG        as after `./test --anew | tee LOG`
"""
import asked  # answers --help
import re
import sys

HEAD = re.compile(r"^part +passed +failed +skipped +clock +processor$")
ROW = re.compile(r"^(\S+) +(\d+) +(\d+) +(\d+) +(\d+:\d\d) +(\d+:\d\d)$")


def rows_of(lines):
    """The cells of each part and of all; none if the gate did not come to its end."""
    at = max((number for number, line in enumerate(lines) if HEAD.match(line)), default=len(lines))
    rows = []
    for line in lines[at + 1 :]:
        found = ROW.match(line)
        if not found:
            break
        rows.append(found.groups())
    return rows if rows and rows[-1][0] == "all" else []


def main(words):
    if len(words) != 1:
        sys.exit(__doc__)
    with open(words[0], encoding="utf-8", errors="replace") as log:
        lines = log.read().splitlines()
    rows = rows_of(lines)
    if not rows:
        sys.exit(f"{words[0]} has no table of a gate")
    print("| part | passed | failed | skipped | wall time | processor time |\n|---|---|---|---|---|---|")
    for cells in rows:
        print(f"| {' | '.join(cells)} |")
    print(f"\n{lines[-1]}")


if __name__ == "__main__":
    main(sys.argv[1:])
