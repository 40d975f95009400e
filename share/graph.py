#!/usr/bin/env python3
"""Draws the crates that the program and the library depend on, from crates.txt, as a Mermaid graph.

usage: graph.py            prints the graph
       graph.py --write    puts it into docs/ARCHITECTURE.md, in place of the one that is there

An arrow goes from a crate to each that it depends on directly. One that leads where a longer way leads too is left out.
"""
import re
import sys

from crates import TOP, below_each, reached

PAGE = TOP / "docs/ARCHITECTURE.md"
ENDS = ("snapjudge", "snap_c")
IN_PAGE = re.compile(r"(?<=^```mermaid\n).*?(?=^```$)", re.MULTILINE | re.DOTALL)


def arrows(below):
    """The pairs of a crate and one that it depends on and reaches by no longer way."""
    for crate, names in below.items():
        for name in names:
            others = reached(below, [it for it in names if it != name])
            if name not in others:
                yield crate, name


def graph():
    below = below_each()
    shown = reached(below, ENDS)
    lines = ["graph TD"]
    lines += [f"    {upper} --> {lower}" for upper, lower in arrows({it: names for it, names in below.items() if it in shown})]
    joined = {it for line in lines for it in line.split()}
    lines += [f"    {it}" for it in below if it in shown - joined]
    return "\n".join(lines) + "\n"


def in_page(page):
    """The graph that a page shows."""
    found = IN_PAGE.search(page)
    return found and found.group()


def main(words):
    drawn = graph()
    if words == ["--write"]:
        PAGE.write_text(IN_PAGE.sub(lambda _: drawn, PAGE.read_text(encoding="utf-8"), count=1), encoding="utf-8")
    elif words:
        sys.exit(__doc__)
    else:
        print(drawn, end="")


if __name__ == "__main__":
    if sys.argv[1:] in (["-h"], ["--help"]):
        sys.exit(print(__doc__.strip()))
    main(sys.argv[1:])
