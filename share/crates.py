#!/usr/bin/env python3
"""Reads crates.txt, for the scripts and the shell: each crate of this tree, with the libraries that it depends on.

usage: crates.py              each crate, the lowest first
       crates.py CRATE ..     these crates and each that they depend on
"""
import pathlib
import re
import sys
import typing

TOP = pathlib.Path(__file__).resolve().parent.parent
# A crate of this tree that a line of source, or of a specification or a proof, names.
NAMED = re.compile(r"^\s*(?:pub )?use (snap_\w+)::|Rattle\.(snap_\w+)\.", re.MULTILINE)


class Crate(typing.NamedTuple):
    """The line of a crate, and the names in it after the colon: crates of this tree, and libraries of the kit."""

    line: str
    libraries: list


def read(text=None):
    """Each crate by its name, the lowest first: those of a text, or else of crates.txt."""
    text = (TOP / "crates.txt").read_text(encoding="utf-8") if text is None else text
    found = {}
    for line in text.splitlines(keepends=True):
        head, colon, libraries = line.partition("#")[0].partition(":")
        if colon:
            found[head.split()[0]] = Crate(line, libraries.split())
    return found


def below_each(text=None):
    """Each crate with those of this tree that it depends on directly."""
    crates = read(text)
    return {name: [it for it in crate.libraries if it in crates] for name, crate in crates.items()}


def reached(below, names):
    """These crates and everything that they depend on."""
    found, left = set(), list(names)
    while left:
        name = left.pop()
        if name not in found:
            found.add(name)
            left += below[name]
    return found


def unnamed():
    """Each file that names a crate which the line of its own crate does not have, with the name of that crate."""
    for crate, (_, libraries) in read().items():
        # what is built of a crate lies beside these, and has files of the crates below it
        folders = [TOP / f"crates/{crate}/{it}" for it in ("src", "specs", "proofs")]
        for file in sorted(it for folder in folders for it in folder.rglob("*.*t")):
            if file.suffix in (".rt", ".antt"):
                named = {code or ghost for code, ghost in NAMED.findall(file.read_text(encoding="utf-8"))}
                yield from ((file.relative_to(TOP), it) for it in sorted(named - {crate, *libraries}))


def main(names):
    below = below_each()
    unknown = [name for name in names if name not in below]
    if unknown:
        sys.exit(f"crates.txt has no {unknown[0]}")
    asked = reached(below, names or below)
    print("\n".join(name for name in below if name in asked))


if __name__ == "__main__":
    main(sys.argv[1:])
