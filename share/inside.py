#!/usr/bin/env python3
"""Finds what callers read that cites a definition in specs/inside/, which only proofs need.

usage: inside.py

No file of specs/ beside that folder may import from it. Nor may a clause name what is imported from it where callers read the clause:
that of a function, a method or a trait that the root of a library hands on, and the value of a type as contracts see it. It prints
each such place, and ends with status 1 if there is one.
"""
import pathlib
import re
import sys

TOP = pathlib.Path(__file__).resolve().parent.parent
INSIDE = re.compile(r"use Rattle\.\w+\.specs\.inside\b[\w.]*(?:\{([^}]*)\}| as (\w+))")
HANDED_ON = re.compile(r"^pub use ([^;]*);", re.MULTILINE)
FUNCTION = re.compile(r"^(\s*)(pub )?(?:const )?(?:unsafe )?(?:extern \"C\" )?fn (\w+)")
CLAUSE = re.compile(r"^\s*(?:requires|ensures)\b")
SEEN = re.compile(r"^\s*ghost (?:Value|view)\b")
BODY = re.compile(r"^\s*(?:\{\}?|.*;)$")


def words(text):
    return set(re.findall(r"[^\W\d][\w'-]*", text))


def names_inside(text):
    """What a file imports from specs/inside/, by the names that it has there."""
    imported = (name for names, alias in INSIDE.findall(text) for name in (names or alias).split(","))
    return {name.split(" as ")[-1].strip() for name in imported}


def lines_for_callers(text, handed_on):
    """The lines of a file's clauses that callers read, each with its number."""
    block, is_read, is_clause = "", False, False
    for number, line in enumerate(text.splitlines(), 1):
        if re.match(r"(?:unsafe )?(?:impl|pub trait)\b", line):
            block = line
        elif line == "}":
            block = ""
        function = FUNCTION.match(line)
        if function:
            is_public = function[2] is not None or " for " in block or block.startswith("pub trait")
            is_read = is_public and bool((words(block) if function[1] else {function[3]}) & handed_on)
            is_clause = False
        elif CLAUSE.match(line):
            is_clause = True
        elif BODY.match(line):
            is_read = False
        is_value = "Model for" in block and words(block) & handed_on and SEEN.match(line)
        if is_value or (is_read and is_clause):
            yield number, line


def cited_in(text, handed_on):
    """Where a file of code cites what is inside in clauses for callers: the number of each line, and a name."""
    inside = names_inside(text)
    for number, line in lines_for_callers(text, handed_on):
        for name in sorted(words(line) & inside):
            yield number, name


def imported_in(text):
    """Where a file of definitions imports from what is inside."""
    for found in INSIDE.finditer(text):
        yield text.count("\n", 0, found.start()) + 1, " ".join((found[1] or found[2]).split())


def cited(crate):
    """Where a crate's definitions and clauses for callers cite what is inside."""
    for file in sorted(crate.glob("specs/*.antt")):
        for number, names in imported_in(file.read_text(encoding="utf-8")):
            yield file, number, names
    root = crate / "src/lib.rt"
    if not root.exists():
        return
    handed_on = words(" ".join(HANDED_ON.findall(root.read_text(encoding="utf-8"))))
    for file in sorted(crate.glob("src/**/*.rt")):
        for number, name in cited_in(file.read_text(encoding="utf-8"), handed_on):
            yield file, number, name


def all_cited():
    return [it for crate in sorted((TOP / "crates").iterdir()) for it in cited(crate)]


if __name__ == "__main__":
    found = all_cited()
    for file, number, name in found:
        print(f"{file.relative_to(TOP)}:{number}: {name} is in specs/inside/, and callers read this")
    sys.exit(1 if found else 0)
