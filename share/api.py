#!/usr/bin/env python3
"""Compares the page of the calls that do not change, docs/API.md, with the sources, or writes it anew.

usage: api.py [--write]

A block of the page with the mark `rust api=CRATE` has types and calls of a crate. A type is one line, with its fields or variants if
these are public. A call is three: the first sentence of its comment, its name and type, and the names of the clauses of its contract.
They come with the file that it is in. With --write each is written anew from the sources. To add one, write its name on a line of its
own, as `View::number`, `read_history` or `enum Event`. Each call has a caller in the tests, and none has a caller besides.
"""
import pathlib
import re
import sys

TOP = pathlib.Path(__file__).resolve().parent.parent
PAGE = TOP / "docs/API.md"
CALLERS = TOP / "crates/snap_promised_tests/src/calls"
# The crates whose items a crate hands on as its own.
BELOW = {
    "snap_csv": ["snap_format", "snap_text"],
    "snap_conditions": ["snap_views"],
    "snap_pairs": ["snap_threads"],
    "snap_record": ["snap_board"],
}
BLOCK = re.compile(r"(?m)^```rust api=(\w+)\n(.*?)^```$", re.S)
KINDS = ("struct", "enum", "trait")


def sources(crate):
    """The files of a crate and of those below it whose items it hands on, each with its path."""
    for name in [crate, *BELOW.get(crate, [])]:
        for path in sorted((TOP / "crates" / name / "src").rglob("*.rt")):
            yield path.relative_to(TOP).as_posix(), path.read_text(encoding="utf-8")


def joined(lines):
    """Lines as one, without the comma after the last of several arguments, fields or variants."""
    text = re.sub(r"\s+", " ", " ".join(line.strip() for line in lines)).strip()
    text = re.sub(r",? ([)>])", r"\1", re.sub(r"([(<]) ", r"\1", re.sub(r",\s*([)\]>])", r"\1", text)))
    return re.sub(r", }", " }", text).replace("- >", "->")


def type_line(kind, name, lines, at):
    """A type in one line: its public fields or its variants, or its name alone if its fields are its own."""
    head = lines[at].removeprefix("pub ")
    if head.endswith(";") or kind == "trait":
        return f"{kind} {name}"
    end = next(i for i in range(at, len(lines)) if lines[i].startswith("}"))
    body = [line for line in lines[at + 1 : end] if not line.strip().startswith(("//", "ghost", "#["))]
    fields = [line for line in body if line.startswith("    ") and not line.startswith("     ")]
    if kind == "struct" and not all(line.strip().startswith("pub ") for line in fields):
        return f"{kind} {name}"
    return joined([head, *(line.replace("pub ", "", 1) for line in body), "}"])


def first_sentence(lines, at):
    """The first sentence of the comment above a line."""
    said = []
    for line in reversed(lines[:at]):
        if line.strip().startswith("#["):
            continue
        if not line.strip().startswith("///"):
            break
        said.insert(0, line.strip().removeprefix("///").strip())
    return re.split(r"(?<=[.!?]) (?=[A-Z`])", " ".join(said))[0]


def call_lines(shown, lines, at, path):
    """A call: what is said of it, its name and type, and the clauses of its contract."""
    rest = range(at, len(lines))
    begins = re.compile(r"\s*(?:requires|ensures)\b|\s*\{$")
    ends = next(i for i in rest if begins.match(lines[i]) or lines[i].endswith((" {", ";")))
    has_body = lines[ends].endswith((" {", ";")) and not begins.match(lines[ends])
    head = lines[at:ends] + ([lines[ends].removesuffix("{").removesuffix(";")] if has_body else [])
    written = re.sub(r"^(?:pub )?fn \w+", lambda _: shown, joined(head))
    clauses = {"requires": [], "ensures": []}
    for line in () if has_body else lines[ends:]:
        clause = re.match(r"\s*(requires|ensures) (\w+)?", line)
        if clause:
            clauses[clause.group(1)].append(clause.group(2) or "one clause")
        elif re.match(r"\s*\{$", line):
            break
    promise = "; ".join(f"{kind} {', '.join(names)}" for kind, names in clauses.items() if names) or "no clause"
    return [f"/// {first_sentence(lines, at)}", written, f"//  {promise}: {path}"]


def entry(crate, name):
    """The lines of a type or a call of a crate, or none if it has no such item."""
    kind, _, called = name.partition(" ")
    owner, _, call = name.rpartition("::")
    for path, text in sources(crate):
        lines, inside = text.split("\n"), None
        for at, line in enumerate(lines):
            if kind in KINDS and re.match(rf"pub {kind} {called}\b", line):
                return [type_line(kind, called, lines, at)]
            block = re.match(r"(?:impl|pub trait)(?:<.*?>(?= ))? (\w+)(?:<[^{]*>)?(?:: \w+)? \{", line)
            inside = block.group(1) if block else None if line.startswith("}") else inside
            if kind not in KINDS and owner == (inside or "") and re.match(rf"{'    ' if owner else ''}(?:pub )?fn {call}\b", line):
                if line.strip().startswith("pub") or re.match(rf"(?s).*pub trait {owner}\b", text):
                    return call_lines(name, lines, at, path)
    return None


def names_in(block):
    """The items of a block: of a line that is not a comment its name, and its kind before it if it is a type."""
    for line in block.splitlines():
        if line.startswith(KINDS):
            yield " ".join(re.split(r"[ <{;]", line)[:2])
        elif line and not line.startswith("//"):
            yield re.match(r"[\w:]+", line).group()


def written(crate, block):
    """A block as the sources have it. What they lack is left as a name with a mark."""
    lines, was_call = [], False
    for name in names_in(block):
        found = entry(crate, name) or [f"{name} IS NOWHERE"]
        lines += [""] * (len(found) > 1 or was_call) + found
        was_call = len(found) > 1
    return "".join(f"{line}\n" for line in lines).lstrip("\n")


def renewed(page):
    """The page with its blocks as the sources have them."""
    return BLOCK.sub(lambda it: f"```rust api={it.group(1)}\n{written(it.group(1), it.group(2))}```", page)


def calls_in(page):
    """The name of the caller of each call of the page."""
    for block in BLOCK.finditer(page):
        for name in names_in(block.group(2)):
            if not name.startswith(KINDS):
                owner, _, call = name.rpartition("::")
                spaced = re.sub(r"(?<!^)([A-Z])", r"_\1", owner).lower()
                yield f"{spaced}_{call}" if owner else call


def callers():
    """The callers in the tests."""
    for path in sorted(CALLERS.glob("*.rt")):
        yield from re.findall(r"(?m)^fn (\w+)", path.read_text(encoding="utf-8"))


def faults():
    """What is wrong with the page, or with the callers of its calls."""
    page = PAGE.read_text(encoding="utf-8")
    for old, new in zip(page.splitlines(), renewed(page).splitlines()):
        if old != new:
            yield f"docs/API.md has '{old}' and the sources have '{new}': run share/api.py --write"
            break
    named, made = sorted(calls_in(page)), sorted(callers())
    yield from (f"docs/API.md has a call without a caller {it} in the tests" for it in named if it not in made)
    yield from (f"the caller {it} in the tests is of no call of docs/API.md" for it in made if it not in named)


def main(words):
    if words == ["--write"]:
        PAGE.write_text(renewed(PAGE.read_text(encoding="utf-8")), encoding="utf-8")
    elif words:
        sys.exit(__doc__)
    found = list(faults())
    print("\n".join(found) or "docs/API.md has what the sources have")
    return 1 if found else 0


if __name__ == "__main__":
    if sys.argv[1:] in (["-h"], ["--help"]):
        sys.exit(print(__doc__.strip()))
    sys.exit(main(sys.argv[1:]))
