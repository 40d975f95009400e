#!/usr/bin/env python3
"""Shows on the page on the proof the clauses of the two theorems and the definitions that they depend on, from the sources.

usage: definitions.py            prints them
       definitions.py --write    puts them into docs/PROOF.md, in place of those that are there
       definitions.py --words    prints how many words each part has, and when a reader who begins at the top comes to it

A definition is shown with the comment above it. Of a function the name, the answer and the clauses that are named here are shown.
The table before them says at which minute each part begins. Each word counts, in tables and in code too, and each sign that is
read as a word. What is not read counts nothing: where a link leads, and marks such as braces, colons and a lone =.
"""
import pathlib
import re
import sys

TOP = pathlib.Path(__file__).resolve().parent.parent
PAGE = TOP / "docs/PROOF.md"
IN_PAGE = re.compile(r"(?<=^<!-- from here on share/definitions\.py writes -->\n).*?(?=^<!-- to here -->$)", re.MULTILINE | re.DOTALL)

# How fast a page is read in silence, in words a minute, and how many minutes it may take up to the end of the last part below.
PACE, MINUTES = 200, 10
# The signs that are read as words.
SIGNS = set("× ⊎ ↔ ≡ ≢ → λ ∷ ⊤ < ≤ ++".split())
# The part of the page that the table names last, and where it is there.
LAST = "What is trusted"
LAST_IN_PAGE = re.compile(rf"^## {LAST}\n.*?(?=^## )", re.MULTILINE | re.DOTALL)

# What is shown, in reading order: a title, a sentence or two, and the places and names of functions with their clauses and of definitions.
SHOWN = [
    (
        "The two clauses",
        "A check that answers with a status has written the report of its text. `check_run` is the plain case of [the call that the program makes](#the-theorem). A closed board has a regular and monotone history, and its stores and scans alone have an atomic one.",
        [("crates/snap_check/src/check.rt", "check_run", ["wrote"]), ("crates/snap_board/src/board.rt", "close", ["regular", "monotone", "atomic"])],
    ),
    (
        "1. What a check wrote",
        "`known` is what the reader had, if that is known. `old` and `new` are what the writer held before and after. With a status, the whole report went out, and nothing else.",
        [("crates/snap_check/specs/Runs.antt", "WroteWhole"), ("crates/snap_check/specs/Runs.antt", "WroteBy"), ("crates/snap_check/specs/Runs.antt", "Wrote")],
    ),
    (
        "2. What a report is",
        "`IsText` says which events a text spells, and `refusal_line` how its first fault is written: [FORMAT.md](FORMAT.md) has both in words.",
        [("crates/snap_check/specs/Reports.antt", it) for it in ("IsRefused", "IsJudged", "IsReport")],
    ),
    (
        "3. What a verdict is",
        "This is the heart: three truth values, each tied to a definition below. `report_lines` lays them out.",
        [("crates/snap_check/specs/Verdicts.antt", "IsVerdict")],
    ),
    (
        "4. Histories and calls",
        "`calls_of` makes a call of each begin, in their order. An entry has a component, a number and a value. A view shows `shown_number r k` of component k: 0 where it has no entry.",
        [("crates/snap_core/specs/Events.antt", it) for it in ("TakeTurns", "IsWellFormed", "IsSingleWriter", "IsNumbered", "IsHistory")]
        + [("crates/snap_core/specs/Calls.antt", it) for it in ("Operation", "Call", "is_before", "precedes")],
    ),
    (
        "5. Regular",
        "Each view by itself, and each component by itself.",
        [("crates/snap_core/specs/Regular.antt", it) for it in ("IsViewOf", "IsUpdateOf", "IsBegunBeforeEnd", "IsRegular")],
    ),
    (
        "6. Monotone",
        "Two views, one after the other.",
        [("crates/snap_core/specs/Monotone.antt", "IsMonotone")],
    ),
    (
        "7. Atomic",
        "All calls at once: linearizable, in the sense of Herlihy and Wing. Here each component has one writer.",
        [("crates/snap_core/specs/Orders.antt", it) for it in ("last_written", "IsLegalOrder", "IsAtomic")]
        + [("crates/snap_theory/specs/Versions.antt", it) for it in ("IsLegalBy", "IsAtomicBy")],
    ),
]


def definition(file, name):
    """The lines of a definition, with the comment above it."""
    lines = (TOP / file).read_text(encoding="utf-8").splitlines()
    heads = [at for at, line in enumerate(lines) if re.match(rf"(?:\w+ )*pub (?:\w+ )?{re.escape(name)}(?![\w'-])", line)]
    if len(heads) != 1:
        sys.exit(f"{file} defines {name} {len(heads)} times")
    begin = end = heads[0]
    while begin and lines[begin - 1].startswith("-- "):
        begin -= 1
    while end + 1 < len(lines) and re.match(rf" |{re.escape(name)}(?![\w'-])", lines[end + 1]):
        end += 1
    return lines[begin : end + 1]


def clauses(file, name, wanted):
    """The head of a function without its arguments, and these clauses of it."""
    text = (TOP / file).read_text(encoding="utf-8")
    found = re.findall(rf"^ *pub fn {name}\b.*?^ *{{$", text, re.MULTILINE | re.DOTALL)
    if len(found) != 1:
        sys.exit(f"{file} has {len(found)} functions {name}")
    answer = re.search(r"-> (.*)$", found[0], re.MULTILINE).group(1)
    lines = [f"pub fn {name}(..) -> {answer}"]
    for it in wanted:
        clause = re.search(rf"^ *(ensures {it} {{.*}})$", found[0], re.MULTILINE)
        if not clause:
            sys.exit(f"{name} of {file} has no clause {it} in one line")
        lines.append(f"    {clause.group(1)}")
    return lines


def words(text):
    """How many words of a page are read."""
    read = re.sub(r"<!--.*?-->|^```\w*|(?<=\])\([^()]*\)", "", text, flags=re.MULTILINE)
    return sum(re.search(r"\w", it) is not None or it in SIGNS for it in read.split())


def part(title, sentences, places):
    """A part of the page: its title, its sentences, and the clauses and definitions at these places."""
    lines = [f"### {title}", "", sentences, ""]
    for file in dict.fromkeys(place[0] for place in places):
        code = [clauses(*place) if len(place) == 3 else definition(*place) for place in places if place[0] == file]
        mark = "rust" if file.endswith(".rt") else "antt"
        lines += [f"[{file}](../{file}):", "", f"```{mark}", *"\n\n".join("\n".join(it) for it in code).split("\n"), "```", ""]
    return "\n".join(lines)


def table(rows):
    """The table of the parts: of each its words, and when a reader comes to it, to ten seconds."""
    lines = ["| Begins at | Part | Words |", "|---|---|---|"]
    for title, begin, count in rows:
        seconds = begin * 6 // PACE * 10
        anchor = re.sub(r"[^\w -]", "", title.lower()).replace(" ", "-")
        lines.append(f"| {seconds // 60}:{seconds % 60:02} | [{title}](#{anchor}) | {count} |")
    return "\n".join([*lines, "", ""])


def rows(page, parts):
    """Each part with its place among the words that are read, and its own words."""
    front = page.partition("<!-- from here on")[0]
    last = LAST_IN_PAGE.search(page)
    found = [(title, 0, words(text)) for title, text in [*parts.items(), (LAST, last.group() if last else "")]]
    at = words(front) + words(table(found))
    for place, (title, _, count) in enumerate(found):
        found[place] = (title, at, count)
        at += count
    return found


def page_rows():
    return rows(PAGE.read_text(encoding="utf-8"), {title: part(title, *rest) for title, *rest in SHOWN})


def minutes(found):
    """How long a reader takes to the end of the last part."""
    _, begin, count = found[-1]
    return (begin + count) / PACE


def shown():
    """What the page shows."""
    return table(page_rows()) + "\n".join(part(*it) for it in SHOWN)


def in_page():
    """What the page shows now."""
    found = IN_PAGE.search(PAGE.read_text(encoding="utf-8"))
    return found and found.group()


def main(asked):
    if asked == ["--write"]:
        PAGE.write_text(IN_PAGE.sub(lambda _: shown(), PAGE.read_text(encoding="utf-8"), count=1), encoding="utf-8")
    elif asked == ["--words"]:
        found = page_rows()
        print(table(found), end="")
        print(f"{sum(found[-1][1:])} words, {minutes(found):.1f} minutes at {PACE} words a minute")
    elif asked:
        sys.exit(__doc__)
    else:
        print(shown(), end="")


if __name__ == "__main__":
    if sys.argv[1:] in (["-h"], ["--help"]):
        sys.exit(print(__doc__.strip()))
    main(sys.argv[1:])
