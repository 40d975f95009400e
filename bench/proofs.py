#!/usr/bin/env python3
"""Seconds of the proofs by crate, by function and by part of a proof, from the times of the files that the prover wrote.

usage: proofs.py [MOST]        (after a first `./build --keep`; MOST functions are printed, 30 by default)

The prover writes a file for each part of a proof as soon as it has checked it. The span between two files that come one after the
other is counted to the later. If a crate was proved by several jobs, what they did at the same time is so counted once.
"""
import asked  # answers --help
import collections
import os
import re
import sys

TOP = os.path.dirname(os.path.dirname(os.path.abspath(__file__)))
# A longer span is not a proof: the check was run again later.
PAUSE = 120
# The parts of a proof, each with what the names of its files have; the first that fits counts.
PARTS = [
    ("each local of a function, followed from step to step", re.compile(r"\.Lts(-|\.|$)")),
    ("goals, searched for or answered", re.compile(r"\.(Proof|Answers|Invariants|Goals)(-[\w-]+)?(\.decls)?$")),
    ("what the code means, and how its parts are put together", re.compile(r"\.(Tie|TheLink|Code|Mir|Layout|Kinds|Carried|Reads|Met|Named|Given|Statement|Paired|Symbol|Key|View)")),
    ("definitions and contracts", re.compile("-specs")),
    ("lemmas", re.compile("")),
]
# The last words of a file's name that name the part of a function's proof and not the function.
PART = re.compile(r"[A-Z]\w*$|decls$|\w*-\w*$")


def files_of(crate):
    """The times and names of the files that the prover wrote for a crate, in the order of their times."""
    found = []
    for at, _, names in os.walk(f"{TOP}/crates/{crate}/out/incremental"):
        found += [(os.stat(f"{at}/{name}").st_mtime, name.removesuffix(".oantt")) for name in names if name.endswith(".oantt")]
    return sorted(found)


def function_of(name):
    """The function or the subject that a file is of."""
    words = re.sub(r"^Rattle-\w+[.-](proofs|specs)\.(contracts\.)?", "", name).split(".")
    while len(words) > 1 and PART.match(words[-1]):
        words.pop()
    return ".".join(words[:3])


def main(words):
    most = int(words[0]) if words else 30
    crates, functions, parts = collections.Counter(), collections.Counter(), collections.Counter()
    for crate in sorted(os.listdir(f"{TOP}/crates")):
        files = files_of(crate)
        for (before, _), (after, name) in zip(files, files[1:]):
            if after - before < PAUSE:
                crates[crate] += after - before
                functions[f"{crate} {function_of(name)}"] += after - before
                parts[next(part for part, has in PARTS if has.search(name))] += after - before
    if not crates:
        print("nothing is kept here: run ./build --keep first", file=sys.stderr)
        return 1
    for title, counts in (("crate", crates), ("function", functions), ("part of a proof", parts)):
        print(f"| seconds | {title} |\n|---|---|")
        for name, seconds in counts.most_common(most):
            print(f"| {seconds:.0f} | {name} |")
        print()
    return 0


if __name__ == "__main__":
    sys.exit(main(sys.argv[1:]))
