"""Tells what has changed since a gate passed here.

usage: touched.py sums            a sum for each crate and for each other folder that the gate tries
       touched.py since RECORD    the crates and folders whose sum is not the one in RECORD, and the crates that depend on them,
                                  the lowest first
"""
import glob
import hashlib
import os
import sys

import crates

TOP = os.path.dirname(os.path.dirname(os.path.abspath(__file__)))
# The pages that are not in docs/, and what repeats the version. No crate is proved again for its page.
PAGES = sorted([*glob.glob("*.md", root_dir=TOP), *glob.glob("crates/*/README.md", root_dir=TOP), "VERSION", "CITATION.cff"])

# What the gate tries beside the crates, and the files at the top that belong to it.
FOLDERS = {
    "examples": [],
    "share": ["examples", "build", "install", "package", "snapjudge", "test", "try", "docs/FORMAT.md", "docs/INSTALL.md"],
    "docs": ["crates.txt", "examples", *PAGES],
    "ffi": ["bench/generate.py", "bench/histories.py", "bench/recordings.py", "docs/OWN-OBJECT.md", "docs/own-object", "docs/RECORDING.md"],
    "sweep": [],
}

# The folders that builds leave.
BUILT = {"out", "build", "target", "__pycache__"}


def files_in(path):
    """The files below a path, except for those that builds leave."""
    top = os.path.join(TOP, path)
    if not os.path.isdir(top):
        return [path]
    found = []
    for at, folders, names in os.walk(top):
        folders[:] = sorted(it for it in folders if it not in BUILT)
        found += [os.path.relpath(os.path.join(at, name), TOP) for name in sorted(names)]
    return [it for it in found if it not in PAGES]


def sum_of(paths, more=""):
    whole = hashlib.sha256(more.encode())
    for path in paths:
        for name in files_in(path):
            with open(os.path.join(TOP, name), "rb") as text:
                whole.update(os.fsencode(name) + b"\0" + hashlib.sha256(text.read()).digest())
    return whole.hexdigest()


def sums():
    found = {name: sum_of([f"crates/{name}"], crate.line) for name, crate in crates.read().items()}
    found.update({name: sum_of([name, *more]) for name, more in FOLDERS.items()})
    return found


def main(words):
    now = sums()
    if words == ["sums"]:
        print("\n".join(f"{name} {it}" for name, it in now.items()))
        return 0
    if len(words) != 2 or words[0] != "since":
        print(__doc__, file=sys.stderr)
        return 5
    with open(words[1], encoding="utf-8") as record:
        were = dict(line.split() for line in record)
    touched = []
    for name, crate in crates.read().items():
        if now[name] != were.get(name) or any(it in touched for it in crate.libraries):
            touched.append(name)
    touched += [it for it in FOLDERS if now[it] != were.get(it)]
    print("\n".join(touched))
    return 0


if __name__ == "__main__":
    sys.exit(main(sys.argv[1:]))
