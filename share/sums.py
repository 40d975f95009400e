#!/usr/bin/env python3
"""Keeps the checksums of this version's packages in docs/INSTALL.md, and compares packages with them.

usage: sums.py write DIST      writes the sums of the packages in DIST there, with what they are of
       sums.py compare DIST    compares them. The status is 0 if the sums are those of DIST, 1 if not, and 3 if they can't be compared

Sources, Rattle, compilers, linkers or Python of another version may give other bytes. So the first lines of the block name these, and
sums are compared only if all of them are the same. Otherwise the first that differs is named. A package has the page without its
sums, since no file can hold its own.
"""
import hashlib
import os
import pathlib
import platform
import re
import subprocess
import sys
import zlib

from pages import BUILT

TOP = pathlib.Path(__file__).resolve().parent.parent
KEPT = TOP / "docs/INSTALL.md"
BLOCK = re.compile(r"(?<=```text sums\n).*?(?=```)", re.DOTALL)


def without_sums(page):
    """The text of the page with an empty block of sums."""
    return BLOCK.sub("", page)


def bytes_of(file):
    """What a file holds, except for the sums."""
    return without_sums(file.read_text(encoding="utf-8")).encode() if file == KEPT else file.read_bytes()


def sources():
    """One sum over the names and the texts of all files of the tree, except for what is built and for the sums themselves."""
    whole, found = hashlib.sha256(), []
    for folder, folders, names in os.walk(TOP):
        at = pathlib.Path(folder).relative_to(TOP)
        folders[:] = [it for it in folders if it not in BUILT and (at / it).as_posix() not in ("built", "ffi/build")]
        found += [(at / name).as_posix() for name in names]
    for name in sorted(found):
        whole.update(f"{name}\0{hashlib.sha256(bytes_of(TOP / name)).hexdigest()}\n".encode())
    return whole.hexdigest()


def first_line(*words):
    return subprocess.run(words, capture_output=True, text=True, check=True).stdout.partition("\n")[0]


def made_from():
    """What the bytes of a package depend on, by name."""
    return {
        "sources": sources(),
        "Rattle": first_line("rt", "version"),
        "compiler": first_line("cc", "--version"),
        "linker": first_line("ld", "--version"),
        "C library": first_line("ldd", "--version"),
        "Python": f"{platform.python_version()} with zlib {zlib.ZLIB_RUNTIME_VERSION}",
    }


def compare(page, made, sums):
    """The status, and a line on why it is not 0, of the sums of a page against those of packages that are made from this."""
    kept = "".join(BLOCK.findall(page))
    known = dict(line[2:].split(": ", 1) for line in kept.splitlines() if line.startswith("# "))
    for name, what in made.items():
        if known.get(name) != what:
            return 3, f"docs/INSTALL.md has the sums of other packages: {name} {known.get(name, 'not named')}, and here {what}"
    if "".join(line for line in kept.splitlines(True) if not line.startswith("#")) != sums:
        return 1, "docs/INSTALL.md has other sums than these packages, and is of the same sources and tools"
    return 0, "the sums are those of docs/INSTALL.md"


def main(words):
    if len(words) != 2 or words[0] not in ("write", "compare"):
        print(__doc__, file=sys.stderr)
        return 5
    packed = pathlib.Path(words[1], "SHA256SUMS")
    if not packed.exists():
        sys.exit(f"there are no packages in {words[1]}")
    page, sums, made = KEPT.read_text(encoding="utf-8"), packed.read_text(encoding="utf-8"), made_from()
    if words[0] == "write":
        block = "".join(f"# {name}: {what}\n" for name, what in made.items()) + sums
        KEPT.write_text(BLOCK.sub(lambda _: block, page), encoding="utf-8")
        return 0
    status, said = compare(page, made, sums)
    print(said)
    return status


if __name__ == "__main__":
    if sys.argv[1:] in (["-h"], ["--help"]):
        sys.exit(print(__doc__.strip()))
    sys.exit(main(sys.argv[1:]))
