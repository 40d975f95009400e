#!/usr/bin/env python3
"""Processor seconds that each wrong body of a crate takes alone, the dearest first.

usage: edits.py CRATE ..        (after ./build, which leaves the libraries below the crates)

The crate is proved once, and each of its edits is tried over a copy of what that has kept. The gate tries many edits in one check.
"""
import asked  # answers --help
import os
import resource
import shutil
import sys
import tempfile

TOP = os.path.dirname(os.path.dirname(os.path.abspath(__file__)))
sys.path.insert(0, f"{TOP}/share")
from wrong_bodies import REFUSED, rt  # noqa: E402


def processor_seconds():
    used = resource.getrusage(resource.RUSAGE_CHILDREN)
    return used.ru_utime + used.ru_stime


def main(names):
    if not names:
        print(__doc__, file=sys.stderr)
        return 5
    rt.rtlib.guarded()
    rows = []
    for name in names:
        crate = rt.Crate(f"{TOP}/crates/{name}", TOP, {})
        with tempfile.TemporaryDirectory() as room:
            kept, over = f"{room}/kept", f"{room}/over"
            os.mkdir(kept)
            before = processor_seconds()
            proved = rt.checked(crate, {}, ["--jobs", "1"], kept).returncode == 0
            rows.append((processor_seconds() - before, name, "the crate", "proved" if proved else "NOT PROVED"))
            for edit in rt.edits_of(crate)[0]:
                shutil.copytree(kept, over, copy_function=os.link)
                before = processor_seconds()
                kind, said = rt.must_fail(crate, edit, ["--jobs", "1"], over)
                rows.append((processor_seconds() - before, name, os.path.basename(edit)[:-5], "refused" if kind == REFUSED else said))
                shutil.rmtree(over)
    print("| seconds | crate | wrong body | |\n|---|---|---|---|")
    for seconds, name, edit, said in sorted(rows, reverse=True):
        print(f"| {seconds:.1f} | {name} | {edit} | {said} |")
    return 0


if __name__ == "__main__":
    sys.exit(main(sys.argv[1:]))
