#!/usr/bin/env python3
"""Tries that each wrong body can be applied, those of must-fail/ and those of sweep/must-catch: each old text occurs once in its file,
after the changes before it, and the new one differs. It proves nothing, and takes a second. The last line is 'N passed, M failed'.

usage: test-edits.py
"""
import pathlib
import sys

TOP = pathlib.Path(__file__).resolve().parent.parent
sys.path.insert(0, str(TOP / "sweep"))
import must_catch  # noqa: E402


def hindrance(folder, changes, read):
    """What hinders the changes in a folder, or nothing if they can be made."""
    texts = {}
    for file, old, new in changes:
        if not file or not old:
            return "a change has no file or no old text"
        if file not in texts:
            texts[file] = read(folder / file)
        if texts[file] is None:
            return f"there is no {file}"
        if texts[file].count(old) != 1:
            return f"'{old}' is in {file} {texts[file].count(old)} times"
        if old == new:
            return f"'{old}' stays as it is"
        texts[file] = texts[file].replace(old, new)
    return None if changes else "it changes nothing"


def read(path):
    return path.read_text(encoding="utf-8") if path.is_file() else None


# Edits of one file, and whether they can be applied.
SAMPLES = {
    "file: a\nold: one\nnew: two\n": True,
    "file: a\nold: one\nnew: two\nold: two\nnew: three\n": True,
    "file: a\nold: twice\nnew: two\n": False,
    "file: a\nold: none\nnew: two\n": False,
    "file: b\nold: one\nnew: two\n": False,
    "file: a\nold: one\nnew: one\n": False,
    "file: a\n": False,
}


def main():
    passed, failed = 0, 0
    for text, is_right in SAMPLES.items():
        why = hindrance(pathlib.Path("/"), must_catch.parsed(text.splitlines())[2], {pathlib.Path("/a"): "one twice twice"}.get)
        passed, failed = passed + ((why is None) == is_right), failed + ((why is None) != is_right)
        if (why is None) != is_right:
            print(f"edits: FAILED: {text!r} is taken for {why}")
    folders = [(it, it.parents[1]) for it in TOP.glob("crates/*/must-fail/*.edit")] + [(it, TOP) for it in TOP.glob("sweep/must-catch/*.edit")]
    for edit, folder in sorted(folders):
        why = hindrance(folder, must_catch.parsed(edit.read_text(encoding="utf-8").splitlines())[2], read)
        passed, failed = passed + (why is None), failed + (why is not None)
        if why:
            print(f"edits: FAILED: {edit.relative_to(TOP)}: {why}")
    print(f"{passed} passed, {failed} failed")
    return 1 if failed or not folders else 0


if __name__ == "__main__":
    if sys.argv[1:] in (["-h"], ["--help"]):
        sys.exit(print(__doc__.strip()))
    sys.exit(main())
