#!/usr/bin/env python3
"""Tries what the tests must catch, since no contract says it.

usage: must_catch.py [NAME ..]       where each NAME is must-catch/NAME.edit; without one it tries all

An edit has a line 'tests: CRATE', lines 'catches: TEST', and then, as the edits of must-fail, lines 'file: PATH', from the top of
the repository, and pairs of lines 'old: TEXT' and 'new: TEXT', each old text once in its file. It is applied to a copy of the
crates, whose tests are built without a proof and run. Each of the named tests must be there, and must fail. An edit with a line
'by hand: REASON' is tried to its end if it is named, and else for two minutes: if that is too short, it is skipped. The last
line is 'N passed, M failed', with ', K skipped' after it.
"""
import os
import re
import shutil
import signal
import subprocess
import sys
import tempfile

HERE = os.path.dirname(os.path.abspath(__file__))
TOP = os.path.dirname(HERE)

# for how many seconds an edit by hand is tried if it is not named
BY_HAND = 120


def parsed(lines):
    """The crate of the tests, the tests that must fail, file, old and new text of each change, and why it is tried by hand."""
    crate, tests, changes, reason, file, old = None, [], [], None, None, None
    for line in lines:
        word, _, text = line.rstrip("\n").partition(":")
        text = text.removeprefix(" ")
        if word == "tests":
            crate = text
        elif word == "catches":
            tests.append(text)
        elif word == "by hand":
            reason = text
        elif word == "file":
            file = text
        elif word == "old":
            old = text
        elif word == "new":
            changes.append((file, old, text))
    return crate, tests, changes, reason


def copied(folder):
    """Copies what the crates are built from."""
    built = shutil.ignore_patterns("out")
    shutil.copytree(os.path.join(TOP, "crates"), os.path.join(folder, "crates"), ignore=built)
    for name in ("crates.txt", "HANDLES"):
        shutil.copy(os.path.join(TOP, name), folder)


def applied(folder, changes):
    """What hinders the changes in the copy, or nothing if they were made."""
    for file, old, new in changes:
        path = os.path.join(folder, file)
        with open(path, encoding="utf-8") as source:
            text = source.read()
        if text.count(old) != 1:
            return f"'{old}' is in {file} {text.count(old)} times"
        with open(path, "w", encoding="utf-8") as source:
            source.write(text.replace(old, new))
    return None


def is_test(folder, crate, test):
    """Whether a crate in the copy has a test: in the file of its module, or in a module within a file."""
    *modules, name = test.split("::")
    source = os.path.join(folder, "crates", crate, "src")
    files = [os.path.join(source, *modules[:count]) + ".rt" for count in range(len(modules), 0, -1)]
    head = re.compile(rf"#\[test\]\s+fn {re.escape(name)}\(")
    for file in filter(os.path.exists, files):
        with open(file, encoding="utf-8") as text:
            if head.search(text.read()):
                return True
    return False


def said_by_tests(where, seconds):
    """What the tests of a crate say, or nothing if they take longer than this many seconds."""
    command = ["rt", "try", "--test"]
    tests = subprocess.Popen(command, cwd=where, stdout=subprocess.PIPE, stderr=subprocess.STDOUT, text=True, start_new_session=True)
    try:
        return tests.communicate(timeout=seconds)[0].splitlines()
    except subprocess.TimeoutExpired:
        os.killpg(tests.pid, signal.SIGKILL)
        tests.communicate()
        return None


def fault(name, is_named):
    """Why an edit is not caught, or nothing if it is; and why it was not tried, or nothing if it was."""
    with open(os.path.join(HERE, "must-catch", name + ".edit"), encoding="utf-8") as edit:
        crate, tests, changes, reason = parsed(edit)
    with tempfile.TemporaryDirectory() as folder:
        copied(folder)
        hindered = applied(folder, changes)
        if hindered:
            return hindered, None
        gone = [test for test in tests if not is_test(folder, crate, test)]
        if gone or not tests:
            return f"{crate} has no test {', '.join(gone)}" if gone else "it names no test", None
        said = said_by_tests(os.path.join(folder, "crates", crate), None if is_named or not reason else BY_HAND)
    if said is None:
        return None, reason
    if not any(line.startswith("test result: ") for line in said):
        return "the tests did not run:\n" + "\n".join(said[-20:]), None
    missed = [test for test in tests if f"test {test} ... FAILED" not in said]
    return f"it passes {', '.join(missed)}" if missed else None, None


def main():
    named = sys.argv[1:]
    names = named or sorted(file[:-5] for file in os.listdir(os.path.join(HERE, "must-catch")) if file.endswith(".edit"))
    failed = skipped = 0
    for name in names:
        why, reason = fault(name, bool(named))
        failed += bool(why)
        skipped += bool(reason)
        print(f"must-catch: {name}: {why or (f'skipped, {reason}' if reason else 'caught')}", flush=True)
    print(f"{len(names) - failed - skipped} passed, {failed} failed" + (f", {skipped} skipped" if skipped else ""))
    return failed != 0


if __name__ == "__main__":
    if sys.argv[1:] in (["-h"], ["--help"]):
        sys.exit(print(__doc__.strip()))
    sys.exit(main())
