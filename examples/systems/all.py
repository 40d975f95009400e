"""Runs harnesses, and puts their tables and a witness of each into docs/FINDINGS.md. usage: all.py PROGRAM FOLDER [RUNS [NAME ..]]

Without names it runs all. FOLDER keeps the first caught run of each way. If a harness lacks what it needs, it says so, and its part
of the page stays.
"""
import subprocess
import sys

from harness import HERE, SKIPPED

PAGE = HERE.parents[1] / "docs/FINDINGS.md"
HARNESSES = ["postgres", "redis", "etcd", "sqlite", "files", "copies", "published"]


def replaced(page, name, text):
    """The page with this text between the marks of a harness."""
    begin, end = f"<!-- {name}.py wrote this -->\n", f"<!-- to here, {name}.py -->\n"
    front, begun, rest = page.partition(begin)
    _, ended, back = rest.partition(end)
    if not (begun and ended):
        sys.exit(f"{PAGE} lacks the marks of {name}.py")
    return front + begin + text + end + back


def with_one_witness(text):
    table, *witnesses = text.split("\nWitness: ")
    return "\nWitness: ".join([table, *witnesses[:1]])


def main():
    written, skipped = {}, 0
    for name in sys.argv[4:] or HARNESSES:
        command = [sys.executable, "-B", str(HERE / f"{name}.py"), *sys.argv[1:4]]
        done = subprocess.run(command, stdout=subprocess.PIPE, text=True, check=False)
        print(f"{name}.py: {done.stdout}", flush=True)
        if done.returncode == SKIPPED:
            skipped += 1
        elif done.returncode:
            sys.exit(f"{name}.py ended with {done.returncode}; the page stays as it is")
        else:
            written[name] = with_one_witness(done.stdout)
    page = PAGE.read_text()
    for name, text in written.items():
        page = replaced(page, name, text)
    PAGE.write_text(page)
    print(f"{len(written)} tables written, {skipped} skipped")


main()
