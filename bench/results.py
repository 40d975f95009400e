#!/usr/bin/env python3
"""Runs a script of this folder, prints what it writes, and keeps that in bench/results/, with the date, the version and the machine.

usage: results.py SCRIPT [WORD ..]        as in `results.py stamped 5`, which runs `bench/stamped.py 5`

The page bench/results/SCRIPT.md has a part for each command. A part takes the place of an earlier one of the same command. If the
script fails, the page stays as it is.
"""
import asked  # answers --help
import datetime
import os
import pathlib
import re
import shlex
import subprocess
import sys

HERE = pathlib.Path(__file__).resolve().parent
TOP = HERE.parent
ABOUT = "`bench/results.py` writes the parts of this page, each with the command that it ran."


def git(*words):
    return subprocess.run(["git", "-C", TOP, *words], capture_output=True, text=True, check=False).stdout.strip()


def processor():
    """The name of the processor, as the system gives it."""
    found = re.search(r"^model name\s*: (.*)$", pathlib.Path("/proc/cpuinfo").read_text(encoding="utf-8"), re.MULTILINE)
    return found.group(1) if found else "not known"


def output_of(words):
    """What a command writes on standard output; it is printed meanwhile."""
    lines = []
    with subprocess.Popen(words, stdout=subprocess.PIPE, text=True, cwd=TOP) as ran:
        for line in ran.stdout:
            print(line, end="", flush=True)
            lines.append(line)
    if ran.returncode:
        sys.exit(ran.returncode)
    return "".join(lines)


def as_page(output):
    """What a script writes, with each line beside its tables as a paragraph."""
    lines = [line if line.startswith("|") else f"\n{line}\n" for line in output.splitlines()]
    return re.sub(r"\n{3,}", "\n\n", "\n".join(lines)).strip()


def part_of(command, output, loads):
    """The part of a page: a heading, a line on when and where, and the output."""
    version = (TOP / "VERSION").read_text(encoding="utf-8").strip()
    changed = " with changes" if git("status", "--porcelain", "--untracked-files=no", "--", ".", ":!bench/results") else ""
    facts = [
        f"{datetime.date.today().isoformat()}",
        f"version {version}, commit {git('rev-parse', '--short', 'HEAD')}{changed}",
        f"{len(os.sched_getaffinity(0))} processors `{processor()}`",
        f"load {loads[0]:.1f} before and {loads[1]:.1f} after",
    ]
    return f"## `{command}`\n\n{'; '.join(facts)}.\n\n{as_page(output)}\n"


def with_part(page, part):
    """A page with this part, in place of the one of the same command or else at its end."""
    heading = part.split("\n", 1)[0]
    parts = re.split(r"^(?=## )", page, flags=re.MULTILINE)
    places = [at for at, it in enumerate(parts) if it.split("\n", 1)[0] == heading]
    if places:
        parts[places[0]] = part + ("\n" if places[0] + 1 < len(parts) else "")
        return "".join(parts)
    return page.rstrip("\n") + "\n\n" + part


def main(words):
    if not words or not (HERE / f"{words[0]}.py").exists():
        sys.exit(__doc__)
    script, command = f"bench/{words[0]}.py", shlex.join([f"bench/{words[0]}.py", *words[1:]])
    before = os.getloadavg()[0]
    output = output_of([sys.executable, "-B", script, *words[1:]])
    kept = HERE / "results" / f"{words[0]}.md"
    page = kept.read_text(encoding="utf-8") if kept.exists() else f"# {script}\n\n{ABOUT}\n"
    kept.write_text(with_part(page, part_of(command, output, (before, os.getloadavg()[0]))), encoding="utf-8")


if __name__ == "__main__":
    main(sys.argv[1:])
