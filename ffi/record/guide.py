"""Runs the first five minutes of a guide, in Python, and compares what is printed with what is there: each line of `double`
except for its views, those of `naive` except for numbers, and of an explanation the verdict.
usage: guide.py GUIDE RECORDERS PROGRAM FOLDER"""
import os
import pathlib
import re
import shutil
import subprocess
import sys

START = ["./install", "cp -r ffi/record /tmp/own", "cd /tmp/own/python"]
# A slow machine says how far it is more than once; only the last of these lines must be there.
PROGRESS = re.compile(r"run (\d+) of (?!\1:)")
# How many views overlap an update varies.
OVERLAP = re.compile(r"\d+ of \d+ views")
FORMS = {
    "python3 own.py double": lambda lines: [OVERLAP.sub("N of N views", line) for line in lines if not PROGRESS.search(line)],
    "python3 own.py naive": lambda lines: [re.sub(r"\d+", "N", line) for line in lines if not PROGRESS.search(line)],
    "cat naive-explained.txt": lambda lines: lines[:1],
}


def commands_of(guide):
    """The commands of its blocks, each with the lines below it."""
    found = []
    for block in re.findall(r"^```console\n(.*?)^```$", pathlib.Path(guide).read_text(encoding="utf-8"), re.MULTILINE | re.DOTALL):
        for line in block.splitlines():
            if line.startswith("$ "):
                found.append((line[2:], []))
            else:
                found[-1][1].append(line)
    return found


def main(guide, recorders, program, folder):
    # the folder stands for what the first commands make
    room = pathlib.Path(folder).resolve()
    shutil.copytree(recorders, room / "own")
    (room / "bin").mkdir()
    (room / "bin/snapjudge").symlink_to(pathlib.Path(program).resolve())
    env = {name: value for name, value in os.environ.items() if not name.startswith("SNAPJUDGE_")}
    env = {**env, "PATH": f"{room}/bin:{os.environ['PATH']}"}
    commands = commands_of(guide)
    wrong = [f"the guide begins with {it[0]}" for it, wanted in zip(commands, START) if it != (wanted, [])]
    for command, form in FORMS.items():
        wanted = next((lines for it, lines in commands if it == command), None)
        how = {"stdout": subprocess.PIPE, "stderr": subprocess.STDOUT, "text": True, "timeout": 300, "check": False}
        printed = subprocess.run(["sh", "-c", command], cwd=room / "own/python", env=env, **how).stdout.splitlines()
        if wanted is None or form(wanted) != form(printed):
            wrong.append(f"{command}\nis to print\n{wanted}\nand prints\n{printed}")
    print("\n".join(wrong) or "the guide begins as it says")
    return bool(wrong)


if __name__ == "__main__":
    sys.exit(main(*sys.argv[1:]))
