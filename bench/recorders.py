#!/usr/bin/env python3
"""Prints how many runs of right and of wrong objects the drivers of the recorders catch, by their options, and what recording costs.

usage: recorders.py [RUNS [PROGRAM [OBJECT ..]]]; 200 runs if no number is given, and the costs alone if it is 0. If objects of
recorders/objects.c are named, it prints their rows alone. If `batches` is named, it prints how long runs of Java take, by how many
of them one start of the program judges. Each time is the least of three, taken in turn.

The objects are those of recorders/objects.c, and those of ffi/record in each language. A language whose compiler is missing is left out.
"""
import asked  # answers --help
import os
import re
import shutil
import subprocess
import sys
import tempfile
import time

HERE = os.path.dirname(os.path.abspath(__file__))
RECORD = os.path.join(HERE, "..", "ffi", "record")
COST = os.path.join(HERE, "recorders")
LIMIT = 600
C, CPP = ["cc", "-std=gnu11", "-O2", "-pthread"], ["c++", "-std=c++17", "-O2", "-pthread"]
# how many runs of Java one start of the program judges at most
BATCHES = (1, 4, 16, 64, 256)
# an object, its options, and by how much its runs are more than those of the others
ROWS = [
    ("bare", "", 1),
    ("bare", "--components 64", 1),
    ("bare", "--calls 2000", 0.2),
    ("naive", "--calls 2", 10),
    ("naive", "--calls 10", 10),
    ("naive", "", 1),
    ("naive", "--calls 2000", 0.2),
    ("naive", "--order turn", 1),
    ("naive", "--threads 2 --components 2", 1),
    ("naive", "--threads 3 --components 2", 1),
    ("naive", "--calls 50 --nap 60", 1),
    ("published", "", 1),
    ("first-move", "--calls 2", 10),
    ("first-move", "--calls 10", 10),
    ("first-move", "", 1),
    ("first-move", "--calls 10 --nap 60", 1),
    ("old-view", "--order turn", 1),
    ("old-view", "", 1),
    ("old-view", "--calls 50 --order turn", 1),
    ("old-view", "--calls 50", 1),
    ("old-view", "--calls 50 --order turn --nap 60", 1),
    ("old-view", "--calls 50 --nap 60", 1),
    ("late-version-bare", "", 1),
    ("late-version-bare", "--threads 8 --components 2", 1),
    ("late-version", "", 1),
    ("late-version", "--threads 8 --components 2", 1),
    ("late-version", "--threads 16 --components 2", 1),
    ("late-version", "--threads 8 --components 2 --calls 50 --nap 60", 1),
    ("one-shot", "--calls 2 --order turn", 50),
    ("one-shot", "--calls 2", 50),
    ("one-shot", "--calls 2 --order turn --nap 60", 50),
    ("one-shot", "--calls 2 --nap 60", 50),
    ("one-shot", "--calls 4 --nap 60", 50),
    ("one-shot", "--threads 8 --components 4 --calls 2", 50),
    ("one-shot", "--threads 8 --components 4 --calls 2 --nap 60", 50),
]


def output(command, folder):
    return subprocess.run(command, cwd=folder, stdout=subprocess.PIPE, check=True, timeout=LIMIT, text=True).stdout.strip()


def drive(command, name, options, runs, folder):
    """How many of these runs were atomic, and how many milliseconds one took."""
    begun = time.monotonic()
    # few short runs may have no overlap, which here is a count like any other
    words = [*command, name, *options.split(), "--runs", str(runs), "--views", "0"]
    done = subprocess.run(words, cwd=folder, stdout=subprocess.PIPE, stderr=subprocess.DEVNULL, timeout=LIMIT, text=True)
    found = re.fullmatch(rf"{name}: atomic (\d+), only-regular (\d+), not-regular (\d+); .*\n", done.stdout)
    if not found or done.returncode > 2:
        sys.exit(f"{words} ended with status {done.returncode}")
    return int(found[1]), (time.monotonic() - begun) * 1000 / runs


def print_caught(said, command, name, options, runs, folder):
    """A row of the table: of these runs those that were caught, and how long one took."""
    atomic, milliseconds = drive(command, name, options, runs, folder)
    print(f"| {said} | {f'`{options}`' if options else ''} | {runs - atomic} of {runs} | {milliseconds:.1f} |", flush=True)


def java_of(most, folder):
    """The command of the boards in Java, whose driver judges at most this many runs by one start of the program."""
    room = os.path.join(folder, f"java-{most}")
    shutil.copytree(f"{RECORD}/java", room)
    with open(f"{room}/SnapDriver.java", "r+", encoding="ascii") as file:
        text, changed = re.subn(r"MOST_RUNS = \d+", f"MOST_RUNS = {most}", file.read())
        file.seek(0)
        file.write(text)
        file.truncate()
    if changed != 1:
        sys.exit("SnapDriver.java has another limit of batches")
    subprocess.run(["javac", "Own.java", "SnapDriver.java", "SnapRecorder.java"], cwd=room, check=True)
    return ["java", "-cp", room, "Own"]


def print_batches(runs, folder):
    """What a run of Java takes with its judgement, by how many runs one start of the program judges."""
    columns = [("", 2), ("--calls 10", 5)]
    commands = {most: java_of(most, folder) for most in BATCHES}
    took = {most: [[] for _ in columns] for most in BATCHES}
    for _ in range(3):
        for most, command in commands.items():
            for found, (options, times) in zip(took[most], columns):
                found.append(drive(command, "double", options, runs * times, folder)[1])
    print("| runs of Java a start, at most | double, ms a run | with `--calls 10` |\n|---|---|---|")
    for most in BATCHES:
        print(f"| {most} | {' | '.join(f'{min(found):.1f}' for found in took[most])} |")
    print()


def print_rows(runs, folder, names):
    """The head of the table, and the rows of these objects of C."""
    print("| object | options | caught | ms a run |\n|---|---|---|---|")
    if shutil.which("cc"):
        compile_all(C, {"objects": f"{COST}/objects.c"}, folder)
        for name, options, times in ROWS:
            if name in names:
                print_caught(name, ["./objects"], name, options, max(1, int(runs * times)), folder)


def compile_all(compiler, sources, folder):
    for name, source in sources.items():
        subprocess.run([*compiler, "-o", os.path.join(folder, name), source], check=True)


def built(folder):
    """Of each language the commands that run its object and its measure of cost."""
    languages = []
    java, python = os.path.join(folder, "java"), [sys.executable, "-B"]

    def compiled(compiler, sources):
        compile_all(compiler, sources, folder)

    if shutil.which("cc"):
        compiled(C, {"own_c": f"{RECORD}/c/own.c", "cost_c": f"{COST}/cost.c"})
        languages.append(("C", ["./own_c"], ["./cost_c"]))
    if shutil.which("c++"):
        compiled(CPP, {"own_cpp": f"{RECORD}/cpp/own.cpp", "cost_cpp": f"{COST}/cost.cpp"})
        languages.append(("C++", ["./own_cpp"], ["./cost_cpp"]))
    if shutil.which("rustc"):
        compiled(["rustc", "--edition", "2021", "-O"], {"own_rs": f"{RECORD}/rust/own.rs", "cost_rs": f"{COST}/cost.rs"})
        languages.append(("Rust", ["./own_rs"], ["./cost_rs"]))
    if shutil.which("javac"):
        sources = [f"{RECORD}/java/{name}.java" for name in ("SnapRecorder", "SnapDriver", "Own")]
        subprocess.run(["javac", "-d", java, *sources, f"{COST}/Cost.java"], check=True)
        languages.append(("Java", ["java", "-cp", java, "Own"], ["java", "-cp", java, "Cost"]))
    languages.append(("Python", [*python, f"{RECORD}/python/own.py"], [*python, f"{COST}/cost.py"]))
    if shutil.which("go"):
        for name, module, package in (("own_go", f"{RECORD}/go", "./own"), ("cost_go", f"{COST}/go", ".")):
            subprocess.run(["go", "build", "-buildvcs=false", "-o", os.path.join(folder, name), package], cwd=module, check=True)
        languages.append(("Go", ["./own_go"], ["./cost_go"]))
    return languages


def main():
    runs = int(sys.argv[1]) if len(sys.argv) > 1 else 200
    program = sys.argv[2] if len(sys.argv) > 2 else os.path.join(HERE, "..", "snapjudge")
    os.environ["SNAPJUDGE_PROGRAM"] = os.path.realpath(program)
    with tempfile.TemporaryDirectory() as folder:
        if sys.argv[3:] == ["batches"]:
            print_batches(runs, folder)
            return
        if len(sys.argv) > 3:
            print_rows(runs, folder, sys.argv[3:])
            return
        languages = built(folder)
        if runs:
            print_rows(runs, folder, [name for name, _, _ in ROWS])
            for language, own, _ in languages:
                for name in ("naive", "double"):
                    print_caught(f"{name}, {language}", own, name, "", runs, folder)
            print()
            if shutil.which("javac"):
                print_batches(runs, folder)
        print("| cost of a call, ns | 1 thread | 2 threads | 4 threads |\n|---|---|---|---|")
        for language, _, cost in languages:
            found = [output([*cost, str(threads)], folder) for threads in (1, 2, 4)]
            print(f"| {language} | {' | '.join(found)} |", flush=True)


main()
