#!/usr/bin/env python3
"""Prints how many recordings a second are judged: by the program, by processes of this machine, and by workers of a Dask scheduler.

usage: cluster.py [FILES]      (build first: ffi/build.sh and ./snapjudge; Debian's Python has Dask by python3-distributed)

It writes FILES recordings of 10 events into a folder, 100,000 by default: of 100 files one is regular only, and of 250 one is not
regular. The program counts them by `check --summary --files-from`, with 1, 2 and 4 workers, as many as the module has processes. All
sums must be those of the lines that the program writes of each file, which are not timed. Last there are three workers at a scheduler,
one of which is killed when half of the files are judged. Each run is made once, with the files in memory. The load is that of the last
minute.
"""
import asked  # answers --help
import os
import sys
import tempfile
import time

from recordings import PYTHON, program_answers, program_sums, scheduler, write_recordings

sys.path.insert(0, PYTHON)
from snapjudge import cluster  # noqa: E402

WORKERS = (1, 2, 4)
# How many names a call of the program gets.
AT_ONCE = 10000


def by_program(room, names):
    """The answers for the files, by the lines that the program writes."""
    answers = []
    for at in range(0, len(names), AT_ONCE):
        answers += program_answers(room, names[at : at + AT_ONCE])
    return answers


def by_engine(engine, paths, tell):
    try:
        return cluster.judge_all(engine, paths, tell=tell)
    finally:
        engine.close()


def row(what, workers, files, wanted, judge, *words):
    """Measures one way, and prints its row. Its sums must be those that are wanted."""
    begun = time.perf_counter()
    found = judge(*words)
    taken = time.perf_counter() - begun
    found = found if isinstance(found, bytes) else cluster.sums(files, found)
    if wanted != found:
        sys.exit(f"{what} by {workers} workers has other sums:\n{found.decode()}")
    print(f"| {what} | {workers} | {taken:.1f} | {len(files) / taken:,.0f} |", flush=True)


def main():
    count = int(sys.argv[1]) if len(sys.argv) > 1 else 100000
    with tempfile.TemporaryDirectory() as room:
        names = write_recordings(room, count)
        paths = [os.path.join(os.fsencode(room), name) for name in names]
        print(f"load {os.getloadavg()[0]:.1f}, {os.cpu_count()} processors\n")
        print("| judged by | workers | seconds | recordings a second |\n|---|---|---|---|")
        wanted = cluster.sums(names, by_program(room, names))
        for workers in WORKERS:
            row("program", workers, names, wanted, program_sums, room, names, workers)
        for workers in WORKERS:
            row("processes", workers, names, wanted, by_engine, cluster.Processes(workers), paths, lambda judged: None)
        for workers in WORKERS:
            with scheduler(workers) as (address, _):
                row("Dask", workers, names, wanted, by_engine, cluster.Cluster(address), paths, lambda judged: None)
        with scheduler(3) as (address, found):
            kill = lambda judged: found[1].kill() if 2 * judged >= count else None  # noqa: E731
            row("Dask, one killed half way", 3, names, wanted, by_engine, cluster.Cluster(address), paths, kill)
    print(f"\n{wanted.decode()}", end="")


# the processes of this machine import this file too
if __name__ == "__main__":
    main()
