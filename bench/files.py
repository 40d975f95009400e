#!/usr/bin/env python3
"""Prints what one `snapjudge check` of many files costs, by the number of workers.

usage: files.py [REPEATS [PROGRAM ..]]

Each program judges 10,000 files of 10 events, 1,000 files of 1,000 events, and one file of 65,536 events, by 1, 2 and 4 workers. So
does the library in one process: one thread reads the files and judges them one after another. Its start is not counted. The runs are
made in turn, 5 times by default. The table has the least and the median of the seconds of wall time, and the peak
memory of a program in millions of bytes. All reports of a set must be the same byte for byte. The load is that of the last minute.
"""
import asked  # answers --help
import hashlib
import multiprocessing
import os
import statistics
import sys
import tempfile
import time

from histories import texts_of
from run import SNAPJUDGE
from shapes import run

sys.path.insert(0, os.path.join(os.path.dirname(os.path.abspath(__file__)), "..", "ffi", "python"))
import snapjudge  # noqa: E402

REPEATS = int(sys.argv[1]) if len(sys.argv) > 1 else 5
PROGRAMS = [os.path.abspath(it) for it in sys.argv[2:]] or [SNAPJUDGE]
WORKERS = (1, 2, 4)
SETS = ((10000, 10), (1000, 1000), (1, 65536))
LIBRARY = "the library, in one process"
# For the longest report of a set, in bytes.
ROOM = 1 << 23


def write_set(room, files, events):
    """Writes some files of one history, and returns their names."""
    text = texts_of("atomic, width 2", events)[0]
    names = [os.path.join(room, f"{number}.csv") for number in range(files)]
    for name in names:
        with open(name, "w", encoding="utf-8") as file:
            file.write(text)
    return names


def measure(program, workers, names, report):
    """The seconds of wall time, the peak memory, and a sum of the report of one run."""
    begun = time.perf_counter()
    status, _, peak = run([program, "check", "--workers", str(workers), *names], os.devnull, report)
    taken = time.perf_counter() - begun
    if status != 0:
        sys.exit(f"{program} ended with status {status}")
    with open(report, "rb") as file:
        return taken, peak, hashlib.file_digest(file, "sha256").digest()


def by_library(names):
    """The seconds of wall time, and a sum of what the library wrote in the form of a program's report."""
    room, found = bytearray(ROOM), []
    begun = time.perf_counter()
    for name in names:
        with open(name, "rb") as file:
            _, length = snapjudge.report_into(file.read(), room)
        found.append(room[:length])
    taken = time.perf_counter() - begun
    fronts = [os.fsencode(name) + b": " if len(names) > 1 else b"" for name in names]
    return taken, hashlib.sha256(b"".join(front + line for front, lines in zip(fronts, found) for line in lines.splitlines(keepends=True))).digest()


def measure_library(names):
    """The same as of a program, except for the memory. A process of its own has it, so that this one stays small."""
    with multiprocessing.Pool(1) as pool:
        taken, found = pool.apply(by_library, (names,))
    return taken, 0, found


def main():
    print(f"load {os.getloadavg()[0]:.1f}\n")
    print("| files | events of each | judge | workers | least, s | median, s | peak, MB |\n|---|---|---|---|---|---|---|")
    for files, events in SETS:
        with tempfile.TemporaryDirectory() as room:
            names, report, wanted, runs = write_set(room, files, events), os.path.join(room, "report"), None, {}
            for _ in range(REPEATS):
                for case in [(LIBRARY, 1), *((program, workers) for program in PROGRAMS for workers in WORKERS)]:
                    taken, peak, found = measure_library(names) if case[0] == LIBRARY else measure(*case, names, report)
                    if (wanted := wanted or found) != found:
                        sys.exit(f"{case} wrote another report")
                    runs.setdefault(case, []).append((taken, peak))
        for (program, workers), measured in runs.items():
            times, peaks = zip(*measured)
            judge = program if program == LIBRARY else os.path.relpath(program)
            peak = f"{max(peaks) / 1e6:.0f}" if any(peaks) else ""
            cells = [files, events, judge, workers, f"{min(times):.3f}", f"{statistics.median(times):.3f}", peak]
            print(f"| {' | '.join(map(str, cells))} |", flush=True)


main()
