#!/usr/bin/env python3
"""Prints a table of the time and the peak memory of `snapjudge check`, by kind of history, size and number of workers.

usage: run.py [--against PROGRAM] [--repeats N] [--median] [--workers W] [--pieces P] [--events N] [--most COMPONENTS] [KIND ..]
       run.py --growth [--against PROGRAM] [--repeats N] [--median] [--pieces P] [KIND ..]

Each history is made by generate.py from the number 1. It is judged with one worker and with W (2 by default). If another judge of the
same text and report is given, it judges too. They take turns, N times (7 by default). The least time of each counts, or with --median
the one in the middle. The reports are compared byte for byte. PROGRAM is called as `PROGRAM check`, with the history on its standard
input; words that follow it in one argument come after `check`. With --pieces the views are cut into P pieces. With --events each kind
and number of components is judged once, with N events, and with --most only histories of at most COMPONENTS components. With --growth
each kind is judged with 65,536, 262,144 and 1,048,576 events by 1, 2 and 4 workers. An earlier program that --against names gets the
same options. All run in the environment of this script, in which a user can ask for large pages of memory, as docs/MANY.md says.

The first row is for a process that does nothing.
"""
import argparse
import filecmp
import os
import shlex
import statistics
import subprocess
import sys
import tempfile
import time

HERE = os.path.dirname(os.path.abspath(__file__))
SNAPJUDGE = os.environ.get("SNAPJUDGE", os.path.join(HERE, "..", "built", "snapjudge"))
CASES = [
    ("atomic", 1024, 8), ("atomic", 4096, 8), ("atomic", 16384, 8), ("atomic", 65536, 8), ("atomic", 16384, 256), ("atomic", 65536, 256),
    ("pending", 16384, 8), ("pending", 65536, 8), ("pending", 16384, 256), ("pending", 65536, 256),
    ("overlapping", 1024, 4), ("overlapping", 4096, 4), ("overlapping", 16384, 4), ("overlapping", 65536, 4),
    ("overlapping", 16384, 256), ("overlapping", 65536, 256),
    ("toggling", 16384, 4), ("late", 16384, 32), ("late", 65536, 32), ("stale", 16384, 8),
    ("writes", 4096, 8), ("writes", 16384, 8), ("writes", 65536, 8), ("writes", 16384, 256), ("writes", 65536, 256),
    ("random", 16384, 8), ("random", 16384, 256),
    ("newlines", 67108864, 0),
]
# kinds and components of --growth, the numbers of events, and those of workers
GROWING = [("atomic", 8), ("pending", 8), ("stale", 8), ("overlapping", 4), ("late", 32), ("writes", 8)]
GROWTH = (65536, 262144, 1048576)
WORKERS = (1, 2, 4)


def run(words, history, report):
    """The status, the milliseconds of wall time and of user time, and the peak memory in MB of one run. What it says on standard
    error is thrown away."""
    files = [(os.POSIX_SPAWN_OPEN, 0, history, os.O_RDONLY, 0), (os.POSIX_SPAWN_OPEN, 1, report, os.O_WRONLY | os.O_CREAT | os.O_TRUNC, 0o600),
             (os.POSIX_SPAWN_OPEN, 2, os.devnull, os.O_WRONLY, 0)]
    begun = time.perf_counter()
    child = os.posix_spawn(words[0], words, os.environ, file_actions=files)
    _, status, used = os.wait4(child, 0)
    return os.waitstatus_to_exitcode(status), (time.perf_counter() - begun) * 1000, used.ru_utime * 1000, used.ru_maxrss / 1024


def measure(programs, history, room, repeats, chosen):
    """Of each program the status, the milliseconds of wall time and of user time that are chosen of all runs, the peak memory, and
    whether its report is that of the first."""
    reports = [os.path.join(room, f"report{i}") for i in range(len(programs))]
    runs = [[] for _ in programs]
    for _ in range(repeats):
        for i, words in enumerate(programs):
            runs[i].append(run(words, history, reports[i]))
    seen = []
    for i, done in enumerate(runs):
        same = filecmp.cmp(reports[0], reports[i], shallow=False)
        seen.append((done[0][0], chosen(ms for _, ms, _, _ in done), chosen(user for _, _, user, _ in done), max(peak for *_, peak in done), same))
    return seen


def cases_of(asked):
    """The histories that were asked for."""
    cases = [case for case in CASES if (not asked.kinds or case[0] in asked.kinds) and case[2] <= asked.most]
    if not asked.events:
        return cases
    return list(dict.fromkeys((kind, asked.events, components) for kind, _, components in cases if kind != "newlines"))


def generated(room, kind, events, components):
    """The name of a file with such a history."""
    history = os.path.join(room, "history.csv")
    with open(history, "wb") as text:
        subprocess.run([sys.executable, os.path.join(HERE, "generate.py"), kind, str(events), str(components)], stdout=text, check=True)
    return history


def print_growth(asked, room, chosen):
    """Prints a table of long histories by the number of workers."""
    judges = [SNAPJUDGE] + ([asked.against] if asked.against else [])
    pieces = ["--pieces", asked.pieces] if asked.pieces else []
    print("| kind | events | components | workers | ms | of that user, ms | peak, MB | before, ms | of that user, ms | before, MB | reports |")
    print("|---|---|---|---|---|---|---|---|---|---|---|")
    for kind, components in GROWING:
        if asked.kinds and kind not in asked.kinds:
            continue
        for events in GROWTH:
            history = generated(room, kind, events, components)
            for workers in WORKERS:
                options = ["check", "--events", str(events), "--workers", str(workers), *pieces]
                seen = measure([[*shlex.split(judge), *options] for judge in judges], history, room, asked.repeats, chosen)
                same = "same" if all(each[-1] and each[0] == seen[0][0] for each in seen) else "DIFFERENT"
                columns = [f"{clock:.1f} | {user:.1f} | {peak:.0f}" for _, clock, user, peak, _ in seen]
                print(f"| {kind} | {events} | {components} | {workers} | {' | '.join((columns + ['- | - | -'])[:2])} | {same} |", flush=True)


def main():
    words = argparse.ArgumentParser(description="times of `snapjudge check`")
    words.add_argument("--against", metavar="PROGRAM", help="another judge of the same text and report")
    words.add_argument("--repeats", type=int, default=7)
    words.add_argument("--median", action="store_true", help="take the median of the times in place of the least")
    words.add_argument("--workers", default="2")
    words.add_argument("--pieces", metavar="P", help="cut the views into P pieces")
    words.add_argument("--events", metavar="N", help="judge each kind and number of components with N events")
    words.add_argument("--most", type=int, default=256, metavar="COMPONENTS", help="judge none with more components")
    words.add_argument("--growth", action="store_true", help="judge long histories by 1, 2 and 4 workers")
    words.add_argument("kinds", nargs="*", metavar="KIND")
    asked = words.parse_args()
    chosen = statistics.median if asked.median else min
    if asked.growth:
        with tempfile.TemporaryDirectory() as room:
            print_growth(asked, room, chosen)
        return
    limit = [word for option in ("events", "pieces") if getattr(asked, option) for word in (f"--{option}", getattr(asked, option))]
    programs = [[SNAPJUDGE, "check", "--workers", count, *limit] for count in ("1", asked.workers)]
    if asked.against:
        other, *options = shlex.split(asked.against)
        programs.append([other, "check", *options])
    print(f"| kind | events | components | bytes | status | 1 worker, ms | of that user, ms | {asked.workers} workers, ms | ratio | peak, MB | other judge, ms | ratio to it | reports |")
    print("|---|---|---|---|---|---|---|---|---|---|---|---|---|")
    with tempfile.TemporaryDirectory() as room:
        idle = min(run(["/bin/true"], os.devnull, os.devnull)[1] for _ in range(20))
        print(f"| nothing | 0 | 0 | 0 | 0 | {idle:.1f} | 0.0 | {idle:.1f} | 1.00 | - | - | - | - |")
        for kind, events, components in cases_of(asked):
            history = generated(room, kind, events, components)
            alone, both, *other = measure(programs, history, room, asked.repeats, chosen)
            same = "same" if all(seen[-1] and seen[0] == alone[0] for seen in [both, *other]) else "DIFFERENT"
            told = f"{other[0][1]:.1f} | {min(alone[1], both[1]) / other[0][1]:.1f}" if other else "- | -"
            print(f"| {kind} | {events} | {components} | {os.path.getsize(history)} | {alone[0]} | {alone[1]:.1f} | {alone[2]:.1f} | {both[1]:.1f} | {both[1] / alone[1]:.2f} | {max(alone[3], both[3]):.0f} | {told} | {same} |", flush=True)


if __name__ == "__main__":
    main()
