#!/usr/bin/env python3
"""Prints a table of what `snapjudge check` costs by shape of history and size, beside another judge of the same text and report.

usage: shapes.py [--against PROGRAM [--stamped]] [--repeats N] [--sizes N,N,..] [--workers N] [--clock] [--piped] PROGRAM [SHAPE ..]
       shapes.py --list
       shapes.py --write SHAPE EVENTS

PROGRAM is called as `PROGRAM check`, with the history on its standard input. Words that follow the other judge in one argument,
as in `--against "judge --monotone"`, come after `check`. The shapes are those of histories.py; if words are given, those whose
names have one of them. The other judge is given the same history without stamps, in order, or with --stamped the same text. If
a size is greater than 65,536, the program is called with `--events`; tell the other judge the same by a word of its own.

Times are processor time, user and system, of all threads, or with --clock wall time. The judges are called in turn, N times (5 by
default) or until they have taken four seconds, and the least time of each counts. With --piped `cat` hands them the history, so
that neither can ask for the size of a file. The row of a shape has for each size the milliseconds of the program, those of the
other judge, and the ratio. Then come figures at the greatest size: the text in millions of bytes, the milliseconds a million
bytes, the peak memory in millions of bytes, and that a million bytes. Some 15 million bytes of the memory are the measuring
program's own. The growth is the ratio of the times by byte at the greatest two sizes, each less the time of an empty text: more
than 1.2 says that a shape grows faster than its text times the logarithm of it. The last column says whether the reports are the
same byte for byte.
"""
import argparse
import filecmp
import os
import shlex
import subprocess
import sys
import tempfile
import time

from histories import MOST_EVENTS, SHAPES, about, bytes_of, texts_of

SIZES = (4096, 16384, 65536)
# after this many milliseconds a history is not judged again
ENOUGH = 4000


def run(words, history, report, by_clock=False, piped=False):
    """The status, the milliseconds of processor time or of wall time, and the peak memory in bytes of one run. It reads the history as
    a file, or piped from `cat`, whose time does not count."""
    files = [(os.POSIX_SPAWN_OPEN, 0, history, os.O_RDONLY, 0), (os.POSIX_SPAWN_OPEN, 1, report, os.O_WRONLY | os.O_CREAT | os.O_TRUNC, 0o600),
             (os.POSIX_SPAWN_OPEN, 2, os.devnull, os.O_WRONLY, 0)]
    if piped:
        text, end = os.pipe()
        cat = os.posix_spawnp("cat", ["cat", history], os.environ, file_actions=[(os.POSIX_SPAWN_DUP2, end, 1)])
        os.close(end)
        files[0] = (os.POSIX_SPAWN_DUP2, text, 0)
    begun = time.perf_counter()
    child = os.posix_spawn(words[0], words, os.environ, file_actions=files)
    if piped:
        os.close(text)
    _, status, used = os.wait4(child, 0)
    seconds = time.perf_counter() - begun if by_clock else used.ru_utime + used.ru_stime
    if piped:
        os.waitpid(cat, 0)
    return os.waitstatus_to_exitcode(status), seconds * 1000, used.ru_maxrss * 1024


def measure(programs, histories, room, asked):
    """The least milliseconds and the most memory of each program, and what the last column says of the reports."""
    reports = [os.path.join(room, f"report{i}") for i in range(len(programs))]
    runs = [[] for _ in programs]
    while len(runs[0]) < asked.repeats and sum(ms for done in runs for _, ms, _ in done) < ENOUGH:
        for words, history, report, done in zip(programs, histories, reports, runs):
            done.append(run(words, history, report, asked.clock, asked.piped))
    costs = [(min(ms for _, ms, _ in done), max(peak for *_, peak in done)) for done in runs]
    statuses = [done[0][0] for done in runs]
    if len(set(statuses)) > 1:
        return costs, f"STATUS {' AND '.join(map(str, statuses))}"
    same = all(filecmp.cmp(reports[0], other, shallow=False) for other in reports[1:])
    return costs, "same" if same else "DIFFERENT"


def write_texts(name, events, room):
    """Leaves the text of a shape, and that without stamps, as files; in a process of its own, whose memory no judge begins with."""
    texts = [os.path.join(room, f"history{i}.csv") for i in range(2)]
    subprocess.run([sys.executable, __file__, "--write", name, str(events), "--into", *texts], check=True)
    return texts


def row_of(name, programs, room, asked, start):
    """The cells of a shape."""
    cells, by_byte, said = [], [], {}
    for events in asked.sizes:
        histories = write_texts(name, events, room)
        size = os.path.getsize(histories[0])
        if size > bytes_of(max(*asked.sizes, MOST_EVENTS)) + 1:
            cells += ["-"] * (3 if len(programs) > 1 else 1)
            continue
        costs, reports = measure(programs, histories[:1] * 2 if asked.stamped else histories, room, asked)
        said[reports] = None
        times, peak = [ms for ms, _ in costs], costs[0][1]
        by_byte.append(max(times[0] - start, 0) / size)
        cells += [f"{ms:.1f}" for ms in times]
        if len(times) > 1:
            cells.append(f"{times[0] / times[1]:.1f}")
    growth = f"{by_byte[-1] / by_byte[-2]:.1f}" if len(by_byte) > 1 and by_byte[-2] * size > start else "-"
    of_text = [size / 1e6, times[0] / size * 1e6, peak / 1e6, peak / size]
    return cells + [f"{number:.1f}" for number in of_text] + [growth, ", ".join(said)]


def print_table(asked):
    programs = [[os.path.abspath(asked.program), "check", "--workers", asked.workers]]
    if max(asked.sizes) > MOST_EVENTS:
        programs[0] += ["--events", str(max(asked.sizes))]
    if asked.against:
        other, *options = shlex.split(asked.against)
        programs.append([os.path.abspath(other), "check", *options])
    judged = ("ms", "other, ms", "ratio") if asked.against else ("ms",)
    heads = ["shape", *(f"{size}: {what}" for size in asked.sizes for what in judged)]
    heads += ["text, MB", "ms a MB", "peak, MB", "peak a MB", "growth", "reports"]
    print(f"| {' | '.join(heads)} |\n{'|---' * len(heads)}|")
    with tempfile.TemporaryDirectory() as room:
        start = min(run(programs[0], os.devnull, os.devnull, asked.clock)[1] for _ in range(20))
        for name in SHAPES:
            if not asked.shapes or any(part in name for part in asked.shapes):
                print(f"| {name} | {' | '.join(row_of(name, programs, room, asked, start))} |", flush=True)


def main():
    words = argparse.ArgumentParser(description="what `snapjudge check` costs by shape and size")
    words.add_argument("program", metavar="PROGRAM", nargs="?")
    words.add_argument("--against", metavar="PROGRAM", help="another judge of the same text and report, and words after `check`")
    words.add_argument("--stamped", action="store_true", help="the other judge reads stamps too, and is given them")
    words.add_argument("--repeats", type=int, default=5)
    words.add_argument("--sizes", type=lambda text: [int(size) for size in text.split(",")], default=SIZES)
    words.add_argument("--workers", default="2")
    words.add_argument("--clock", action="store_true", help="measure wall time in place of processor time")
    words.add_argument("--piped", action="store_true", help="hand the history over by a pipe in place of a file")
    words.add_argument("--list", action="store_true", help="print the shapes alone")
    words.add_argument("--write", nargs=2, metavar=("SHAPE", "EVENTS"), help="write the text of a shape alone")
    words.add_argument("--into", nargs=2, metavar="FILE", help="write it to a file, and to another the same history without stamps")
    words.add_argument("shapes", nargs="*", metavar="SHAPE", help="only shapes whose name has this text")
    asked = words.parse_args()
    if asked.write:
        if asked.write[0] not in SHAPES:
            words.error(f"there is no shape {asked.write[0]}; --list prints them")
        texts = texts_of(asked.write[0], int(asked.write[1]))
        for text, path in zip(texts, asked.into or ["/dev/stdout"]):
            with open(path, "w", newline="", encoding="utf-8") as file:
                file.write(text)
    elif asked.program and not asked.list:
        print_table(asked)
    else:
        print("\n".join(f"{name}: {about(name)}" for name in SHAPES))


if __name__ == "__main__":
    main()
