#!/usr/bin/env python3
"""Prints what the start of `snapjudge check` costs, on a history of 10 events, beside an empty C program. Then it prints what the
start costs by a shell, and by the launcher of this checkout. What the launcher takes more is the test whether the sources have
changed.

usage: start.py [RUNS [PROGRAM]]

All are run in turn, 400 times by default. Of the milliseconds of wall time and of processor time the table has the least and
the median. Lines after it say how long a second thread of a C program takes to begin while the first goes on, as in a check.
They also say how long the first one takes to start it: when the system chooses its processor, when another one is named for
it, and with the priority of real time if that is allowed. The last line has the load before it.
"""
import asked  # answers --help
import contextlib
import os
import statistics
import subprocess
import sys
import tempfile
import time

from histories import texts_of
from run import SNAPJUDGE
from shapes import run

RUNS = int(sys.argv[1]) if len(sys.argv) > 1 else 400
TOP = os.path.dirname(os.path.dirname(os.path.abspath(__file__)))
PROGRAM = os.path.abspath(sys.argv[2]) if len(sys.argv) > 2 else SNAPJUDGE
EMPTY = "int main(void) { return 0; }\n"
# prints after how many milliseconds a second thread began, and after how many the first one went on; it is then busy for 20. With a
# word, the thread may not begin on the processor of the first
THREAD = """#define _GNU_SOURCE
#include <pthread.h>
#include <sched.h>
#include <stdio.h>
#include <time.h>
static double begun;
static double now(void) {
    struct timespec time;
    clock_gettime(CLOCK_MONOTONIC, &time);
    return time.tv_sec * 1e3 + time.tv_nsec / 1e6;
}
static void *begin(void *unused) {
    begun = now();
    return unused;
}
int main(int words, char **word) {
    (void)word;
    pthread_t thread;
    pthread_attr_t kind;
    cpu_set_t others;
    pthread_attr_init(&kind);
    sched_getaffinity(0, sizeof others, &others);
    CPU_CLR(sched_getcpu(), &others);
    if (words > 1) pthread_attr_setaffinity_np(&kind, sizeof others, &others);
    double before = now();
    if (pthread_create(&thread, &kind, begin, NULL) != 0) return 1;
    double started = now();
    while (now() < before + 20) {}
    pthread_join(thread, NULL);
    printf("%f %f\\n", begun - before, started - before);
    return 0;
}
"""


def compiled(room, name, text):
    """A program in C, made of this text."""
    made = os.path.join(room, name)
    with open(f"{made}.c", "w", encoding="utf-8") as source:
        source.write(text)
    subprocess.run(["cc", "-O2", "-pthread", "-o", made, f"{made}.c"], check=True)
    return made


def main():
    with tempfile.TemporaryDirectory() as room:
        history, thread = os.path.join(room, "history.csv"), compiled(room, "thread", THREAD)
        with open(history, "w", encoding="utf-8") as file:
            file.write(texts_of("atomic, width 2", 10)[0])
        cases = {"an empty C program": [compiled(room, "empty", EMPTY)]} | {f"check, workers: {n}": [PROGRAM, "check", "--workers", str(n)] for n in (1, 2)}
        cases["by a shell"] = ["/bin/sh", "-c", 'exec "$0" "$@"', PROGRAM, "check", "--workers", "1"]
        cases["by the launcher"] = [f"{TOP}/snapjudge", "check", "--workers", "1"]
        load = os.getloadavg()
        taken = {name: [] for name in cases}
        for _ in range(RUNS):
            for name, words in cases.items():
                begun = time.perf_counter()
                _, processor, _ = run(words, history, os.devnull)
                taken[name].append(((time.perf_counter() - begun) * 1000, processor))
        ways = {"": [thread], ", on another processor": [thread, "other"]}
        real_time = ["chrt", "-r", "10", thread]
        with contextlib.suppress(FileNotFoundError):
            if subprocess.run(real_time, stdout=subprocess.DEVNULL, stderr=subprocess.DEVNULL).returncode == 0:
                ways[", with the priority of real time"] = real_time
        begins = {way: [subprocess.run(words, stdout=subprocess.PIPE, check=True).stdout.split() for _ in range(RUNS)] for way, words in ways.items()}
    print("| program | wall time, ms | median | processor time, ms | median |\n|---|---|---|---|---|")
    for name, runs in taken.items():
        cells = [f"{of(times):.2f}" for times in zip(*runs) for of in (min, statistics.median)]
        print(f"| {name} | {' | '.join(cells)} |")
    for way, runs in begins.items():
        for what, took in zip((f"A second thread{way} begins", "The first one goes on"), zip(*(map(float, it) for it in runs))):
            print(f"{what} after {min(took):.2f} ms at best, {statistics.median(took):.2f} by the median, {statistics.mean(took):.2f} on average.")
    print(f"The load before it was {load[0]:.1f}.")


main()
