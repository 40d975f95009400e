#!/usr/bin/env python3
"""Prints what recorded runs have in them, as a table: a row for each number of workers and each program. Each program records RUNS
runs by `record --workers WORKERS --rounds ROUNDS --seed SEED`, in turn with the others. The seeds are 0, 1, 2 and so on; a program that
takes no seed is given none.

usage: overlaps.py [RUNS [ROUNDS [PROGRAM ..]]]; by default 20 runs in 512 rounds by built/snapjudge

Two calls overlap if one begins while the other has not ended. Of all calls the table has the share that overlaps a call of another
worker, in the mean and in the least run. Of the stores it has those with a begin inside, with a whole call, with a whole view that
misses the store, and with one that shows it. Of the faults it has the share of each component: in write faults the component of the
later update, in read faults that of which the first view shows more. Write faults are all counted, and read faults of views that begin
within eight of each other. Then come the runs that `check` calls atomic, and the medians of the wall time and the processor time of a
run in milliseconds.
"""
import asked  # answers --help
import collections
import functools
import os
import resource
import statistics
import subprocess
import sys
import time

HERE = os.path.dirname(os.path.abspath(__file__))
WORKERS = (2, 3, 4, 8)
# Views that begin so close to each other are compared.
NEAR = 8


class Call:
    """A call: its worker, the places of its events, and what a view shows of each component or what a store stores."""

    def __init__(self, worker, is_view, begun, entry):
        self.worker, self.is_view, self.begun, self.entry = worker, is_view, begun, entry
        self.ended, self.has_begin, self.has_call, self.overlaps, self.shown = None, False, False, False, {}
        self.is_missed, self.is_shown = False, False

    def has_inside(self, call):
        """A call that has ended began after this one, which has not."""
        self.has_call = True
        for k, n in self.entry.items():
            if call.is_view:
                self.is_shown |= call.shown.get(k, 0) >= n
                self.is_missed |= call.shown.get(k, 0) < n


def entries(data):
    """What is shown: of each component its number."""
    return {int(k): int(n) for k, n, _ in (entry.split(":") for entry in data.split())}


def calls_of(text):
    """The calls of a text in the order of their begins, with what they have inside."""
    calls, pending = [], {}
    for place, line in enumerate(text.splitlines()[1:]):
        event, worker, op, data = line.split(",", 3)
        if event == "begin":
            call = Call(worker, op == "view", place, entries(data))
            for other in pending.values():
                other.has_begin = other.overlaps = call.overlaps = True
            calls.append(call)
            pending[worker] = call
        else:
            call = pending.pop(worker)
            call.ended, call.shown = place, entries(data)
            for other in pending.values():
                if other.begun < call.begun:
                    other.has_inside(call)
    return calls


def write_faults(views, updates, components):
    """How many write faults there are by the component of the later update."""
    found = collections.Counter()
    for view in views:
        # of the updates that the view misses first, the one that ended first
        missed = min((updates[j, view.shown.get(j, 0) + 1].ended for j in components if (j, view.shown.get(j, 0) + 1) in updates), default=None)
        for k, n in view.shown.items():
            if missed is not None and missed < updates[k, n].begun:
                nexts = (updates.get((j, view.shown.get(j, 0) + 1)) for j in components)
                found[k] += sum(it is not None and it.ended < updates[k, n].begun for it in nexts)
    return found


def read_faults(views, components):
    """How many read faults views have that begin close to each other, by the components of which the first shows more."""
    found = collections.Counter()
    for at, one in enumerate(views):
        for other in views[at + 1 : at + 1 + NEAR]:
            for r, s in ((one, other), (other, one)):
                more = [k for k in components if r.shown.get(k, 0) > s.shown.get(k, 0)]
                if more and (r.ended < s.begun or any(r.shown.get(k, 0) < s.shown.get(k, 0) for k in components)):
                    found.update(more)
    return found


def used_by_children():
    """The processor time of all programs that have ended, in seconds."""
    used = resource.getrusage(resource.RUSAGE_CHILDREN)
    return used.ru_utime + used.ru_stime


class Row:
    """What the runs of one program and one number of workers have."""

    def __init__(self):
        self.shares, self.begins, self.inside, self.missed, self.shown, self.atomic = [], [], [], [], [], 0
        self.writes, self.reads = collections.Counter(), collections.Counter()
        self.walls, self.times = [], []

    def add(self, program, workers, rounds, seed):
        """Records one run and looks at it."""
        begun, used = time.monotonic(), used_by_children()
        words = [program, "record", "--workers", str(workers), "--rounds", str(rounds)] + ["--seed", str(seed)] * takes_seeds(program)
        text = subprocess.run(words, check=True, capture_output=True, text=True).stdout
        self.walls.append(1000 * (time.monotonic() - begun))
        self.times.append(1000 * (used_by_children() - used))
        calls = calls_of(text)
        views, stores = [call for call in calls if call.is_view], [call for call in calls if not call.is_view]
        updates = {(k, n): call for call in stores for k, n in call.entry.items()}
        self.shares.append(100 * sum(call.overlaps for call in calls) / len(calls))
        self.begins.append(100 * sum(call.has_begin for call in stores) / len(stores))
        self.inside.append(100 * sum(call.has_call for call in stores) / len(stores))
        self.missed.append(100 * sum(call.is_missed for call in stores) / len(stores))
        self.shown.append(100 * sum(call.is_shown for call in stores) / len(stores))
        self.writes += write_faults(views, updates, range(workers))
        self.reads += read_faults(views, range(workers))
        judged = subprocess.run([program, "check", "--quiet"], input=text, stdout=subprocess.DEVNULL, text=True)
        self.atomic += judged.returncode == 0

    def cells(self, workers):
        """The cells of the row."""
        spread = [" / ".join(f"{100 * of[k] / of.total():.0f}" for k in range(workers)) if of else "none" for of in (self.reads, self.writes)]
        means = [f"{statistics.mean(of):.1f}" for of in (self.shares, self.begins, self.inside, self.missed, self.shown)]
        shares = [means[0], f"{min(self.shares):.1f}", *means[1:]]
        times = [f"{statistics.median(of):.1f}" for of in (self.walls, self.times)]
        return [*shares, *spread, f"{self.atomic}", *times]


@functools.lru_cache
def takes_seeds(program):
    """Whether a program records by a seed."""
    return "--seed" in subprocess.run([program, "record", "--help"], capture_output=True, text=True).stderr


def main():
    runs, rounds = [int(word) for word in sys.argv[1:3]] + [20, 512][len(sys.argv[1:3]) :]
    programs = [os.path.realpath(word) for word in sys.argv[3:] or [os.path.join(HERE, "..", "built", "snapjudge")]]
    print("| workers | program | overlap, % | least | stores with a begin inside, % | with a call inside, % "
          "| missed by a view inside, % | shown by a view inside, % "
          "| read faults by component, % | write faults by component, % | atomic runs | wall ms | processor ms |")
    print("|---|---|---|---|---|---|---|---|---|---|---|---|---|")
    for workers in WORKERS:
        rows = [Row() for _ in programs]
        for seed in range(runs):
            for row, program in zip(rows, programs):
                row.add(program, workers, rounds, seed)
        for row, name in zip(rows, sys.argv[3:] or ["built/snapjudge"]):
            print(f"| {workers} | `{name}` | {' | '.join(row.cells(workers))} |", flush=True)


main()
