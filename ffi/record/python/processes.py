"""Tests a board that processes share: each writes a log, the logs become one history, and `snapjudge check` judges each run.

    python3 processes.py PROGRAM OBJECT RUNS

OBJECT is `lock`, a board under a lock, which is atomic, or `naive`, one collect, which is not. The last run that was not atomic
stays in caught.csv.

SPDX-License-Identifier: 0BSD
"""
import multiprocessing
import os
import random
import subprocess
import sys
import time

from merge_logs import merge, read_logs

PROCESSES, CALLS = 3, 200
FORK = multiprocessing.get_context("fork")

# ---- the object: put yours in its place


class Board:
    def __init__(self, has_lock):
        self.words, self.lock = FORK.RawArray("I", PROCESSES), FORK.Lock() if has_lock else None

    def update(self, component, value):
        if self.lock is None:
            self.words[component] = value
        else:
            with self.lock:
                self.words[component] = value

    def collect(self):
        values = []
        for word in self.words:
            values.append(word)
            time.sleep(random.random() * 0.0001)  # lets the other processes run in the middle of a view
        return values

    def view(self):
        if self.lock is None:
            return self.collect()
        with self.lock:
            return list(self.words)


# ---- the processes: each updates a component of its own and takes views, in turn


def work(board, process, start):
    with open(f"{process}.log", "w") as file:
        print("ns,event,process,op,data", file=file)

        def log(event, op, data=""):
            print(f"{time.monotonic_ns()},{event},{process},{op},{data}", file=file, flush=True)

        start.wait()
        for i in range(CALLS // 2):
            value = (process + 1) * 1000000 + i  # each value once
            log("begin", "update", f"{process}:{value}")
            board.update(process, value)
            log("end", "update")
            log("begin", "view")
            values = board.view()
            log("end", "view", " ".join(f"{k}:{value}" for k, value in enumerate(values)))


# ---- one run, and its status: 0 atomic, 1 only regular, 2 not regular, 3 refused


def run(program, has_lock):
    board, start = Board(has_lock), FORK.Barrier(PROCESSES)
    processes = [FORK.Process(target=work, args=(board, process, start)) for process in range(PROCESSES)]
    for process in processes:
        process.start()
    for process in processes:
        process.join()
    if any(process.exitcode for process in processes):
        raise SystemExit("a process died")
    history, _, _ = merge(read_logs([f"{process}.log" for process in range(PROCESSES)]))
    status = subprocess.run([program, "check"], input=history.encode(), stdout=subprocess.DEVNULL).returncode
    if status not in range(4):
        raise SystemExit(f"{program} does not judge")
    if status != 0:
        with open("caught.csv", "w") as file:
            file.write(history)
    return status


def main():
    if sys.argv[1:] in (["-h"], ["--help"]):
        sys.exit(print(__doc__.strip()))
    if len(sys.argv) != 4 or sys.argv[2] not in ("lock", "naive"):
        raise SystemExit("usage: processes.py PROGRAM OBJECT RUNS, where OBJECT is lock or naive")
    program, name, runs = sys.argv[1:]
    found = [0] * 4
    for _ in range(int(runs)):
        found[run(program, name == "lock")] += 1
    for process in range(PROCESSES):
        os.remove(f"{process}.log")
    print(f"{name}: atomic {found[0]}, only-regular {found[1]}, not-regular {found[2]}, refused {found[3]}")


main()
