"""Tests what to record of updates that fail: threads update a board under a lock, and one update of five fails at first.

    python3 failing.py PROGRAM WAY RUNS

WAY is what a thread does with an update that failed:
    drop     it had no effect: the thread drops it, and begins it once more
    again    it had no effect: the thread tries once more, inside the same begin and end
    unknown  it may have an effect, now or later: the thread leaves it open, and goes on as another process with another component
    end      the thread ends it as if it had been done, which is wrong

SPDX-License-Identifier: 0BSD
"""
import random
import subprocess
import sys
import threading
import time

from snaprecord import Recorder

THREADS, CALLS = 3, 60


class Board:
    """The components of a thread are its own and, after those of all threads, a spare one."""

    def __init__(self):
        self.lock, self.values, self.late = threading.Lock(), [None] * 2 * THREADS, []

    def update(self, component, value):
        with self.lock:
            self.values[component] = value

    def update_some_day(self, component, value):
        """Nobody knows whether this update is made, and when."""
        if random.random() < 0.7:
            timer = threading.Timer(random.random() * 0.002, self.update, (component, value))
            timer.start()
            self.late.append(timer)

    def view(self):
        with self.lock:
            return list(self.values)


def work(recorder, board, thread, way):
    process, i = thread, 0
    while i < CALLS // 2:
        log, value, fails = recorder.log(process), f"{thread} wrote {i}", i % 5 == 4
        i += 1
        if not log.begin_update(process, value):
            return
        if fails and way == "drop":
            log.drop_update()
            if not log.begin_update(process, value):
                return
        if fails and way == "unknown" and process < THREADS:
            board.update_some_day(process, value)
            process += THREADS
        else:
            if not fails or way != "end":
                board.update(process, value)
            log.end_update()
        log = recorder.log(process)
        if not log.begin_view():
            return
        log.end_view_values(board.view())
        time.sleep(0)


def run(program, way):
    recorder, board = Recorder(2 * THREADS, 2 * THREADS, CALLS), Board()
    threads = [threading.Thread(target=work, args=(recorder, board, thread, way)) for thread in range(THREADS)]
    for thread in threads:
        thread.start()
    for thread in threads:
        thread.join()
    for timer in board.late:
        timer.join()
    return subprocess.run([program, "check", "--views", "1"], input=recorder.text().encode(), stdout=subprocess.DEVNULL).returncode


def main():
    if sys.argv[1:] in (["-h"], ["--help"]):
        sys.exit(print(__doc__.strip()))
    if len(sys.argv) != 4 or sys.argv[2] not in ("drop", "again", "unknown", "end"):
        raise SystemExit("usage: failing.py PROGRAM WAY RUNS, where WAY is drop, again, unknown or end")
    program, way, runs = sys.argv[1:]
    found = [0] * 4
    for _ in range(int(runs)):
        status = run(program, way)
        if status not in range(4):
            raise SystemExit(f"{program} does not judge")
        found[status] += 1
    print(f"{way}: atomic {found[0]}, only-regular {found[1]}, not-regular {found[2]}, refused {found[3]}")


main()
