"""Prints the nanoseconds that recording one call, its begin and its end, takes with this many threads: the quartiles of some rounds.

usage: cost.py THREADS
"""
import os
import statistics
import sys
import threading
import time

sys.path.insert(0, os.path.join(os.path.dirname(os.path.abspath(__file__)), "..", "..", "ffi", "record", "python"))
from snaprecord import Recorder

ROUNDS = 21


def run(threads):
    calls = 32768 // threads
    recorder, start, took = Recorder(threads, threads, calls), threading.Barrier(threads), [0.0] * threads

    def work(log, own):
        start.wait()
        begun = time.perf_counter()
        for value in range(1, calls + 1):
            if not log.begin_update(own, value):
                break
            log.end_update()
        took[own] = time.perf_counter() - begun

    every = [threading.Thread(target=work, args=(recorder.log(own), own)) for own in range(threads)]
    for thread in every:
        thread.start()
    for thread in every:
        thread.join()
    return sum(took) / threads / calls


low, _, high = statistics.quantiles((run(int(sys.argv[1])) for _ in range(ROUNDS)), n=4)
print(f"{low * 1e9:.0f} to {high * 1e9:.0f}")
