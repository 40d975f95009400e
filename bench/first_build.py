#!/usr/bin/env python3
"""Times first builds, each in a fresh clone of what is committed here: wall time, processor time, and the load before it.

usage: first_build.py [RUNS [PROCESSORS]]        (one run on all processors by default)

The last run's seconds and memory by crate go to share/proof-times.txt, by which a build estimates how long it will still take.
"""
import asked  # answers --help
import os
import resource
import shutil
import subprocess
import sys
import tempfile
import time

TOP = os.path.dirname(os.path.dirname(os.path.abspath(__file__)))


def processor_seconds():
    used = resource.getrusage(resource.RUSAGE_CHILDREN)
    return used.ru_utime + used.ru_stime


def main(words):
    runs = int(words[0]) if words else 1
    processors = sorted(os.sched_getaffinity(0))[: int(words[1]) if len(words) > 1 else None]
    os.sched_setaffinity(0, processors)
    print("| processors | load before | wall time, minutes | processor time, minutes |\n|---|---|---|---|")
    for _ in range(runs):
        with tempfile.TemporaryDirectory() as room:
            tree = f"{room}/tree"
            subprocess.run(["git", "clone", "-q", TOP, tree], check=True)
            load, before, begun = os.getloadavg()[0], processor_seconds(), time.monotonic()
            subprocess.run([f"{tree}/build", "--times", f"{room}/times"], check=True)
            seconds, used = time.monotonic() - begun, processor_seconds() - before
            print(f"| {len(processors)} | {load:.1f} | {seconds / 60:.1f} | {used / 60:.1f} |", flush=True)
            shutil.copy(f"{room}/times", f"{TOP}/share/proof-times.txt")


if __name__ == "__main__":
    sys.exit(main(sys.argv[1:]))
