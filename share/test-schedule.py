#!/usr/bin/env python3
"""Replays recorded builds through the estimate of share/schedule.py: what a build says of how long it will still take.

usage: test-schedule.py [-v]

A recording in share/builds/ has a line for each crate: its name, when its check began and ended, in seconds after the first, its
jobs, and the processor seconds that it used. These are taken as evenly spread. Its first line has the processors, the load when it
began, and a second. From that second on the end that is told must be within a quarter of the true one. That is the third minute,
or later if other work came only then. With the word --keep it is of a build that kept its proofs. The last line is 'N passed, M
failed'.
"""
import collections
import contextlib
import io
import os
import re
import subprocess
import sys
from unittest import mock

import graph
import prove
import schedule

BUILDS = graph.TOP / "share/builds"
# How often, in seconds, and how near to the true end an estimate must be.
EVERY, NEAR = 10, 0.25
# By how many seconds a sum of four times may differ that the system tells in ticks.
TICKS = 4 / os.sysconf("SC_CLK_TCK")
# The memory of the machines of the recordings, in megabytes.
ROOM = 16000


class Crate:
    """A crate of a list of crates, as the prover's own class has it."""

    def __init__(self, name, below):
        self.name, self.names, self.known = name, below, None

    def below(self):
        return [self.known[it] for it in self.names]


def crates_of(below):
    """The crates of a list of crates, each with everything that it depends on."""
    known = {it: Crate(it, [other for other in graph.reached(below, [it]) if other != it]) for it in below}
    for it in known.values():
        it.known = known
    return known


# A check of a recording, and a recording: its processors, load and checks, the second from which on it is tried, and whether it kept.
Check = collections.namedtuple("Check", "name begun ended jobs used")
Build = collections.namedtuple("Build", "lanes load checks first keep")


def recorded(file):
    text = file.read_text(encoding="utf-8")
    lanes, load, first = re.match(r"# (\d+) processors, load ([\d.]+), from second (\d+) on", text).groups()
    rows = [line.split() for line in text.splitlines() if line and not line.startswith("#")]
    checks = [Check(name, *map(int, numbers)) for name, *numbers in rows]
    return Build(int(lanes), float(load), checks, int(first), "--keep" in text.partition("\n")[0])


def told(known, build, times):
    """What a build says every few seconds: how long it has taken, and how long it will still take."""
    pace = schedule.Pace(times, build.lanes, build.load, build.keep)
    waiting = schedule.order([known[it.name] for it in build.checks], times)

    def at(it, now):
        megabytes = times.get(it.name, schedule.UNKNOWN)[1]
        return schedule.Running(known[it.name], it.jobs, megabytes, now - it.begun, it.used * (now - it.begun) / (it.ended - it.begun))

    left = sorted(build.checks, key=lambda it: it.ended)
    for now in range(0, left[-1].ended, EVERY):
        while left[0].ended <= now:
            ended = left.pop(0)
            pace.ended(at(ended, ended.ended))
        running = [at(it, now) for it in left if it.begun <= now]
        later = {known[it.name] for it in left if it.begun > now}
        yield now, schedule.left([it for it in waiting if it in later], running, build.lanes, ROOM, pace)


def own_seconds():
    """The processor seconds of this process, and of those that it has waited for, as the system tells the process itself."""
    return sum(os.times()[:4])


def announced(*words):
    """What a build says before it begins."""
    with io.StringIO() as said, contextlib.redirect_stderr(said):
        prove.Progress(40).announce(*words)
        return said.getvalue()


def interrupted():
    """The status of a run that a signal ends before its first check, and what it writes."""
    with mock.patch("prove.main", side_effect=KeyboardInterrupt):
        with contextlib.redirect_stdout(io.StringIO()) as out, contextlib.redirect_stderr(io.StringIO()) as said:
            return prove.run([]), out.getvalue(), said.getvalue()


def main(words):
    passed, failed = 0, 0

    def expect(is_so, otherwise):
        nonlocal passed, failed
        passed, failed = passed + bool(is_so), failed + (not is_so)
        if not is_so:
            print(f"schedule: FAILED: {otherwise}")

    times = schedule.noted_times(BUILDS / "proof-times.txt")
    lists = graph.below_each((BUILDS / "libraries.txt").read_text(encoding="utf-8"))
    for file in sorted(BUILDS.glob("*-[0-9].txt")):
        build = recorded(file)
        known = crates_of(lists)
        end = max(it.ended for it in build.checks)
        for now, left in told(known, build, times):
            if words == ["-v"]:
                print(f"{file.stem}: after {now} s {left:.0f} s are told, and {end - now} are left: {(now + left - end) / end:+.0%}")
            if now >= build.first:
                expect(abs(now + left - end) <= NEAR * end, f"{file.stem}: after {now} s {left:.0f} s are told, and {end - now} are left")
    # a child that has ended counts too, as the provers do that a build has waited for
    subprocess.run([sys.executable, "-c", "sum(range(10 ** 7))"], check=True)
    before, used, after = own_seconds(), prove.used_by(os.getpid()), own_seconds()
    expect(before - TICKS <= used <= after + TICKS, f"this process has used {before} to {after} s, and {used} s are seen")
    wanted = "snapjudge: this proves 40 crates first, about 12 minutes on 4 processors"
    expect(announced(747, 4, True) == f"{wanted}; ./try runs it unproved in one or two\n", "what is said before a long build")
    expect(announced(747, 4, False) == f"{wanted}\n", "what is said before the proof of another crate")
    expect(announced(60, 4, True) == "", "what is said before a short build")
    expect(interrupted() == (1, "", ""), "what is said where a signal comes before the first check")
    print(f"{passed} passed, {failed} failed")
    return 1 if failed or not passed else 0


if __name__ == "__main__":
    if sys.argv[1:] in (["-h"], ["--help"]):
        sys.exit(print(__doc__.strip()))
    sys.exit(main(sys.argv[1:]))
