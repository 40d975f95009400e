#!/usr/bin/env python3
"""Compares the program with a judge that tries all orders, on small histories whose components have many writers.

usage: test-writers.py PROGRAM [HISTORIES [SEED]]

A history is a list of calls: updates of two components by any process, which may overlap, and views. Its updates are numbered as they
begin. In most of them they end in the order of their numbers, and the program must judge these. Each other one is refused at the first
end out of order. The judge here knows the definitions alone: it goes through all orders of the calls. An order that the program prints
must be one of them. Some of the histories are also explained, drawn, counted and cut down, and some are followed, in windows that end
as soon as no call is open. A witness has one writer of each component, so it is judged without the option. There are 3,000 histories,
or as many as are asked for.
"""
import collections
import os
import random
import subprocess
import sys
import tempfile

from small_histories import COMPONENTS, HEADER, NEVER, PROCESSES, is_atomic, is_legal, is_monotone, is_regular, reports_of

HISTORIES, ASKED, FOLLOWED, BATCH = 3000, 120, 3000, 3000
SEED = 20261201


def history(rng):
    """The records of a history, its calls, and the number of the first record that ends an update out of order, or None."""
    records, calls, open_calls, count = [], [], {}, [0] * COMPONENTS
    orderly, out_of_order = rng.random() < 0.85, None
    for _ in range(rng.randint(4, 18)):
        process = rng.randrange(PROCESSES)
        at = len(records)
        if process not in open_calls:
            component = rng.randrange(COMPONENTS)
            call = {"process": process, "begun": at, "ended": NEVER, "shown": None}
            if rng.random() < 0.6:
                count[component] += 1
                call["update"] = (component, count[component], component * 100 + count[component])
                records.append("begin,%d,update,%d:%d:%d" % (process, *call["update"]))
            else:
                call["update"] = None
                records.append("begin,%d,view," % process)
            open_calls[process] = call
            calls.append(call)
            continue
        call = open_calls[process]
        if call["update"]:
            component, number, _ = call["update"]
            early = any(it["update"] and it["update"][0] == component and it["update"][1] < number and it["ended"] == NEVER for it in calls)
            if early and orderly:
                continue
            if early and out_of_order is None:
                out_of_order = at + 2
            records.append("end,%d,update," % process)
        else:
            shown = {}
            for component in range(COMPONENTS):
                number = min(count[component], max(0, count[component] - rng.choice([0, 0, 0, 1, 1, 2, 3]) + rng.choice([0] * 9 + [1])))
                if number:
                    shown[component] = (number, component * 100 + number + (rng.random() < 0.03))
            call["shown"] = shown
            records.append("end,%d,view,%s" % (process, " ".join("%d:%d:%d" % (k, *shown[k]) for k in shown)))
        call["ended"] = at
        del open_calls[process]
    return records, calls, out_of_order


def fault(report, calls, out_of_order):
    """What is wrong with a report, or None."""
    if out_of_order:
        return None if report == [f"refused record {out_of_order}: order"] else f"not refused at record {out_of_order}"
    yes = {True: "yes", False: "no"}
    verdicts = [f"regular {yes[is_regular(calls)]}", f"monotone {yes[is_monotone(calls)]}", f"atomic {yes[is_atomic(calls)]}"]
    if report[1:4] != verdicts:
        return f"not {verdicts}"
    if report[3] != "atomic yes":
        return None
    order = [calls[int(line.split()[0]) - 1] for line in report[5:]]
    return None if is_legal(order, calls) and len(order) == int(report[4].split()[1]) else "an order that is not legal"


def asked(program, room, name, status, updates):
    """What is wrong with the other answers about a history, or None."""

    def run(*words, text=None):
        return subprocess.run([program, *words], cwd=room, input=text, capture_output=True, text=True, check=False)

    for words in (["explain"], ["draw", "--svg"], ["shrink"]):
        if run(*words, "--writers", "many", name).returncode != status:
            return f"{words[0]} has another status than {status}"
    counts = run("stats", "--writers", "many", name)
    if counts.returncode != (3 if status == 3 else 0) or status < 3 and f"updates {updates}\n" not in counts.stdout:
        return "stats counts otherwise"
    witness = run("shrink", "--writers", "many", name).stdout
    if status in (1, 2) and (run("check", text=witness).returncode != status or witness.count("\n") > 9):
        return "the witness does not show the fault"
    return None


def followed(program, records, status):
    """What is wrong with the windows of a history that is followed, or None, and how many windows there are."""
    text = "\n".join([HEADER, *records, ""])
    run = subprocess.run([program, "check", "--follow", "--writers", "many", "--window", "1", "-"], input=text, capture_output=True, text=True, check=False)
    windows = sum(line.startswith("window ") for line in run.stdout.splitlines())
    return None if run.returncode == status else f"followed with status {run.returncode}, and not {status}", windows


def kinds_of(report, calls, out_of_order):
    """What a report says of a history, and whether the history is atomic by falling numbers alone."""
    yield report[3] if len(report) > 3 else report[0].rpartition(" ")[2] if report else "nothing"
    if not out_of_order and is_atomic(calls, False) and not is_atomic(calls):
        yield "atomic by falling numbers alone"


def main(program, count=HISTORIES, seed=SEED):
    rng = random.Random(seed)
    failed, judged, found = 0, 0, collections.Counter()
    with tempfile.TemporaryDirectory() as room:
        while judged < count:
            histories = [history(rng) for _ in range(min(BATCH, count - judged))]
            reports = reports_of(program, room, [records for records, _, _ in histories])
            for (name, report), (records, calls, out_of_order) in zip(reports, histories):
                wrong = fault(report, calls, out_of_order)
                if not wrong and judged < FOLLOWED:
                    status = 3 if out_of_order else 0 if is_atomic(calls) else 1 if is_regular(calls) else 2
                    wrong, windows = followed(program, records, status)
                    found[f"followed in windows with status {status}"] += windows > 1
                if not wrong and judged < ASKED:
                    wrong = asked(program, room, name, status, sum(it["update"] is not None for it in calls))
                judged += 1
                found.update(kinds_of(report, calls, out_of_order))
                if wrong:
                    failed += 1
                    print(f"{name}: {wrong}\n" + "\n".join([*records, *report]))
    # a comparison of histories of one kind would show little, and so would one without falling numbers
    in_windows = [f"followed in windows with status {status}" for status in range(4)]
    for kind in ("atomic yes", "atomic no", "order", "atomic by falling numbers alone", *in_windows):
        if found[kind] < 20:
            failed += 1
            print(f"too few histories are {kind}: {found[kind]}")
    print(f"{judged - failed} passed, {failed} failed")
    return failed > 0


if __name__ == "__main__":
    if not 2 <= len(sys.argv) <= 4:
        sys.exit(__doc__)
    sys.exit(main(os.path.abspath(sys.argv[1]), *map(int, sys.argv[2:])))
