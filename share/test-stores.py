#!/usr/bin/env python3
"""Compares `check --cut` with a judge that tries all orders, on small stores whose updates overlap in any way and have versions.

usage: test-stores.py PROGRAM [STORES [SEED]]

The judge here knows the definitions alone: it goes through all orders of the store's own calls, with their own versions. The cut is made
here too, for what is said of the cut history. The program must say the same of the store and of that history with `--writers many`. The
order that it prints must be an order of the store's own calls. A contradiction must be one by definition. Some stores are also explained.
There are 3,000 stores, or as many as are asked for.
"""
import collections
import itertools
import os
import random
import subprocess
import sys
import tempfile

from drawn_stores import drawn_store, stamped
from small_histories import COMPONENTS, HEADER, NEVER, is_atomic, is_legal, is_monotone, is_regular, reports_of

STORES, ASKED, BATCH, LEAST = 3000, 120, 3000, 20
SEED = 20261202
NAME = "store.text"
# What must come up often enough: reports, faults, words of refusals, and what the cut does.
KINDS = (
    *("atomic", "regular, and not atomic", "not regular", "contradiction", "busy", "idle", "otherop", "number"),
    *("monotone no", "integrity", "proximity", "read", "write"),
    *("atomic by the cut alone", "update left out", "update ended by the cut alone"),
)


def refused(events):
    """The place of the first event that none of a store may have, with the word of its fault, or None."""
    open_calls, versions = {}, set()
    for place, (event, process, op, entries) in enumerate(events):
        if event == "begin" and process in open_calls:
            return place, "busy"
        if event == "end" and process not in open_calls:
            return place, "idle"
        if event == "end" and open_calls.pop(process) != op:
            return place, "otherop"
        if event == "begin":
            open_calls[process] = op
        if event == "begin" and op == "update":
            if entries[0][:2] in versions:
                return place, "number"
            versions.add(entries[0][:2])
    return None


def calls_of(events):
    calls, open_calls = [], {}
    for at, (event, process, op, entries) in enumerate(events):
        if event == "begin":
            call = {"process": process, "begun": at, "ended": NEVER, "update": entries[0] if entries else None, "shown": None}
            open_calls[process] = call
            calls.append(call)
        else:
            call = open_calls.pop(process)
            call["ended"] = at
            if op == "view":
                call["shown"] = {component: (number, value) for component, number, value in entries}
    return calls


def updates_of(calls, component):
    return [it for it in calls if it["update"] and it["update"][0] == component]


def contradictions(calls):
    """Each two updates of a component of which the one with the higher version ended before the one with the lower version began."""
    for component in range(COMPONENTS):
        for higher, lower in itertools.permutations(updates_of(calls, component), 2):
            if higher["update"][1] > lower["update"][1] and higher["ended"] < lower["begun"]:
                yield higher, lower


def kept_calls(calls):
    """All calls but the updates without an end whose version no view shows."""
    shown = {(component, it["shown"][component][0]) for it in calls if it["shown"] for component in it["shown"]}
    return [it for it in calls if not it["update"] or it["ended"] < NEVER or it["update"][:2] in shown]


def numbered_calls(calls):
    """The calls with the ranks of their versions, from 1, as numbers. A version that no update has gets the number after the last one."""
    versions = [sorted(it["update"][1] for it in updates_of(calls, component)) for component in range(COMPONENTS)]

    def rank(component, version):
        known = versions[component]
        return known.index(version) + 1 if version in known else len(known) + 1

    for call in calls:
        update, shown = call["update"], call["shown"]
        if update:
            update = (update[0], rank(*update[:2]), update[2])
        if shown:
            shown = {component: (rank(component, shown[component][0]), shown[component][1]) for component in shown}
        yield {**call, "update": update, "shown": shown, "own": call}


def cut_calls(calls):
    """The calls in the order of their begins, each update cut to what the order of versions allows."""
    cut = []
    for call in calls:
        if call["update"]:
            component, number, _ = call["update"]
            updates = updates_of(calls, component)
            begun = max(it["begun"] for it in updates if it["update"][1] <= number)
            call = {**call, "begun": begun, "ended": min(it["ended"] for it in updates if it["update"][1] >= number)}
        cut.append(call)
    return sorted(cut, key=lambda it: (it["begun"], it["update"] or ()))


def entries_of(call):
    return [call["update"]] if call["update"] else [(component, *entry) for component, entry in sorted((call["shown"] or {}).items())]


def told(call):
    """What a call does, as a report says it."""
    return " ".join(["update" if call["update"] else "view", *("%d:%d:%d" % it for it in entries_of(call))])


def records_of(calls):
    """The records of calls without stamps: their begins and ends, of those at one moment the lower number first."""
    moments = []
    for call in calls:
        op, _, entries = told(call).partition(" ")
        of_begin, of_end = (entries, "") if call["update"] else ("", entries)
        number = call["update"][1] if call["update"] else 0
        moments.append((call["begun"], number, f"begin,{call['process']},{op},{of_begin}"))
        moments.append((call["ended"], number, f"end,{call['process']},{op},{of_end}"))
    return [record for moment, _, record in sorted(moments) if moment < NEVER]


class Store:
    """A text of a store, and what must be said of it. `alone` is the one line of a text that is refused, or whose versions contradict
    time; then there is no cut history."""

    def __init__(self, rng):
        events = drawn_store(rng)
        self.records, self.places = stamped(rng, events)
        self.calls, self.numbered, self.cut, self.pairs, self.alone = [], [], [], [], None
        fault = refused(events)
        if fault:
            self.alone, self.status = f"refused record {self.places[fault[0]]}: {fault[1]}", 3
            return
        self.calls = calls_of(events)
        kept = kept_calls(self.calls)
        self.pairs = [self.contradiction(higher["ended"], lower["begun"]) for higher, lower in contradictions(kept)]
        self.is_atomic = is_atomic(self.calls)
        numbered = list(numbered_calls(kept))
        cut = cut_calls(numbered)
        empty = sorted((it for it in cut if it["ended"] < it["begun"]), key=lambda it: it["update"])
        if empty:
            self.alone, self.status = self.contradiction(empty[0]["ended"], empty[0]["begun"]), 2
            return
        self.numbered, self.cut = numbered, cut
        self.status = 0 if self.is_atomic else 1 if is_regular(cut) else 2

    def contradiction(self, ended, begun):
        return f"contradiction ended record {self.places[ended]} begun record {self.places[begun]}"

    def head(self):
        """The first lines of the report of the cut history."""
        ended = [it for it in self.cut if it["ended"] < NEVER]
        views = sum(it["update"] is None for it in ended)
        yield f"events {len(self.cut) + len(ended)} calls {len(self.cut)} pending {len(self.cut) - len(ended)} views {views}"
        for word, is_so in ("regular", is_regular(self.cut)), ("monotone", is_monotone(self.cut)), ("atomic", self.is_atomic):
            yield f"{word} {'yes' if is_so else 'no'}"

    def in_order(self):
        """The line of each call in the printed order, and the store's own call."""
        for number, call in enumerate(self.cut, 1):
            yield f"{number} p{call['process']} {told(call)}", call["own"]

    def in_explanation(self):
        """The line of each call in an explanation: it names the records of the text."""
        for number, call in enumerate(self.cut, 1):
            begun, ended = (self.places.get(call["own"][end]) for end in ("begun", "ended"))
            records = f"record {begun}, pending" if call["ended"] == NEVER else f"records {begun} and {ended or begun}"
            yield f"  call {number} of process {call['process']}, {records}: {told(call)}"

    def kinds(self, report, uncut):
        """What comes up in a report, and in that of the same numbers without the cut."""
        if self.alone:
            yield self.alone.rpartition(" ")[2] if self.status == 3 else "contradiction"
            return
        yield ("atomic", "regular, and not atomic", "not regular")[self.status]
        yield from (line for line in report if line == "monotone no")
        if not self.is_atomic:
            yield from (line.split()[0] for line in report[4:])
        elif uncut and uncut[0].endswith((": number", ": order")):
            yield "atomic by the cut alone"
        if len(self.cut) < len(self.calls):
            yield "update left out"
        if any(it["ended"] < NEVER and it["own"]["ended"] == NEVER for it in self.cut):
            yield "update ended by the cut alone"


def fault_of(status, report, store):
    """What is wrong with the status and the report of a store, or None."""
    if store.pairs and store.is_atomic:
        return "an order of all calls keeps versions that contradict time"
    if report and report[0].startswith("contradiction") and report[0] not in store.pairs:
        return f"no such contradiction; there are {store.pairs}"
    if store.pairs and report[:1] and report[0] not in store.pairs:
        return f"none of the contradictions {store.pairs}"
    if store.alone:
        return None if (status, report) == (store.status, [store.alone]) else f"not the line {store.alone!r} with status {store.status}"
    if report[:4] != list(store.head()):
        return f"not {list(store.head())}"
    if status != store.status:
        return f"not status {store.status}"
    if not store.is_atomic:
        return None if len(report) > 4 else "no line of a fault"
    lines = dict(store.in_order())
    unknown = [line for line in report[5:] if line not in lines]
    if unknown:
        return f"no call of the cut history: {unknown[0]!r}"
    order = [lines[line] for line in report[5:]]
    return None if is_legal(order, store.calls) and report[4] == f"order {len(order)}" else "an order that is not legal for the store"


def explanation_fault(status, lines, report, store):
    """What is wrong with an explanation, or None."""
    if status != store.status:
        return f"explain has status {status}, and not {store.status}"
    if store.alone:
        return None if lines == [store.alone] else f"explain does not write just {store.alone!r}"
    named, known = [line for line in lines if line.startswith("  call ")], set(store.in_explanation())
    unknown = [line for line in named if line not in known]
    if unknown:
        return f"explain names records that are not those of such a call: {unknown[0]!r}"
    return None if named and not store.is_atomic or len(named) == len(report[5:]) else "explain leaves out calls"


def answer(program, room, command):
    """The status, the lines and what is said on standard error."""
    run = subprocess.run([program, command, "--cut", NAME], cwd=room, capture_output=True, encoding="utf-8", errors="replace", check=False)
    return run.returncode, run.stdout.splitlines(), run.stderr


def judge(program, room, store, of_cut, is_asked):
    """The report of a store, and what is wrong with it, or None."""
    with open(os.path.join(room, NAME), "w", encoding="ascii") as out:
        out.write("\n".join([f"at,{HEADER}", *store.records, ""]))
    status, report, said = answer(program, room, "check")
    wrong = fault_of(status, report, store)
    if not wrong and not store.alone and report != of_cut:
        wrong = "\n".join(["not the report of the cut history:", *records_of(store.cut), *of_cut])
    if not wrong and is_asked:
        asked, lines, said = answer(program, room, "explain")
        wrong = explanation_fault(asked, lines, report, store)
        wrong = wrong and "\n".join([wrong, *lines])
    return report, wrong and f"{wrong}\n{said}status {status} of"


def main(program, count=STORES, seed=SEED):
    rng = random.Random(seed)
    failed, judged, found = 0, 0, collections.Counter()
    with tempfile.TemporaryDirectory() as room:
        while judged < count:
            stores = [Store(rng) for _ in range(min(BATCH, count - judged))]
            of_cuts = reports_of(program, room, [records_of(store.cut) for store in stores])
            of_uncut = reports_of(program, room, [records_of(store.numbered) for store in stores])
            for store, (_, of_cut), (_, uncut) in zip(stores, of_cuts, of_uncut):
                report, wrong = judge(program, room, store, of_cut, judged < ASKED)
                judged += 1
                found.update(set(store.kinds(report, uncut)))
                if wrong:
                    failed += 1
                    print("\n".join([f"store {judged} of seed {seed}: {wrong}", f"at,{HEADER}", *store.records, *report]))
    # a comparison of stores of one kind would show little
    for kind in KINDS:
        if found[kind] < LEAST:
            failed += 1
            print(f"too few stores are of the kind {kind!r}: {found[kind]}")
    print(f"{judged - failed} passed, {failed} failed")
    return failed > 0


if __name__ == "__main__":
    if not 2 <= len(sys.argv) <= 4:
        sys.exit(__doc__)
    sys.exit(main(os.path.abspath(sys.argv[1]), *map(int, sys.argv[2:])))
