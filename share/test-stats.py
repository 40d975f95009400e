#!/usr/bin/env python3
"""Compares `snapjudge stats` with counts made here by their definitions, on random texts. The last line is 'N passed, M failed'.

usage: test-stats.py [PROGRAM]      the program is ./snapjudge by default

The texts are those of test-judge.py, by another seed. Each is counted as lines and as an object. Wrong counts must be found by the
same texts.
"""
import importlib.util
import json
import pathlib
import random
import subprocess
import sys

TOP = pathlib.Path(__file__).resolve().parent.parent
SEED, TEXTS = 70, 600
# At least this many texts have a warning, and this many have none, or the texts say too little.
LEAST = 10
NOTHING = ("nothing overlapped", "no view overlapped an update")
WARNING = ": this run shows nothing of concurrency"


def module_at(path):
    """The module of a file, whatever its name."""
    spec = importlib.util.spec_from_file_location(path.stem, path)
    module = importlib.util.module_from_spec(spec)
    sys.modules[path.stem] = module
    spec.loader.exec_module(module)
    return module


reader = module_at(TOP / "examples" / "reader.py")
judge = module_at(TOP / "examples" / "judge.py")
texts_of = module_at(TOP / "share" / "test-judge.py").texts_of


def overlaps(a, b):
    return not judge.precedes(a, b) and not judge.precedes(b, a)


def updates(history):
    return history.updates.values()


def count(is_so, calls):
    return sum(map(bool, map(is_so, calls)))


def meets_update(view, history):
    return any(overlaps(view, update) for update in updates(history))


def meets_view(view, history):
    return any(overlaps(view, other) for other in history.views if other is not view)


def event_count(history):
    return len(history.calls) + count(lambda call: call.end, history.calls)


def open_after(place, history):
    """How many calls are open once the event at a place has happened."""
    return count(lambda call: call.begin <= place and not (call.end and call.end <= place), history.calls)


# Of each count its line, its key in the object, its definition, and a wrong one.
COUNTS = (
    ("events", "events", event_count, lambda history: 2 * len(history.calls)),
    ("calls", "calls", lambda history: len(history.calls), event_count),
    ("pending", "pending", lambda history: count(lambda call: not call.end, history.calls), lambda history: 0),
    ("views", "views", lambda history: len(history.views), lambda history: count(lambda call: call.op == "view", history.calls)),
    ("updates", "updates", lambda history: len(updates(history)), lambda history: count(lambda call: call.end, updates(history))),
    ("processes", "processes", lambda history: len({call.process for call in history.calls}),
     lambda history: len({call.process for call in updates(history)})),
    ("components", "components", lambda history: len({k for k, _ in history.updates}), lambda history: len(history.components)),
    ("views that overlap an update", "overlap_update", lambda history: count(lambda view: meets_update(view, history), history.views),
     lambda history: count(lambda view: any(call.end and overlaps(view, call) for call in updates(history)), history.views)),
    ("views that overlap another view", "overlap_view", lambda history: count(lambda view: meets_view(view, history), history.views),
     lambda history: count(lambda view: any(overlaps(view, other) for other in history.views), history.views)),
    ("views that overlap nothing", "overlap_nothing",
     lambda history: count(lambda view: not meets_update(view, history) and not meets_view(view, history), history.views),
     lambda history: count(lambda view: not meets_update(view, history), history.views)),
    ("updates that no view shows", "unshown",
     lambda history: count(lambda at: not any(view.shows(at[0]) == at[1] for view in history.views), history.updates),
     lambda history: count(lambda at: not any(view.shows(at[0]) >= at[1] for view in history.views), history.updates)),
    ("most calls open at once", "most_open",
     lambda history: max((open_after(place, history) for place in range(1, event_count(history) + 1)), default=0),
     lambda history: len({call.process for call in history.calls})),
    ("events of the longest call", "longest",
     lambda history: max((call.end - call.begin + 1 for call in history.calls if call.end), default=0),
     lambda history: max(((call.end or event_count(history)) - call.begin + 1 for call in history.calls), default=0)),
)


def components_of(history):
    """Of each component that has an update its writer, its updates, and the views that show it."""
    for k in sorted({k for k, _ in history.updates}):
        yield {"component": k, "writer": int(history.updates[k, 1].process), "updates": count(lambda at: at[0] == k, history.updates),
               "views": count(lambda view: view.shows(k), history.views)}


def lines_of(history):
    for line, _, counted, _ in COUNTS:
        yield f"{line} {counted(history)}"
    for found in components_of(history):
        yield " ".join(f"{key} {number}" for key, number in found.items())
    numbers = {key: counted(history) for _, key, counted, _ in COUNTS}
    if not numbers["overlap_update"]:
        yield NOTHING[numbers["most_open"] > 1] + WARNING


def object_of(name, history):
    said = {"name": name, "status": 0}
    said.update((key, counted(history)) for _, key, counted, _ in COUNTS)
    return {**said, "shows_concurrency": said["overlap_update"] > 0, "by_component": list(components_of(history))}


def ran(program, text, *words):
    made = subprocess.run([program, "stats", *words], input=text, capture_output=True, check=False)
    return made.returncode, made.stdout.decode()


class Tally:
    """What passed and what failed."""

    def __init__(self):
        self.passed, self.failed = 0, 0

    def same(self, said, wanted, what):
        self.passed += said == wanted
        self.failed += said != wanted
        if said != wanted:
            print(f"failed: {what}: {said!r} in place of {wanted!r}")


def try_text(tally, program, text):
    """Compares what is said of a text; its history is returned, if it is one."""
    plain, told = ran(program, text), ran(program, text, "--format", "json")
    try:
        history = judge.History(reader.events_of(text))
    except reader.Refused as refused:
        record, fault = str(refused).removeprefix("refused record ").split(": ")
        wanted = {"name": "-", "status": 3, "refused": {"record": int(record), "fault": fault}}
        tally.same(plain, (3, f"{refused}\n"), f"lines of {text!r}")
        tally.same((told[0], list(json.loads(told[1]).items())), (3, list(wanted.items())), f"the object of {text!r}")
        return None
    tally.same(plain, (0, "".join(f"{line}\n" for line in lines_of(history))), f"lines of {text!r}")
    tally.same((told[0], list(json.loads(told[1]).items())), (0, list(object_of("-", history).items())), f"the object of {text!r}")
    return history


def main(words):
    tally, program = Tally(), str(pathlib.Path(words[0] if words else TOP / "snapjudge").resolve())
    found = [try_text(tally, program, text) for text in texts_of(random.Random(SEED), TEXTS)]
    histories = [history for history in found if history]
    for what, _, counted, wrong in COUNTS:
        tally.same(any(counted(history) != wrong(history) for history in histories), True, f"a wrong count is found, of {what}")
    ends = [list(lines_of(history))[-1] for history in histories]
    for front in NOTHING:
        tally.same(ends.count(front + WARNING) >= LEAST, True, f"texts with {front}")
    tally.same(sum(WARNING not in end for end in ends) >= LEAST, True, "texts without a warning")
    tally.same(len(found) - len(histories) >= LEAST, True, "texts that are refused")
    print(f"{tally.passed} passed, {tally.failed} failed")
    return 1 if tally.failed else 0


if __name__ == "__main__":
    sys.exit(main(sys.argv[1:]))
