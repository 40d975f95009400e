"""A judge that is not proved: it writes the report of `snapjudge check` by the definitions of docs/FORMAT.md, so that people can read them.

usage: judge.py [FILE]      needs Python 3.8 and reader.py beside it; its time grows with the square of the views, times the components
"""
from reader import events_of, run

class Call:
    """A call. Its begin and its end are places among the events, counted from 1; a pending call has no end."""
    def __init__(self, number, process, op, begin):
        self.number, self.process, self.op, self.begin, self.end = number, process, op, begin, None
        self.entries = {}  # what it writes or shows: of each component the number and the value

    def shows(self, component):
        """The number of the update that a view shows; 0 is the initial state."""
        return self.entries.get(component, (0, 0))[0]

    def __str__(self):
        return " ".join([f"{self.number} p{self.process} {self.op}"] + [f"{k}:{n}:{v}" for k, (n, v) in self.entries.items()])

def precedes(first, second):
    """Whether a call ends before another begins; no call precedes or follows one that is not there."""
    return bool(first and second and first.end and first.end < second.begin)

class History:
    def __init__(self, events):
        self.calls, opened = [], {}
        for place, (event, process, op, data) in enumerate(events, 1):
            if event == "begin":
                opened[process] = Call(len(self.calls) + 1, process, op, place)
                self.calls.append(opened[process])
            else:
                opened[process].end = place
            for k, n, v in (entry.split(":") for entry in data.split()):
                opened[process].entries[int(k)] = (int(n), int(v))
        self.views = [call for call in self.calls if call.op == "view" and call.end]
        self.updates = {(k, n): call for call in self.calls if call.op == "update" for k, (n, v) in call.entries.items()}
        self.components = sorted({k for call in self.calls for k in call.entries})

# What is wrong with a view `a`, by the kinds of faults, in the order in which a report names it.
def integrity(a, history):
    for k, (n, v) in a.entries.items():
        if (k, n) not in history.updates or history.updates[k, n].entries[k] != (n, v):
            yield f"entry {k}:{n}:{v}"

def proximity(a, history):
    for k in history.components:
        if precedes(history.updates.get((k, a.shows(k) + 1)), a):
            yield f"entry {k}:{a.shows(k)} old"
        if precedes(a, history.updates.get((k, a.shows(k)))):
            yield f"entry {k}:{a.shows(k)} early"

def read(a, history):
    for b in history.views:
        more = [k for k in history.components if a.shows(k) > b.shows(k)]
        less = [k for k in history.components if a.shows(k) < b.shows(k)]
        if more and (less or precedes(a, b)):
            yield f"view {b.number} component {more[0]}"

def write(a, history):
    for j in history.components:
        for k in a.entries:
            if precedes(history.updates.get((j, a.shows(j) + 1)), history.updates.get((k, a.shows(k)))):
                yield f"misses {j}:{a.shows(j) + 1} shows {k}:{a.shows(k)}"

def is_monotone(history):
    return all(a.shows(k) <= b.shows(k) for a in history.views for b in history.views if precedes(a, b) for k in history.components)

def level(call, history):
    """How many views miss an update; or how many show less of some component than a view, and more of none."""
    if call.op == "update":
        return sum(view.shows(k) < n for view in history.views for k, (n, v) in call.entries.items())
    return sum(any(view.shows(k) < call.shows(k) for k in history.components)
               and all(view.shows(k) <= call.shows(k) for k in history.components) for view in history.views)

def order_of(history):
    """All completed calls, and the pending updates that a view shows: by their levels, updates before views, and then by number."""
    taken = [call for call in history.calls if call.end or any(view.entries.items() & call.entries.items() for view in history.views)]
    return sorted(taken, key=lambda call: (level(call, history), call.op, call.number))

def report_of(text):
    """The status of a text, and the lines of its report."""
    history = History(events_of(text))
    ended = sum(call.end is not None for call in history.calls)
    faults = {find.__name__: [f"view {a.number} {fault}" for a in history.views for fault in find(a, history)]
              for find in (integrity, proximity, read, write)}
    is_regular, is_atomic = not faults["integrity"] and not faults["proximity"], not any(faults.values())
    lines = [f"events {len(history.calls) + ended} calls {len(history.calls)} pending {len(history.calls) - ended} views {len(history.views)}"]
    for word, is_so in (("regular", is_regular), ("monotone", is_monotone(history)), ("atomic", is_atomic)):
        lines.append(f"{word} {'yes' if is_so else 'no'}")
    for kind, found in faults.items():
        lines += [f"{kind} {len(found)} first {found[0]}"] if found else []
    if is_atomic:
        lines += [f"order {len(order_of(history))}", *map(str, order_of(history))]
    return 0 if is_atomic else 1 if is_regular else 2, lines

if __name__ == "__main__":
    run(report_of)
