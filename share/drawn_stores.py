"""Random texts of small stores, whose updates overlap in any way and have versions.

A store is a list of calls, of which each takes effect at some moment. The versions of a component rise by these moments. Most of them lie
between the begin and the end of the call; others make versions contradict time. Views show what the store had at one moment, or of each
component at the begin or at the end, and at times something else. Some texts break a rule. Their records have stamps with gaps, in half of
the texts in any order.
"""
from small_histories import COMPONENTS, NEVER, PROCESSES


def drawn_calls(rng):
    """Calls of some processes, and how many events they have: each has the moment of its effect, and an update has its component. In some
    stores a process ends no call. Most other calls end."""
    calls, open_calls, events = [], {}, 0
    stuck = rng.randrange(PROCESSES) if rng.random() < 0.4 else None
    length = rng.randint(4, 18)
    while events < length or rng.random() < 0.8:
        process = rng.randrange(PROCESSES)
        if process in open_calls:
            if process == stuck:
                continue
            open_calls.pop(process)["ended"] = events
        elif events < length:
            component = rng.randrange(COMPONENTS) if rng.random() < 0.6 else None
            open_calls[process] = {"process": process, "begun": events, "ended": NEVER, "component": component}
            calls.append(open_calls[process])
        else:
            continue
        events += 1
    strays = rng.choice([0, 0, 0.2, 0.4])
    for call in calls:
        call["moment"] = rng.uniform(call["begun"], min(call["ended"], call["begun"] + 8))
        if rng.random() < strays:
            call["moment"] += rng.uniform(-6, 6)
    return calls, events


def versioned(rng, calls):
    """The updates of each component in the order of their versions: their moments, with their entries."""
    updates = [[] for _ in range(COMPONENTS)]
    for call in sorted((it for it in calls if it["component"] is not None), key=lambda it: it["moment"]):
        before = updates[call["component"]]
        version = (before[-1][1][1] if before else 0) + rng.choice([1, 1, 2, 7])
        call["entry"] = (call["component"], version, rng.randrange(100))
        before.append((call["moment"], call["entry"]))
    return updates


def seen(rng, call, updates, is_collect, wrong):
    """The entries that a view shows: of each component what it had at the view's moment, or if it collects, at its begin or at its end."""
    entries = []
    for component, written in enumerate(updates):
        moment = rng.choice([call["begun"], call["ended"]]) if is_collect else call["moment"]
        entry = next((it for at, it in reversed(written) if at <= moment), None)
        if rng.random() < wrong:
            unknown = (component, rng.randint(1, 30), rng.randrange(100))
            entry = rng.choice([unknown, None, *(it for _, it in written), entry and (*entry[:2], entry[2] + 1)])
        entries += [entry] if entry else []
    return entries


def drawn_events(rng):
    """The events of a store: whether it is a begin or an end, its process, what it does, and its entries."""
    calls, events = drawn_calls(rng)
    updates = versioned(rng, calls)
    is_collect, wrong = rng.random() < 0.7, rng.choice([0, 0, 0.1, 0.3])
    found = {}
    for call in calls:
        op = "view" if call["component"] is None else "update"
        found[call["begun"]] = ("begin", call["process"], op, [call["entry"]] if op == "update" else [])
        shown = seen(rng, call, updates, is_collect, wrong) if op == "view" and call["ended"] < NEVER else []
        found[call["ended"]] = ("end", call["process"], op, shown)
    return [found[at] for at in range(events)]


def spoil(rng, events):
    """Changes an event, so that the events may break a rule."""
    place = rng.randrange(len(events))
    event, process, op, _ = events[place]
    entries = [it[3][0] for it in events if it[0] == "begin" and it[2] == "update"]
    change = rng.randrange(4)
    if change == 0:
        del events[place]
    elif change == 1:
        events.insert(rng.randrange(len(events) + 1), events[place])
    elif event == "end":
        events[place] = ("end", process, "view" if op == "update" else "update", [])
    elif op == "update":
        events[place] = ("begin", process, op, [rng.choice(entries)])


def drawn_store(rng):
    """The events of a store, or of a text that may break a rule."""
    events = drawn_events(rng)
    if rng.random() < 0.15:
        spoil(rng, events)
    return events


def stamped(rng, events):
    """The records of events with rising stamps, in half of the texts in any order, and the record of each event in the text."""
    records, stamp = [], rng.randrange(3)
    for place, (event, process, op, entries) in enumerate(events):
        records.append((place, f"{stamp},{event},{process},{op},{' '.join('%d:%d:%d' % it for it in entries)}"))
        stamp += rng.choice([1, 1, 2, 50])
    if rng.random() < 0.5:
        rng.shuffle(records)
    return [record for _, record in records], {place: record for record, (place, _) in enumerate(records, 2)}
