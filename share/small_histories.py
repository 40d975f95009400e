"""Small histories whose components have many writers, judged by the definitions alone: all orders of the calls are tried.

A call is a dictionary: its process, the places where it has begun and ended, the entry of an update, and what a view shows. An entry is a
component, a number and a value. The numbers may have gaps.
"""
import itertools
import os
import subprocess

COMPONENTS, PROCESSES, NEVER = 2, 4, 1 << 30
HEADER = "event,process,op,data"


def explains(order, rises=True):
    """Whether each view shows the last updates before it, and the numbers of each component rise, if they must."""
    last = {}
    for call in order:
        if call["update"]:
            component, number, value = call["update"]
            if rises and number <= last.get(component, (0, 0))[0]:
                return False
            last[component] = (number, value)
        elif call["shown"] != last:
            return False
    return True


def keeps_precedence(order):
    return not any(late["ended"] < early["begun"] for early, late in itertools.combinations(order, 2))


def is_legal(order, calls):
    """Whether an order of all completed calls and some pending updates keeps precedence and explains the views."""
    return all(it in order for it in calls if it["ended"] < NEVER) and keeps_precedence(order) and explains(order)


def is_atomic(calls, rises=True):
    """Whether there is such an order: all are tried, call by call. The numbers of a component may fall in it, if they need not rise."""
    pending = [it for it in calls if it["ended"] == NEVER and it["update"]]
    done = [it for it in calls if it["ended"] < NEVER]

    def goes_on(order, left):
        if not explains(order, rises):
            return False
        return not left or any(
            goes_on([*order, it], [other for other in left if other is not it])
            for it in left
            if not any(other["ended"] < it["begun"] for other in left)
        )

    return any(goes_on([], [*done, *some]) for size in range(len(pending) + 1) for some in itertools.combinations(pending, size))


def is_regular(calls):
    """Whether each view shows of each component neither an older update than the last that precedes it, nor one begun after it."""
    updates = [it for it in calls if it["update"]]
    for view in calls:
        if view["shown"] is None:
            continue
        for component in range(COMPONENTS):
            number, value = view["shown"].get(component, (0, 0))
            if number and not any(it["update"] == (component, number, value) and it["begun"] < view["ended"] for it in updates):
                return False
            if any(it["update"][0] == component and it["update"][1] > number and it["ended"] < view["begun"] for it in updates):
                return False
    return True


def is_monotone(calls):
    views = [it for it in calls if it["shown"] is not None]
    return not any(
        early["ended"] < late["begun"] and early["shown"].get(component, (0, 0))[0] > late["shown"].get(component, (0, 0))[0]
        for early in views
        for late in views
        for component in range(COMPONENTS)
    )


def reports_of(program, room, histories):
    """What `check --writers many` says of each history, which is a list of records: its file in the room, and the lines."""
    names = [f"{place}.csv" for place in range(len(histories))]
    for name, records in zip(names, histories):
        with open(os.path.join(room, name), "w", encoding="ascii") as out:
            out.write("\n".join([HEADER, *records, ""]))
    run = subprocess.run([program, "check", "--writers", "many", *names], cwd=room, capture_output=True, text=True, check=False)
    reports = {name: [] for name in names}
    for line in run.stdout.splitlines():
        name, _, rest = line.partition(": ")
        reports[name].append(rest)
    return reports.items()
