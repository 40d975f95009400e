#!/usr/bin/env python3
"""Writes a history of a kind to standard output, the same for the same seed.

usage: generate.py KIND EVENTS COMPONENTS [SEED]

atomic       calls that take effect at one moment between begin and end; a view lists every component that was written
pending      the same, but the last calls have no end, and an update that never ends takes effect half way
overlapping  updates that stay open while thousands of views begin and end, each of which shows any of them: regular, with many read faults
toggling     the same, but the first component is shown by every second view, the second by every second pair of views, and so on
late         the same, but only the last eighth of the views disagree with each other
stale        views in groups of 512, where every second group shows what the board was two groups before
writes       views that stay open while updates follow one another, and show a later one without an earlier one: many write faults
random       calls of which each view shows any numbers: faults of all kinds
newlines     EVENTS newlines and nothing else (COMPONENTS is not used)
"""
import asked  # answers --help
import random
import sys


def entries(numbers):
    return " ".join(f"{k}:{n}:{n * 3 + k}" for k, n in enumerate(numbers) if n)


def update(numbers, k):
    return f"{k}:{numbers[k]}:{numbers[k] * 3 + k}"


def atomic(events, components, draw, ends_all=True):
    processes = 8
    board, begun = [0] * components, [0] * components
    state = [None] * processes
    rows = []
    if not ends_all:
        begun[0] += 1
        rows.append(f"begin,{processes},update,{update(begun, 0)}")
    while True:
        if not ends_all and not board[0] and len(rows) >= events // 2:
            board[0] = 1
        is_open = [p for p in range(processes) if state[p]]
        room = events - len(rows) - (len(is_open) if ends_all else 0)
        if room < (2 if ends_all else 1):
            break
        p = draw.randrange(processes)
        if state[p] is None:
            owned = [k for k in range(p, components, processes) if ends_all or k]
            if len(owned) and draw.random() < 0.5:
                k = draw.choice(owned)
                begun[k] += 1
                rows.append(f"begin,{p},update,{update(begun, k)}")
                state[p] = ["update", k, False]
            else:
                rows.append(f"begin,{p},view,")
                state[p] = ["view", None, False]
        else:
            rows += step(state, p, board)
    if ends_all:
        for p in range(processes):
            while state[p]:
                rows += step(state, p, board)
    return rows


def step(state, p, board):
    """The moment at which a call takes effect, and then its end."""
    kind, what, is_done = state[p]
    if not is_done:
        if kind == "update":
            board[what] += 1
        else:
            state[p][1] = entries(board)
        state[p][2] = True
        return []
    state[p] = None
    return [f"end,{p},{kind},{'' if kind == 'update' else what}"]


def crossed(events, components, shown_by):
    """Updates that stay open while views begin and end; `shown_by` says which of them the i-th of n views shows."""
    rows = [f"begin,{k},update,{k}:1:{3 + k}" for k in range(components)]
    views = (events - 2 * components) // 2
    for i in range(views):
        p = components + i % 64
        rows.append(f"begin,{p},view,")
        rows.append(f"end,{p},view,{entries(shown_by(i, views))}")
    return rows + [f"end,{k},update," for k in range(components)]


def overlapping(events, components, draw, from_share=0):
    return crossed(events, components, lambda i, views: [draw.randrange(2) if i >= views * from_share else 0 for _ in range(components)])


def toggling(events, components):
    return crossed(events, components, lambda i, views: [i >> min(k, 12) & 1 for k in range(components)])


def stale(events, components, draw):
    board, boards, rows = [0] * components, [[0] * components] * 2, []
    while len(rows) + 2 * (512 + components) <= events:
        for k in range(components):
            board[k] += 1
            rows += [f"begin,{k},update,{update(board, k)}", f"end,{k},update,"]
        boards.append(board[:])
        shown = boards[-3] if len(boards) % 2 else board
        for i in range(512):
            rows += [f"begin,{components + i % 8},view,", f"end,{components + i % 8},view,{entries(shown)}"]
    return rows


def writes(events, components, draw):
    rounds = max(1, events // 4 // components)
    views = (events - 2 * components * rounds) // 2
    rows = [f"begin,{components + i},view," for i in range(views)]
    numbers = [0] * components
    for _ in range(rounds):
        for k in range(components):
            numbers[k] += 1
            rows += [f"begin,{k},update,{update(numbers, k)}", f"end,{k},update,"]
    for i in range(views):
        rows.append(f"end,{components + i},view,{entries([draw.randrange(rounds + 1) for _ in range(components)])}")
    return rows


def any_numbers(events, components, draw):
    numbers, rows = [0] * components, []
    while len(rows) + 2 <= events:
        k = draw.randrange(components)
        if draw.random() < 0.5:
            numbers[k] += 1
            rows += [f"begin,{k},update,{update(numbers, k)}", f"end,{k},update,"]
        else:
            rows += [f"begin,{components + k % 8},view,", f"end,{components + k % 8},view,{entries([draw.randrange(n + 2) for n in numbers])}"]
    return rows


def main():
    kind, events, components = sys.argv[1], int(sys.argv[2]), int(sys.argv[3])
    draw = random.Random(int(sys.argv[4]) if len(sys.argv) > 4 else 1)
    if kind == "newlines":
        sys.stdout.write("\n" * events)
        return
    rows = {
        "atomic": lambda: atomic(events, components, draw),
        "pending": lambda: atomic(events, components, draw, ends_all=False),
        "overlapping": lambda: overlapping(events, components, draw),
        "toggling": lambda: toggling(events, components),
        "late": lambda: overlapping(events, components, draw, 7 / 8),
        "stale": lambda: stale(events, components, draw),
        "writes": lambda: writes(events, components, draw),
        "random": lambda: any_numbers(events, components, draw),
    }[kind]()
    sys.stdout.write("event,process,op,data\n")
    for row in rows:
        sys.stdout.write(row + "\n")


if __name__ == "__main__":
    main()
