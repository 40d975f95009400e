"""The published snapshot of 1993, and two wrong forms of it. usage: published.py PROGRAM FOLDER [RUNS]

A scan collects until two collects are equal, or until a writer has moved twice: then it borrows the scan that this writer put
beside its value. One thread takes the steps of all workers, and a seed says whose step is next: each run can be made again.
"""
import random

from harness import CALLS, WORKERS, Recorder, tabulate

RIGHT, EARLY, OLD = "right", "borrows at the first move", "embeds an old scan"
TURNS, CHOICE = "in turn", "by choice"
WAYS = {f"{form}; calls {order}": (form, order) for form in (RIGHT, EARLY, OLD) for order in (TURNS, CHOICE)}


def scan(form, words):
    moves, before = [0] * WORKERS, None
    while True:
        after = []
        for k in range(WORKERS):
            after.append(words[k])
            yield  # a step ends here
        if before == after:
            return [value for value, _ in after]
        for k in range(WORKERS if before else 0):
            moves[k] += before[k] != after[k]
            if moves[k] == (1 if form == EARLY else 2):
                return after[k][1]
        before = after


def work(form, order, words, log, choice):
    shown = [0] * WORKERS
    for i in range(CALLS):
        if choice.random() < 0.5 if order == CHOICE else i % 2:
            log.begin_view()
            shown = yield from scan(form, words)
            log.end_view_values(shown)
        else:
            value = (log.thread + 1) * 1000000 + i  # each value once
            log.begin_update(log.thread, value)
            words[log.thread] = value, shown if form == OLD else (yield from scan(form, words))
            log.end_update()
        yield


def history(way, seed):
    recorder, choice, words, now = Recorder(WORKERS, WORKERS, CALLS), random.Random(seed), [(0, [0] * WORKERS)] * WORKERS, 0
    wakes = {work(*WAYS[way], words, log, choice): 0 for log in recorder.logs}  # from when on each worker may go on
    while wakes:
        now = max(now + 1, min(wakes.values()))
        awake = [worker for worker, wake in wakes.items() if wake <= now]
        if next(worker := awake[int(choice.random() * len(awake))], "ended") == "ended":
            del wakes[worker]
        elif choice.random() < 0.02:
            wakes[worker] = now + int(choice.random() * 200)  # it takes a nap
    return recorder.text()


if __name__ == "__main__":
    tabulate("Afek and others, 1993", WAYS, history)
