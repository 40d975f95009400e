"""Writes the history of the first run of `own naive --schedule pct` that the judge does not call atomic, worked out without threads.

usage: turns.py PROGRAM THREADS COMPONENTS CALLS RUNS SEED DEPTH

A thread is a generator that stops at each point of the drivers: before a call, after its begin, before its end, and after each read of
a view. docs/OWN-OBJECT.md says how the turns are chosen. The generator of numbers is that of choices.py.
"""
import itertools
import subprocess
import sys

MASK = 2**64 - 1


class Splitmix64:
    def __init__(self, seed):
        self.x = seed

    @staticmethod
    def mix(z):
        for shift, factor in ((30, 0xBF58476D1CE4E5B9), (27, 0x94D049BB133111EB)):
            z = ((z ^ (z >> shift)) * factor) & MASK
        return z ^ (z >> 31)

    def next(self):
        self.x = (self.x + 0x9E3779B97F4A7C15) & MASK
        return self.mix(self.x)


class Run:
    """A run of the naive board: what each thread does, and its log."""

    def __init__(self, threads, components, calls, seeds):
        self.board, self.logs, self.clock = [(0, 0)] * components, [[] for _ in range(threads)], itertools.count()
        self.threads = [self.thread(t, threads, calls, Splitmix64(seeds.next())) for t in range(threads)]

    def note(self, thread, event, op, data=""):
        self.logs[thread].append(f"{next(self.clock)},{event},{thread},{op},{data}")

    def thread(self, thread, threads, calls, choice):
        owned, numbers = [k for k in range(len(self.board)) if k % threads == thread], {}
        for call in range(calls):
            yield
            output = choice.next()
            if output % 2 == 0 and owned:
                k, value = owned[output // 2 % len(owned)], (thread + 1) * 1000000 + call
                numbers[k] = numbers.get(k, 0) + 1
                self.note(thread, "begin", "update", f"{k}:{numbers[k]}:{value}")
                yield
                self.board[k] = (numbers[k], value)
                yield
                self.note(thread, "end", "update")
            else:
                self.note(thread, "begin", "view")
                yield
                shown = []
                for k, _ in enumerate(self.board):
                    shown.append((k, *self.board[k]))
                    yield
                yield
                self.note(thread, "end", "view", " ".join("%d:%d:%d" % entry for entry in shown if entry[1]))

    def text(self):
        return "\n".join(["at,event,process,op,data", *itertools.chain(*self.logs), ""])


def take_turns(run, depth, random, points):
    """Runs all threads to their ends, and answers how many points there were. The first step of a thread leads to its first point."""
    order, priorities = list(range(len(run.threads))), {}
    for i in reversed(order[:]):
        j = random.next() % (i + 1)
        order[i], order[j] = order[j], order[i]
        priorities[order[i]] = depth + i
    changes = [1 + random.next() % points for _ in range(depth - 1)]
    count = 0
    while priorities:
        thread = max(priorities, key=priorities.get)
        try:
            next(run.threads[thread])
        except StopIteration:
            del priorities[thread]
            continue
        count += 1
        for i, at in enumerate(changes):
            if at == count:
                priorities[thread] = i
    return count


def main(program, *numbers):
    threads, components, calls, runs, seed, depth = map(int, numbers)
    seeds, random, points = Splitmix64(seed), Splitmix64(Splitmix64.mix(seed)), 6 * threads * calls
    for _ in range(runs):
        run = Run(threads, components, calls, seeds)
        points = take_turns(run, depth, random, points)
        judged = subprocess.run([program, "check", "--quiet"], input=run.text().encode(), stdout=subprocess.DEVNULL)
        if judged.returncode:
            sys.stdout.write(run.text())
            return judged.returncode
    return 0


if __name__ == "__main__":
    sys.exit(main(*sys.argv[1:]))
