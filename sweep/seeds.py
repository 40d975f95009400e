#!/usr/bin/env python3
"""Records runs with several seeds, and tries whether the seed draws where stores pause. The last line is 'N passed, M failed'.

usage: seeds.py [PROGRAM]; it is built/snapjudge by default

Of a store the seed and the stamp of its begin draw one of eight places. Two of them are pauses: before its write, and after it. While
a store pauses, calls of other workers begin. So more of the stores that the seed draws have a begin inside than of the others. For a
seed that was not given both shares are the same, but for chance. Of both the test knows the standard deviation, and asks for more than
five of them. It takes up to ten runs of a seed together, since on a busy machine few calls overlap.
"""
import math
import os
import subprocess
import sys

HERE = os.path.dirname(os.path.abspath(__file__))
SCATTER = 0x9E3779B97F4A7C15
MASK = 2**64 - 1
SEEDS = (0, 1, 77, 4294967295)
ROUNDS = "2048"
RUNS = 10
# By how many standard deviations two shares differ by more than chance.
SURE = 5


def drawn_place(seed, tick, places):
    """The place that a seed and a tick draw, as crates/snap_board/src/pauses.rt has it."""
    once = (tick ^ seed * SCATTER & MASK) * SCATTER & MASK
    twice = (once ^ once >> 32) * SCATTER & MASK
    return (twice >> 32) % places


def stores_of(text):
    """Of each store the stamp of its begin, and whether a call began inside."""
    stores, pending = [], {}
    for line in text.splitlines()[1:]:
        at, event, worker, op, _ = line.split(",", 4)
        if event == "begin":
            for other in pending.values():
                other[1] = True
            pending[worker] = [int(at), False]
        else:
            store = pending.pop(worker)
            if op == "update":
                stores.append(store)
    return stores


def share(stores):
    """How many of the stores have a begin inside, of 1."""
    return sum(has for _, has in stores) / len(stores)


def gain(stores, seed):
    """By how many standard deviations the share is greater among the stores that a seed draws to pause than among the others."""
    parts = [], []
    for store in stores:
        parts[drawn_place(seed, store[0], 8) < 2].append(store)
    deviation = math.sqrt(share(stores) * (1 - share(stores)) * sum(1 / len(part) for part in parts))
    return (share(parts[1]) - share(parts[0])) / (deviation or 1)


def is_drawn(program, seed):
    """Whether runs with a seed have the pauses of that seed and of no other; and the gains of each seed."""
    stores, gains = [], {}
    for _ in range(RUNS):
        words = [program, "record", "--stamped", "--workers", "2", "--rounds", ROUNDS, "--seed", str(seed)]
        stores += stores_of(subprocess.run(words, check=True, capture_output=True, text=True).stdout)
        gains = {other: gain(stores, other) for other in SEEDS}
        if all(it > SURE if other == seed else it < SURE - 1 for other, it in gains.items()):
            return True, gains
    return False, gains


def main():
    if sys.argv[1:] in (["-h"], ["--help"]):
        print(__doc__.strip())
        return 0
    program = os.path.realpath(sys.argv[1] if len(sys.argv) > 1 else os.path.join(HERE, "..", "built", "snapjudge"))
    found = []
    for seed in SEEDS:
        is_right, gains = is_drawn(program, seed)
        found.append(is_right)
        said = ", ".join(f"{it:.1f} of {other}" for other, it in gains.items())
        print(f"seeds: the seed {seed}: {'passed' if is_right else 'failed'}; standard deviations by which more stores overlap, of each seed: {said}")
    print(f"{sum(found)} passed, {len(found) - sum(found)} failed")
    return 0 if all(found) else 1


sys.exit(main())
