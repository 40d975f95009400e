"""Writes the calls that a driver of the recorders must choose for a seed, as `own --choices` does, worked out independently.

usage: choices.py THREADS COMPONENTS CALLS RUNS SEED choice|turn

The generator is splitmix64 as published by Sebastiano Vigna, and is first compared with published outputs of it.
"""
import sys


class Splitmix64:
    """uint64_t z = (x += 0x9e3779b97f4a7c15), and two rounds of a shift and a product."""

    def __init__(self, seed):
        self.x = seed

    def next(self):
        self.x = (self.x + 0x9E3779B97F4A7C15) % 2**64
        z = self.x
        for shift, factor in ((30, 0xBF58476D1CE4E5B9), (27, 0x94D049BB133111EB)):
            z = ((z ^ (z >> shift)) * factor) % 2**64
        return z ^ (z >> 31)


PUBLISHED = {
    0: [0xE220A8397B1DCDAF, 0x6E789E6AA1B965F4, 0x06C45D188009454F],
    1234567: [6457827717110365317, 3203168211198807973, 9817491932198370423, 4593380528125082431, 16408922859458223821],
}
for seed, outputs in PUBLISHED.items():
    generator = Splitmix64(seed)
    assert [generator.next() for _ in outputs] == outputs, f"splitmix64 of seed {seed}"

threads, components, calls, runs, seed = map(int, sys.argv[1:6])
seeds = Splitmix64(seed)
for run in range(1, runs + 1):
    for thread in range(threads):
        generator = Splitmix64(seeds.next())
        owned = [component for component in range(components) if component % threads == thread]
        cycle = [f"update {component}" for component in owned] + ["view"]
        for call in range(calls):
            if sys.argv[6] == "turn":
                word = cycle[call % len(cycle)]
            else:
                output = generator.next()
                is_update = output % 2 == 0 and owned
                word = f"update {owned[output // 2 % len(owned)]}" if is_update else "view"
            print(run, thread, word)
