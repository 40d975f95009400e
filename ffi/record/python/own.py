"""Tests two boards: `naive` collects once, which is not atomic; `double` collects until two collects are equal, which is.

    python3 own.py naive --runs 20

SPDX-License-Identifier: 0BSD
"""
from snapdrive import main, pause


class Naive:
    def __init__(self, components):
        self.words = [0] * components

    def update(self, thread, component, value):
        self.words[component] = value

    def view(self, thread):
        values = []
        for word in self.words:
            values.append(word)
            pause()
        return values


class Double(Naive):
    def view(self, thread):
        values, again = None, super().view(thread)
        while values != again:
            values, again = again, super().view(thread)
        return values


main({"naive": Naive, "double": Double})
