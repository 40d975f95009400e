"""Objects that test the answers of a driver: usage as that of own.py. `stale` shows nothing but the initial values, `gives-up` never
has a view, and a view of `hangs` does not end. A view of `short` lacks a component, an update of `dies` raises, and one of `odd` ends
its thread. `unmade` can't be made. `second` is stale from its second run on, and gives up before. `slow` pauses around what it does,
and is right with one component. `fails` is stale; of its updates the first had no effect, and of the third it is not known. `retries`
is slow, and right with one component: of five updates one has no effect, one is tried again, and the 13th comes late."""
import time

from snapdrive import NoEffect, Unknown, main, pause


class Stale:
    def __init__(self, components):
        self.components = components

    def update(self, thread, component, value):
        pass

    def view(self, thread):
        return [0] * self.components


class GivesUp(Stale):
    def view(self, thread):
        return None


class Hangs(Stale):
    def view(self, thread):
        while True:
            time.sleep(1)


class Short(Stale):
    def view(self, thread):
        return [0] * (self.components - 1)


class Dies(Stale):
    def update(self, thread, component, value):
        raise ConnectionError("no connection")


class Odd(Stale):
    def update(self, thread, component, value):
        raise SystemExit("no connection")


class Unmade(Stale):
    def __init__(self, components):
        raise ConnectionError("no connection")


class Second(Stale):
    begun = 0

    def __init__(self, components):
        super().__init__(components)
        Second.begun += 1

    def view(self, thread):
        return super().view(thread) if Second.begun > 1 else None


class Slow:
    def __init__(self, components):
        self.word = 0

    def update(self, thread, component, value):
        pause()
        self.word = value
        pause()

    def view(self, thread):
        pause()
        value = self.word
        pause()
        return [value]


class Fails(Stale):
    updates = 0

    def update(self, thread, component, value):
        self.updates += 1
        if self.updates == 1:
            raise NoEffect
        if self.updates == 3:
            raise Unknown


class Retries(Slow):
    updates, late = 0, None

    def is_done(self, number, tries, value):
        """Whether a try has an effect. The first one of each fifth update has none."""
        if number % 5 == 2 and tries == 0:
            return False
        super().update(0, 0, value)
        return True

    def update(self, thread, component, value):
        self.updates += 1
        if self.updates % 5 == 1:
            raise NoEffect
        if self.updates == 13:
            self.late = value
            raise Unknown
        tries = 0
        while not self.is_done(self.updates, tries, value):
            tries += 1

    def view(self, thread):
        """What comes late comes at the end of a view."""
        values = super().view(thread)
        if self.late is not None:
            self.word = self.late
        return values


objects = {"stale": Stale, "gives-up": GivesUp, "hangs": Hangs, "short": Short, "dies": Dies, "second": Second, "slow": Slow}
main({**objects, "fails": Fails, "retries": Retries, "unmade": Unmade, "odd": Odd})
