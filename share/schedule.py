"""Which proof starts next, and how long all that are left will take on this machine.

A schedule runs as many checks side by side as there are lanes, that is processors, if memory allows. `Pace` learns from the checks
how many processor seconds they use for each that share/proof-times.txt has. It also learns which part of a processor they get beside
other work. By that `left` goes through the rest of the schedule.
"""
import collections
import contextlib
import os

TOP = os.path.dirname(os.path.dirname(os.path.abspath(__file__)))

# What a crate takes that the file of times does not know: seconds, and megabytes of memory.
UNKNOWN = (60, 1500)
# What is gained by further jobs, as a power of their count: each loads the libraries again.
GAIN = 0.5
# Further jobs serve crates over at most this many libraries. Over more, each job takes as long to load them as it then saves.
FEW_BELOW = 1
MOST_JOBS = 3
# A check that takes longer than was thought goes on for this part of what it has taken, at least.
STILL = 0.25
# How much of what was learnt counts after as many noted seconds as all crates have: the machine may have other work by then.
FORGET = 0.3

# How many seconds longer a check takes for each library below it, if libraries have their proofs in them, as --keep leaves them.
LOADING = 2.5
# Once all jobs together have run for this many seconds, they show which part of a processor they get, which is this at least.
SOON, LEAST = 20, 0.02
# What is lately, in seconds.
LATELY = 300

# A check: its crate, its jobs and megabytes, the seconds that it has taken, and the processor seconds that it has used.
Running = collections.namedtuple("Running", "crate jobs megabytes taken used")


def noted_times(file=f"{TOP}/share/proof-times.txt"):
    """The processor seconds and the megabytes that each crate took when it was last measured."""
    found = {}
    with contextlib.suppress(FileNotFoundError), open(file, encoding="utf-8") as lines:
        for line in lines:
            words = line.partition("#")[0].split()
            if words:
                found[words[0]] = (int(words[1]), int(words[2]))
    return found


def order(crates, times):
    """The crates, first those with the longest chain of others above them."""
    chain = {}
    for it in reversed(crates):
        above = [chain[other] for other in crates if other in chain and it in other.below()]
        chain[it] = times.get(it.name, UNKNOWN)[0] + max(above, default=0)
    return sorted(crates, key=lambda it: -chain[it])


def jobs_for(crate, idle, is_last):
    """How many jobs a check has: one, and one more for each idle processor if there is little below the crate to load again, or
    if no other crate is left to use that processor."""
    return 1 + max(0, min(MOST_JOBS - 1, idle)) if is_last or len(crate.below()) <= FEW_BELOW else 1


def gain(jobs):
    """How many times as fast a check is with this many jobs."""
    return jobs**GAIN


def next_start(waiting, running, lanes, room, times):
    """The first of the waiting crates that can start beside what runs, with its jobs and megabytes; none if all must wait."""
    blocked = {*waiting, *(it.crate for it in running)}
    ready = [it for it in waiting if not any(below in blocked for below in it.below())]
    if not ready:
        return None
    needs = times.get(ready[0].name, UNKNOWN)[1]
    free = lanes - sum(it.jobs for it in running)
    fitting = int(room - sum(it.megabytes for it in running)) // needs
    if running and (free < 1 or fitting < 1):
        return None
    jobs = max(1, min(jobs_for(ready[0], free - len(ready), len(waiting) == 1), fitting))
    return ready[0], jobs, needs


def done(check):
    """The processor seconds that a check would have used with one job for as much."""
    return check.used * gain(check.jobs) / check.jobs


class Pace:
    """What checks cost here, in processor seconds for each that is noted, and which part of a processor they get."""

    def __init__(self, times, lanes, load=0, loads_proofs=False):
        # what else runs here when the proofs begin has its share of the processors
        self.times, self.first, self.loading = times, lanes / (lanes + load), LOADING if loads_proofs else 0
        self.whole = sum(seconds for seconds, _ in times.values()) or 1
        self.noted, self.cost, self.used, self.taken = 0, 0, 0, 0
        self.span, self.seen = LATELY * lanes, collections.deque([(0, 0)])

    def noted_for(self, crate):
        return self.times.get(crate.name, UNKNOWN)[0] + self.loading * len(crate.below())

    def ended(self, check):
        """Takes in a check that has ended."""
        noted = self.noted_for(check.crate)
        kept = FORGET ** (noted / self.whole)
        self.noted = self.noted * kept + noted
        self.cost = self.cost * kept + done(check)
        self.used += check.used
        self.taken += check.taken * check.jobs

    def rate(self, running):
        """The processor seconds that a noted one takes, by what has ended and by what takes longer than it should."""
        rate = self.cost / self.noted if self.noted else 1
        late = [it for it in running if done(it) > self.noted_for(it.crate) * rate]
        noted = self.noted + sum(self.noted_for(it.crate) for it in late)
        return (self.cost + sum(map(done, late))) / noted if late else rate

    def share(self, running):
        """The part of a processor that each job has got so far, or lately if that is more, since other work may have ended."""
        taken = self.taken + sum(it.taken * it.jobs for it in running)
        used = self.used + sum(it.used for it in running)
        if taken <= SOON:
            return self.first
        self.seen.append((taken, used))
        while self.seen[1][0] <= taken - self.span:
            self.seen.popleft()
        taken_before, used_before = self.seen[0]
        lately = (used - used_before) / (taken - taken_before) if taken > taken_before + SOON else 0
        return min(1, max(used / taken, lately, LEAST))


def left(waiting, running, lanes, room, pace):
    """In about how many seconds all will be proved: the schedule that is left, by the pace so far."""
    rate, share, now, waiting, ends = pace.rate(running), pace.share(running), 0, list(waiting), {}
    for it in running:
        ends[it] = max(pace.noted_for(it.crate) * rate - done(it), STILL * done(it)) / share / gain(it.jobs)
    while waiting or ends:
        while start := next_start(waiting, ends, lanes, room, pace.times):
            crate, jobs, megabytes = start
            waiting.remove(crate)
            ends[Running(crate, jobs, megabytes, 0, 0)] = now + pace.noted_for(crate) * rate / share / gain(jobs)
        first = min(ends, key=ends.get)
        now = ends.pop(first)
    return now
