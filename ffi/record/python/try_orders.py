"""Compares what merge_logs.py makes of small random logs with all orders of their calls. usage: try_orders.py PROGRAM [COUNT]

Each run has up to six calls on two components. Updates come from any process. The store orders the updates of a component, and each
order of all calls is tried: one that keeps precedence and the store's order, leaves out pending updates alone, and gives each view the
last updates before it. There is one exactly if the merged history is atomic by its definition, which is tried in the same way. The
program must say so too. Versions that contradict time leave no order. With versions the same runs are also merged for many writers.
"""
import collections
import json
import os
import random
import subprocess
import sys
import tempfile
import unittest

from merge_logs import HEADER, Contradiction, LogError, merge, read_log

PROGRAM = os.path.realpath(sys.argv[1])
COUNT = int(sys.argv[2]) if len(sys.argv) > 2 else 20000
JUDGED = 2000  # this many of the histories are given to the program too
COMPONENTS = 2
NEVER = 10**6  # where a call without an end ends

# An update has a number of its component; a view has a number for each component.
Call = collections.namedtuple("Call", "op begun ended component number")


def random_calls(draw, step=1):
    """Calls by a clock of this step: if it is coarse, some readings are equal."""
    count = draw.randint(3, 6)
    times, calls, updates = [time // step for time in range(2 * count)], [], [0] * COMPONENTS
    draw.shuffle(times)
    for at in range(count):
        begun, ended = sorted(times[2 * at : 2 * at + 2])
        if draw.random() < 0.55:
            component = draw.randrange(COMPONENTS)
            updates[component] += 1
            calls.append(["update", begun, NEVER if draw.random() < 0.15 else ended, component, None])
        else:
            calls.append(["view", begun, ended, None, None])
    for component in range(COMPONENTS):
        own = [call for call in calls if call[3] == component]
        draw.shuffle(own)
        if draw.random() < 0.7:  # mostly near the order of their begins
            own.sort(key=lambda call: call[1] + draw.choice((0, 0, 3, -3)))
        for number, call in enumerate(own, 1):
            call[4] = number
    for call in calls:
        if call[0] == "view":
            call[4] = tuple(draw.randint(0, number) for number in updates)
    return [Call(*call) for call in calls]


def has_order(calls):
    """Whether some order of all ended calls and some of the others explains each view, and keeps precedence and the numbers."""
    due = {at for at, call in enumerate(calls) if call.ended != NEVER}
    before = [{at for at in due if calls[at].ended < call.begun} for call in calls]
    tried = set()

    def goes_on(done, last):
        if due <= done:
            return True
        if done in tried:
            return False
        tried.add(done)
        for at, call in enumerate(calls):
            if at in done or not before[at] <= done:
                continue
            if call.op == "view":
                if call.number == last and goes_on(done | {at}, last):
                    return True
            elif last[call.component] < call.number:
                if goes_on(done | {at}, tuple(call.number if k == call.component else n for k, n in enumerate(last))):
                    return True
        return False

    return goes_on(frozenset(), (0,) * COMPONENTS)


def logs_of(calls, has_versions):
    """A log for each call. A value is 10 times the component, plus the number; with versions a version is 7 times the number."""
    for process, call in enumerate(calls):
        if call.op == "update":
            lines = [f"{call.begun},begin,{process},update,{call.component}:{10 * call.component + call.number}"]
            if call.ended != NEVER:
                lines.append(f"{call.ended},end,{process},update,{7 * call.number if has_versions else ''}")
        else:
            entries = []
            for k, number in enumerate(call.number):
                version = f"{7 * number}:" if has_versions else ""
                entries.append(f"{k}:{version}{10 * k + number}" if number else f"{k}:")
            lines = [f"{call.begun},begin,{process},view,", f"{call.ended},end,{process},view,{' '.join(entries)}"]
        yield "\n".join([HEADER, *lines, ""])


def merged(calls, has_versions, has_many=False):
    """The history that merge_logs.py makes of the logs of the calls."""
    made = [call for at, log in enumerate(logs_of(calls, has_versions)) for call in read_log(str(at), log, 0, False, has_versions)[0]]
    return merge(made, initials=("99",), has_versions=has_versions, has_many=has_many)[0]


def calls_of(history, has_many=False):
    """The calls of a history with stamps. Updates of a component begin and end in the order of their numbers, and if it has not many
    writers, each is of one process.
    """
    calls, open_calls, writers = [], {}, {}
    begun, ended = collections.Counter(), collections.Counter()
    for line in sorted(history.splitlines()[1:], key=lambda line: int(line.split(",")[0])):
        stamp, event, process, op, data = line.split(",")
        entries = [tuple(map(int, entry.split(":"))) for entry in data.split()]
        if event == "begin":
            assert process not in open_calls
            component, number = entries[0][:2] if entries else (None, None)
            if op == "update":
                begun[component] += 1
                assert number == begun[component]
                assert has_many or writers.setdefault(component, process) == process
            open_calls[process] = len(calls)
            calls.append(Call(op, int(stamp), NEVER, component, number))
        else:
            at = open_calls.pop(process)
            if op == "update":
                ended[calls[at].component] += 1
                assert calls[at].number == ended[calls[at].component]
            shown = {component: number for component, number, _ in entries}
            number = tuple(shown.get(k, 0) for k in range(COMPONENTS)) if op == "view" else calls[at].number
            calls[at] = calls[at]._replace(ended=int(stamp), number=number)
    return [call for call in calls if call.op == "update" or call.ended != NEVER]


def judge(histories, *words):
    """Which of the histories the program calls atomic. It refuses none."""
    with tempfile.TemporaryDirectory() as folder:
        for at, history in enumerate(histories):
            with open(f"{folder}/{at:05}.csv", "w") as file:
                file.write(history)
        done = subprocess.run([PROGRAM, "check", *words, "--format", "json", "-r", folder], stdout=subprocess.PIPE, timeout=600)
    statuses = [json.loads(line)["status"] for line in done.stdout.splitlines()]
    assert set(statuses) <= {0, 1, 2}
    return [status == 0 for status in statuses]


class Orders(unittest.TestCase):
    def compare(self, has_versions, seed, has_many=False):
        """How the runs ended, by words."""
        draw, found, judged = random.Random(seed), collections.Counter(), []
        for _ in range(COUNT // 2):
            calls = random_calls(draw, draw.choice((1, 1, 3)))
            if not has_versions and not in_turn(calls):
                continue
            is_atomic = has_order(calls)
            try:
                history = merged(calls, has_versions, has_many)
            except Contradiction:
                self.assertFalse(is_atomic, calls)
                found["contradiction"] += 1
                continue
            except LogError as error:
                self.assertEqual((error.word, has_versions), ("overlap", False))
                found[error.word] += 1
                continue
            self.assertEqual(has_order(calls_of(history, has_many)), is_atomic, (calls, history))
            found["atomic" if is_atomic else "not atomic"] += 1
            judged.append((history, is_atomic))
        judged, words = judged[:JUDGED], ("--writers", "many") if has_many else ()
        self.assertEqual(judge([history for history, _ in judged], *words), [is_atomic for _, is_atomic in judged])
        return found

    def test_versions(self):
        for has_many in (False, True):
            found = self.compare(True, 5, has_many)
            self.assertEqual(set(found), {"atomic", "not atomic", "contradiction"})
            self.assertGreater(min(found.values()), COUNT // 100)

    def test_updates_in_turn(self):
        found = self.compare(False, 6)
        self.assertEqual(set(found), {"atomic", "not atomic", "overlap"})
        self.assertGreater(found["atomic"], COUNT // 100)


def in_turn(calls):
    """Whether the ended updates of each component follow one another in the order of their numbers."""
    for component in range(COMPONENTS):
        own = sorted((call for call in calls if call.component == component), key=lambda call: call.begun)
        if [call.number for call in own] != sorted(call.number for call in own):
            return False
    return True


if __name__ == "__main__":
    unittest.main(argv=sys.argv[:1])
