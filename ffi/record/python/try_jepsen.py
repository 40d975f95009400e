"""Gives from_jepsen.py histories of simulated stores, and what is wrong with histories. usage: try_jepsen.py PROGRAM"""
import collections
import json
import os
import random
import subprocess
import sys
import tempfile
import unittest

import try_orders
from from_jepsen import Edn, NotTaken, histories
from merge_logs import Contradiction, LogError
from try_orders import calls_of, has_order, judge, random_calls

HERE = os.path.dirname(os.path.abspath(__file__))
PROGRAM = os.path.realpath(sys.argv[1])
HEADER = "at,event,process,op,data"


def edn(value):
    """A value in EDN; words that begin with a colon are keywords."""
    if value is None:
        return "nil"
    if isinstance(value, dict):
        return "{" + ", ".join(f"{edn(key)} {edn(entry)}" for key, entry in value.items()) + "}"
    if isinstance(value, (list, tuple)):
        return "[" + " ".join(map(edn, value)) + "]"
    return value if isinstance(value, str) and value[:1] == ":" else json.dumps(value)


def in_edn(operations):
    keywords = ("type", "f")
    return "".join(edn({f":{key}": f":{value}" if key in keywords else value for key, value in it.items()}) + "\n" for it in operations)


def in_json(operations):
    return "".join(json.dumps(it) + "\n" for it in operations)


def operation(kind, function, process, value, **more):
    return {"type": kind, "f": function, "process": process, "value": value, **more}


class Store:
    """A store of keys, and clients that read all keys or write one. What a client asks for takes effect between its begin and its end,
    except for the faults of the kind: `stale` reads what stood some writes ago, `lost` answers to a write that it forgets.
    """

    def __init__(self, draw, kind, keys=3, clients=4):
        self.draw, self.kind, self.clients = draw, kind, clients
        self.board, self.versions, self.boards = [None] * keys, [0] * keys, []
        self.operations, self.values = [], 0

    def write(self, key, value):
        if self.kind == "lost" and self.draw.random() < 0.1:
            return self.versions[key]
        self.board[key] = value
        self.versions[key] += 1
        self.boards.append((list(self.board), list(self.versions)))
        return self.versions[key]

    def read(self):
        if self.kind == "stale" and self.boards and self.draw.random() < 0.2:
            return self.boards[max(0, len(self.boards) - 4)]
        return list(self.board), list(self.versions)

    def run(self, calls, timeouts=0.0, share_keys=False, at_once=False):
        """The operations of a run. Each client writes keys of its own, or all share the keys. Then a key has one writer at a time, or
        any number at once.
        """
        states = {client: [client, None] for client in range(self.clients)}
        writers, late = {}, []
        while calls or any(state[1] for state in states.values()):
            client = self.draw.randrange(self.clients)
            process, open_call = states[client]
            if late and self.draw.random() < 0.1:
                self.write(*late.pop())
            if open_call is None:
                if not calls:
                    continue
                calls -= 1
                key = self.draw.randrange(len(self.board)) if share_keys else client
                if self.draw.random() < 0.5 and key < len(self.board) and (at_once or writers.setdefault(key, client) == client):
                    self.values += 1
                    states[client][1] = ("w", key, self.values, None)
                    self.note("invoke", process, [["w", key, self.values]])
                else:
                    states[client][1] = ("r", None, None, None)
                    self.note("invoke", process, [["r", k, None] for k in range(len(self.board))])
            elif open_call[3] is None:
                found = self.read() if open_call[0] == "r" else None
                if open_call[0] == "w" and self.draw.random() < timeouts:
                    late.append(open_call[1:3])
                    self.note("info", process, [["w", *open_call[1:3]]])
                    states[client] = [process + self.clients, None]
                    writers[open_call[1]] = None  # nobody writes this key again
                    continue
                version = self.write(*open_call[1:3]) if found is None else None
                states[client][1] = (*open_call[:3], (found, version))
            else:
                found, version = open_call[3]
                if found is None:
                    self.note("ok", process, [["w", *open_call[1:3]]], version=version)
                    if share_keys and not at_once:
                        del writers[open_call[1]]  # the next writer may be another one
                else:
                    read = [["r", k, value] for k, value in enumerate(found[0])]
                    self.note("ok", process, read, version=dict(enumerate(found[1])))
                states[client] = [process, None]
        return self.operations

    def note(self, kind, process, steps, **more):
        self.operations.append(operation(kind, "txn", process, steps, **more))


def made(text, **how):
    return [history for _, history, _, _ in histories("h", text, **how)]


def spoken(calls):
    """The operations of calls of the small runs, each by a process of its own."""
    events = []
    for process, call in enumerate(calls):
        is_view = call.op == "view"
        asked = [["r", k, None] for k in range(len(call.number))] if is_view else [["w", call.component, call.number]]
        got = [["r", k, number or None] for k, number in enumerate(call.number)] if is_view else asked
        events.append((call.begun, operation("invoke", "txn", process, asked)))
        version = {k: number for k, number in enumerate(call.number) if number} if is_view else call.number
        if call.ended != try_orders.NEVER:
            events.append((call.ended, operation("ok", "txn", process, got, version=version)))
    return [event for _, event in sorted(events, key=lambda event: event[0])]


class Jepsen(unittest.TestCase):
    def assertNotTaken(self, told, *operations):
        for text in (in_edn(operations), in_json(operations)):
            with self.assertRaises(NotTaken) as raised:
                made(text)
            self.assertIn(told, str(raised.exception))

    def test_small_runs_beside_all_orders(self):
        draw, found = random.Random(9), collections.Counter()
        for at in range(3000):
            calls = random_calls(draw)
            operations = spoken(calls)
            if not any(call.op == "view" for call in calls):
                continue
            has_many = at % 4 > 1
            try:
                (history,) = made((in_edn if at % 2 else in_json)(operations), has_versions=True, has_many=has_many)
            except Contradiction:
                found["contradiction"] += 1
                self.assertFalse(has_order(calls))
                continue
            except LogError as error:
                self.fail(error)
            is_atomic = has_order(calls)
            found[is_atomic] += 1
            self.assertEqual(has_order(calls_of(history, has_many)), is_atomic)
        self.assertGreater(min(found.values()), 20)
        self.assertEqual(len(found), 3)

    def test_simulated_stores(self):
        """Right stores are atomic, whoever writes; of the others some run is caught."""
        caught = collections.Counter()
        for kind in ("right", "stale", "lost"):
            for share_keys in (False, True):
                for timeouts in (0.0, 0.02):
                    runs = []
                    for seed in range(10):
                        store = Store(random.Random(seed), kind)
                        runs += made(in_edn(store.run(200, timeouts, share_keys)))
                    caught[kind] += judge(runs).count(False)
        self.assertEqual(caught["right"], 0)
        self.assertGreater(caught["stale"], 20)
        self.assertGreater(caught["lost"], 20)

    def test_writes_at_once(self):
        """By versions the judge takes writes of one key that overlap: right stores are atomic, and some run of the others is caught."""
        caught = collections.Counter()
        for kind in ("right", "stale"):
            runs, as_many = [], []
            for seed in range(10):
                text = in_edn(Store(random.Random(seed), kind).run(200, share_keys=True, at_once=True))
                with self.assertRaises(LogError):
                    made(text)
                runs += made(text, has_versions=True)
                as_many += made(text, has_versions=True, has_many=True)
            atomic = judge(runs)
            self.assertEqual(judge(as_many, "--writers", "many"), atomic)
            caught[kind] = atomic.count(False)
        self.assertEqual(caught["right"], 0)
        self.assertGreater(caught["stale"], 5)

    def test_each_key_by_itself(self):
        """Pairs of a key and a value are keys of their own, so that each makes a history."""
        operations = [
            operation("invoke", "write", 0, ["x", 3]),
            operation("info", "start", "nemesis", None),
            operation("ok", "write", 0, ["x", 3]),
            operation("invoke", "read", 1, ["x", None]),
            operation("invoke", "read", 0, ["y", None]),
            operation("ok", "read", 0, ["y", None]),
            operation("ok", "read", 1, ["x", 3]),
        ]
        first = f"{HEADER}\n0,begin,0,update,0:1:0\n5,end,0,update,\n9,begin,1,view,\n23,end,1,view,0:1:0\n"
        second = f"{HEADER}\n0,begin,0,view,\n3,end,0,view,\n"
        for text in (in_edn(operations), in_json(operations), "[" + in_edn(operations) + "]"):
            self.assertEqual(len(made(text)), 2)
        self.assertEqual([line.count(",") for line in made(in_edn(operations))[0].split("\n")], [line.count(",") for line in first.split("\n")])
        self.assertEqual(made(in_edn(operations))[1].count("\n"), second.count("\n"))
        self.assertEqual(judge(made(in_edn(operations))), [True, True])
        self.assertEqual(made(in_edn(operations), has_versions=True, has_many=True), made(in_edn(operations)))

    def test_failed_operations(self):
        """A write that failed is left out, and so is a read that failed or has no answer."""
        operations = [operation("invoke", "write", 0, 3), operation("fail", "write", 0, 3)]
        for kind in ("fail", "info"):
            operations += [operation("invoke", "read", 1, None), operation(kind, "read", 1, None)]
        operations += [operation("invoke", "read", 2, None), operation("ok", "read", 2, None)]
        self.assertEqual(made(in_edn(operations))[0].count(",view,"), 2)
        self.assertEqual(made(in_edn(operations))[0].count(",update,"), 0)
        read = [operation("invoke", "read", 2, None), operation("ok", "read", 2, 3)]
        self.assertEqual(judge(made(in_edn(operations[:2] + read))), [False])

    def test_edn(self):
        text = """; a comment\n{:type :ok, :value #{1 2} :tag #inst "2026" , :f [nil true false -3N \\a "q\\"r"] :m {:a (b)}}"""
        ((line, form),) = Edn("h", text).forms()
        self.assertEqual(line, 2)
        self.assertEqual(form, {"type": "ok", "value": (1, 2), "tag": "2026", "f": (None, True, False, -3, "\\a", 'q"r'), "m": {"a": ("b",)}})
        for text, told in (("{:a", "is not closed"), ("{:a}", "has no value"), ("]", "was not opened"), ('{:a "', "not EDN"), ("#x", "no form")):
            with self.assertRaises(NotTaken) as raised:
                list(Edn("h", text).forms())
            self.assertIn(told, str(raised.exception))

    def test_operations_that_are_not_taken(self):
        write = operation("invoke", "write", 0, 3)
        self.assertNotTaken("cas is neither", operation("invoke", "cas", 0, [1, 2]))
        self.assertNotTaken("reads and writes", operation("invoke", "txn", 0, [["r", 1, None], ["w", 1, 2]]))
        self.assertNotTaken("no append", operation("invoke", "txn", 0, [["append", 1, 2]]))
        self.assertNotTaken("several keys", operation("invoke", "txn", 0, [["w", 1, 2], ["w", 2, 2]]))
        self.assertNotTaken("one key twice", operation("invoke", "txn", 0, [["r", 1, None], ["r", 1, None]]))
        self.assertNotTaken("list of steps", operation("invoke", "txn", 0, 3))
        self.assertNotTaken("has not ended", write, write)
        self.assertNotTaken("has not begun", operation("ok", "write", 0, 3))
        self.assertNotTaken("as another one", write, operation("ok", "read", 0, 3))
        self.assertNotTaken("another key or value", write, operation("ok", "write", 0, 4))
        self.assertNotTaken("write of nil", operation("invoke", "write", 0, None))
        self.assertNotTaken("type of an operation", operation("begin", "write", 0, 3))
        with self.assertRaises(NotTaken):
            made("3\n")
        with self.assertRaises(NotTaken):
            made('{"type"\n')
        with self.assertRaises(LogError) as raised:
            twice = [write, operation("ok", "write", 0, 3)] * 2 + [operation("invoke", "read", 0, None), operation("ok", "read", 0, 3)]
            made(in_edn(twice))
        self.assertEqual(raised.exception.word, "same")

    def test_command(self):
        with tempfile.TemporaryDirectory() as folder:
            names = [f"{folder}/{name}.edn" for name in ("right", "stale")]
            for name in names:
                store = Store(random.Random(3), os.path.basename(name)[:-4])
                with open(name, "w") as file:
                    file.write(in_edn(store.run(300)))

            def command(*words):
                line = [sys.executable, "-B", os.path.join(HERE, "from_jepsen.py"), *words]
                return subprocess.run(line, cwd=folder, stdout=subprocess.PIPE, stderr=subprocess.PIPE, text=True, timeout=600)

            self.assertEqual(command("--into", "out", *map(os.path.basename, names)).returncode, 0)
            self.assertEqual(sorted(os.listdir(f"{folder}/out")), ["right.csv", "right.words", "stale.csv", "stale.words"])
            done = subprocess.run([PROGRAM, "check", "--summary", "-r", "out"], cwd=folder, stdout=subprocess.PIPE, text=True, timeout=600)
            self.assertIn("atomic 1 first out/right.csv\n", done.stdout)
            one = command("right.edn")
            with open(f"{folder}/out/right.csv") as file:
                self.assertEqual((one.returncode, one.stdout), (0, file.read()))
            both = command("right.edn", "stale.edn")
            self.assertEqual((both.returncode, both.stdout), (5, ""))
            self.assertIn("give --into DIR", both.stderr)
            self.assertEqual(command("none.edn").returncode, 4)
            self.assertEqual(command("--initial", "]", "right.edn").returncode, 5)
            self.assertEqual(command("--events", "0", "right.edn").returncode, 5)
            self.assertEqual(command("--events", "4", "right.edn").returncode, 3)
            self.assertEqual(command("--versions", "--writers", "two", "right.edn").returncode, 5)
            alone = command("--writers", "many", "right.edn")
            self.assertEqual((alone.returncode, alone.stdout), (5, ""))
            self.assertIn("from_jepsen.py: --writers many needs --versions: ", alone.stderr)
            many = command("--versions", "--writers", "many", "right.edn")
            self.assertEqual(many.returncode, 0)
            self.assertEqual(judge([many.stdout], "--writers", "many"), [True])
            with open(f"{folder}/writes.edn", "w") as file:
                file.write(in_edn([operation("invoke", "write", 0, 3)]))
            self.assertIn("nothing to judge", command("writes.edn").stderr)


if __name__ == "__main__":
    unittest.main(argv=sys.argv[:1])
