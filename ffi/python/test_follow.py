"""One long recording, window by window: its cuts, what crosses them, what is refused by name, and how it is followed while it grows.

The verdicts are compared with those of a second judge, which is written here from the definitions alone and tries all orders.
"""
import contextlib
import os
import random
import shutil
import signal
import subprocess
import sys
import tempfile
import time
import unittest
from unittest import mock

import snapjudge
from snapjudge import follow, windows
from snapjudge.bags import USUAL

HERE = os.path.dirname(os.path.abspath(__file__))
TOP = os.path.join(HERE, "..", "..")
EXAMPLES = os.path.join(TOP, "examples")
sys.path[:0] = [os.path.join(HERE, ".."), os.path.join(TOP, "bench")]
from differential import damaged, history, texts_of  # noqa: E402
from histories import texts_of as shapes_of  # noqa: E402

HEADER = "event,process,op,data\n"
# How many texts are drawn for each differential test, and how many of them the reader in examples/ reads too.
TEXTS, READ = 3000, 60
# How long a followed file may take to be told of, in seconds.
PATIENCE = 60

# Two updates and two views of which none overlaps another.
CALM = ["begin,0,update,0:1:7", "end,0,update,", "begin,1,view,", "end,1,view,0:1:7"]
# What comes after them: a view of what was left, and one of a later update, which overlaps it.
LATER = ["begin,1,view,", "begin,0,update,0:2:8", "end,1,view,0:2:8", "end,0,update,", "begin,2,view,", "end,2,view,0:2:8"]


def text_of(rows, header=HEADER):
    return header + "".join(row + "\n" for row in rows)


def calls_of(text):
    """The calls of a history without stamps: op, place of the begin, place of the end or none, and entries."""
    calls, opened = [], {}
    for place, row in enumerate(text.splitlines()[1:]):
        event, process, op, data = row.split(",")
        if event == "begin":
            opened[process] = [op, place, None, data]
            calls.append(opened[process])
        else:
            call = opened.pop(process)
            call[2] = place
            call[3] = data if op == "view" else call[3]
    return [(op, begin, end, [tuple(map(int, entry.split(":"))) for entry in data.split()]) for op, begin, end, data in calls]


def precedes(one, other):
    return one[2] is not None and one[2] < other[1]


def is_regular(calls):
    updates = [call for call in calls if call[0] == "update"]
    for view in calls:
        if view[0] == "update" or view[2] is None:
            continue
        shows = {component: count for component, count, _ in view[3]}
        if any(precedes(it, view) and it[3][0][1] > shows.get(it[3][0][0], 0) for it in updates):
            return False
        if not all(any(it[3][0] == entry and it[1] < view[2] for it in updates) for entry in view[3]):
            return False
    return True


def is_atomic(calls):
    """Whether some order of the calls is legal: each is tried, a call after those that precede it."""
    tried = set()

    def goes_on(taken, board):
        if all(place in taken or call[2] is None for place, call in enumerate(calls)):
            return True
        if taken in tried:
            return False
        tried.add(taken)
        for place, call in enumerate(calls):
            if place in taken or any(precedes(other, call) and at not in taken for at, other in enumerate(calls)):
                continue
            after = dict(board)
            if call[0] == "update":
                after[call[3][0][0]] = call[3][0]
            elif call[2] is None or sorted(board.values()) != call[3]:
                continue
            if goes_on(taken | {place}, after):
                return True
        return False

    return goes_on(frozenset(), {})


def verdict_of(text):
    """The exit status of a history, by the definitions."""
    calls = calls_of(text)
    return 0 if is_atomic(calls) else 1 if is_regular(calls) else 2


def told_by_definition(text):
    """The status and the first line of a report."""
    calls = calls_of(text.decode())
    views = sum(call[0] == "view" and call[2] is not None for call in calls)
    pending = sum(call[2] is None for call in calls)
    status = snapjudge.STATUSES[verdict_of(text.decode())]
    return status, f"events {2 * len(calls) - pending} calls {len(calls)} pending {pending} views {views}\n"


def judged(text):
    """The exit status of a text, by the judge."""
    return snapjudge.STATUSES.index(snapjudge.report(text)[0])


def events_of(rows):
    return [windows.event_of(row.encode().split(b","), windows.Place(None, at), len(row) + 1) for at, row in enumerate(rows, 2)]


def windows_of(rows, least=1, most=USUAL):
    """The windows of a history: how many events each has, its text, and what its first view at fault misses."""
    found = []
    cutter = windows.Cutter(lambda events, left: found.append((len(events), *windows.window_of(events, left))), least, most)
    for event in events_of(rows):
        cutter.take(event)
    cutter.end()
    return found


class Windows(unittest.TestCase):
    """Cuts of histories that are worked by hand."""

    def test_a_window_begins_from_what_was_left(self):
        calm, later, last = windows_of(CALM + LATER, 4)
        self.assertEqual(calm, (4, text_of(CALM).encode(), None))
        # numbers from 1, and the entry of the update that was left is not listed
        self.assertEqual(later, (4, text_of(["begin,1,view,", "begin,0,update,0:1:8", "end,1,view,0:1:8", "end,0,update,"]).encode(), None))
        self.assertEqual(last, (2, text_of(["begin,2,view,", "end,2,view,"]).encode(), None))
        self.assertEqual(windows_of(CALM + ["begin,1,view,", "end,1,view,0:1:7"], 4)[1], (2, (HEADER + "begin,1,view,\nend,1,view,\n").encode(), None))

    def test_a_cut_is_made_where_no_call_is_open_and_nowhere_else(self):
        rows = CALM + LATER
        self.assertEqual([window[0] for window in windows_of(rows)], [2, 2, 4, 2])
        self.assertEqual([window[0] for window in windows_of(rows, 3)], [4, 4, 2])
        self.assertEqual([window[0] for window in windows_of(rows, 5)], [8, 2])
        self.assertEqual([window[0] for window in windows_of(["begin,9,view,"] + rows)], [11])
        self.assertEqual(windows_of([]), [])

    def test_a_view_that_misses_what_was_left_is_told_of(self):
        # an older number, nothing, and another value with the number that was left
        for shown, missed in (("0:1:7 1:1:5", (0, 2, 8)), ("0:2:8", (1, 1, 5)), ("0:2:9 1:1:5", (0, 2, 8)), ("", (0, 2, 8))):
            rows = ["begin,0,update,0:1:7", "end,0,update,", "begin,0,update,0:2:8", "end,0,update,", "begin,1,update,1:1:5", "end,1,update,"]
            self.assertEqual(windows_of(rows + ["begin,2,view,", f"end,2,view,{shown}"], 6)[1][2], (windows.Place(None, 9), missed))
            self.assertEqual(verdict_of(text_of(rows + ["begin,2,view,", f"end,2,view,{shown}"])), 2)

    def test_a_long_window_ends_at_the_last_moment_in_it_at_which_no_call_is_open(self):
        views = [f"{event},{process},view," for event in ("begin", "end") for process in range(32767)]
        self.assertEqual([window[0] for window in windows_of(["begin,1,view,", "end,1,view,"] + views, 100)], [65536])
        self.assertEqual([window[0] for window in windows_of(CALM + views, 100)], [4, 65534])
        self.assertEqual([window[0] for window in windows_of(["begin,1,view,", "end,1,view,"] + views, 100, 65536 + 2)], [65536])
        self.assertEqual([window[0] for window in windows_of(CALM + views, 100, 65536 + 2)], [65538])
        with mock.patch("snapjudge.windows.BYTES_AN_EVENT", 10):
            self.assertEqual([window[0] for window in windows_of(CALM + LATER, 100, 18)], [8, 2])

    def test_too_many_events_without_such_a_moment_are_refused_with_the_open_call(self):
        rows = ["begin,3,view,", "end,3,view,", "begin,3,view,"] + ["begin,4,view,", "end,4,view,"] * 32768
        with self.assertRaises(windows.Refusal) as refused:
            windows_of(rows)
        self.assertEqual((refused.exception.word, refused.exception.place.record), ("toomany", 65540))
        self.assertEqual((refused.exception.call.process, refused.exception.call.place.record), (3, 4))
        with mock.patch("snapjudge.windows.BYTES_AN_EVENT", 10), self.assertRaises(windows.Refusal) as refused:
            windows_of(["begin,1,view,", "begin,0,update,0:1:8", "end,1,view,0:1:8", "end,0,update,"], 1, 8)
        self.assertEqual((refused.exception.word, refused.exception.place.record, refused.exception.call.process), ("toolong", 5, 0))

    def test_a_component_keeps_its_process_and_its_numbers_across_a_cut(self):
        for row, word in (("begin,1,update,0:2:8", "writer"), ("begin,0,update,0:1:8", "number"), ("begin,0,update,0:3:8", "number")):
            with self.assertRaises(windows.Refusal) as refused:
                windows_of(CALM + [row])
            self.assertEqual((refused.exception.word, refused.exception.place.record), (word, 6))

    def test_a_round_may_not_end_while_a_call_is_open(self):
        cutter = windows.Cutter(lambda events, left: None, 1)
        for event in events_of(CALM + LATER[:3]):
            cutter.take(event)
        with self.assertRaises(windows.Refusal) as refused:
            cutter.end_round()
        self.assertEqual((refused.exception.word, refused.exception.place.record), ("open", 7))


class Differential(unittest.TestCase):
    """Many histories: the whole is what the windows are together."""

    def test_the_whole_is_atomic_or_regular_exactly_where_each_window_is(self):
        draw, seen, cuts = random.Random(7), [0, 0, 0], 0
        for _ in range(TEXTS):
            rows = history(draw)[1:]
            for least in (1, draw.randint(2, 20)):
                found = windows_of(rows, least)
                codes = [2 if missed else verdict_of(text.decode()) for _, text, missed in found]
                cuts += len(found) > 1
                whole = verdict_of(text_of(rows))
                self.assertEqual(max(codes, default=0), whole, rows)
            seen[whole] += 1
        self.assertTrue(min(seen) > TEXTS / 50 and cuts > TEXTS / 2, (seen, cuts))

    def test_the_judge_finds_the_same_in_long_histories(self):
        for name in ("none overlaps, width 8", "atomic, width 8", "any numbers, width 2", "toggling views", "wrong values, the last view"):
            rows = shapes_of(name, USUAL)[1].splitlines()[1:]
            whole = judged(text_of(rows))
            for least in (1, 1000):
                codes = [2 if missed else judged(text) for _, text, missed in windows_of(rows, least)]
                self.assertEqual(max(codes), whole, name)

    def test_a_fault_of_a_long_history_is_in_its_window_alone(self):
        draw = random.Random(19)
        for _ in range(3):
            rows = shapes_of("none overlaps, width 8", USUAL)[1].splitlines()[1:]
            views = [place for place, row in enumerate(rows) if row.startswith("end") and " 7:" in row and " 7:1:" not in row]
            at = draw.choice(views)
            component, count, value = map(int, rows[at].rpartition(" ")[2].split(":"))
            # the update before the one that it must show
            rows[at] = f"{rows[at].rpartition(' ')[0]} {component}:{count - 1}:{value - 3}"
            self.assertEqual(judged(text_of(rows)), 2)
            found = windows_of(rows, 1000)
            codes = [2 if missed else judged(text) for _, text, missed in found]
            faulty = codes.index(2)
            self.assertEqual(sum(codes), 2)
            before = sum(window[0] for window in found[:faulty])
            self.assertTrue(before <= at < before + found[faulty][0])

    def test_what_is_no_history_has_the_refusal_of_the_judge_and_of_the_one_in_python(self):
        second = os.path.join(EXAMPLES, "judge.py")
        refused = 0
        for at, text in zip(range(TEXTS), texts_of(random.Random(11))):
            found, said = followed(text), snapjudge.report(text)
            if said[0] == "refused":
                refused += 1
                self.assertEqual(found, said[1].strip(), text)
                if refused <= READ:
                    ran = subprocess.run([sys.executable, "-B", second], input=text, capture_output=True, check=False)
                    self.assertEqual(ran.stdout.decode().strip(), found, text)
            else:
                self.assertEqual(found, snapjudge.STATUSES.index(said[0]), text)
        self.assertGreater(refused, TEXTS / 4)

    def test_files_and_stamps_change_no_window(self):
        draw = random.Random(23)
        for _ in range(100):
            rows = history(draw)[1:]
            stamps = [f"{7 * at},{row}" for at, row in enumerate(rows)]
            cuts = [0, *sorted(draw.randint(0, len(rows)) for _ in range(2)), len(rows)]
            found = []
            with tempfile.TemporaryDirectory() as room:
                for name, all_rows, header in (("plain", rows, HEADER), ("stamped", stamps, "at," + HEADER)):
                    os.mkdir(os.path.join(room, name))
                    for at in range(3):
                        part = all_rows[cuts[at] : cuts[at + 1]]
                        if name == "stamped":
                            draw.shuffle(part)
                        with open(os.path.join(room, name, f"{at}.csv"), "w") as file:
                            file.write(text_of(part, header))
                    found.append(followed_at(os.path.join(room, name), "--events", "3"))
                path = os.path.join(room, "run.csv")
                with open(path, "w") as file:
                    file.write(text_of(rows))
                found.append(followed_at(path, "--events", "3"))
            told = [(status, [line.partition(b" from ")[0] for line in lines]) for status, lines in found]
            self.assertEqual((told[0], told[1]), (told[2], told[2]), rows)

    def test_records_do_not_depend_on_how_their_bytes_come(self):
        draw = random.Random(13)
        wild = [b'"a""b",c\r\n\r\n"x\ny"z,\n', b'\xef\xbb\xbf"a"\n', b'\xef\xbb', b'a,"', b'a,""', b'"a""', b',\r,\n""\n', b'a"b,c\n"d"e"f\n', b'"']
        for text in wild + [damaged(text_of(history(draw)).encode(), draw) for _ in range(300)]:
            whole, parts = windows.Records(), windows.Records()
            pieces = [fields for at in range(len(text)) for fields, _ in parts.take(text[at : at + 1])]
            wanted = [fields for fields, _ in whole.take(text, is_end=True)]
            self.assertEqual(pieces + [fields for fields, _ in parts.take(b"", is_end=True)], wanted, text)
        self.assertEqual([fields for fields, _ in windows.Records().take(wild[0], is_end=True)], [[b'a"b', b"c"], [b"x\nyz", b""]])
        self.assertEqual([fields for fields, _ in windows.Records().take(wild[6], is_end=True)], [[b"", b""], [b"", b""], [b""]])
        self.assertEqual([fields for fields, _ in windows.Records().take(wild[7], is_end=True)], [[b'a"b', b"c"], [b'de"f']])


def followed_at(path, *words):
    """The status of what is followed to its end, or its refusal, and the lines of the windows."""
    lines = []
    with mock.patch("snapjudge.follow.write", lines.append), mock.patch("snapjudge.follow.say"):
        it = follow.Follow(os.fsencode(path), follow.words_of(["--once", *words, path]), lambda: False)
        try:
            it.take(float("inf"))
            it.end(True, False)
        except windows.Refusal as refusal:
            return f"refused record {refusal.place.record}: {refusal.word}", lines
        return it.status, lines


def followed(text):
    """The status of a text that is followed to its end, or its refusal."""
    with tempfile.TemporaryDirectory() as room:
        path = os.path.join(room, "run.csv")
        with open(path, "wb") as file:
            file.write(text)
        return followed_at(path, "--events", "1")[0]


def environment():
    return {**os.environ, "PYTHONPATH": os.pathsep.join([HERE, os.environ.get("PYTHONPATH", "")])}


def command_of(words):
    return [sys.executable, "-B", "-m", "snapjudge.follow", *words]


class Program(unittest.TestCase):
    """The program itself, over files that grow."""

    def setUp(self):
        self.room = tempfile.mkdtemp()
        self.addCleanup(shutil.rmtree, self.room)

    def path(self, name):
        return os.path.join(self.room, name)

    def put(self, name, rows, header=HEADER, mode="w"):
        os.makedirs(os.path.dirname(self.path(name)), exist_ok=True)
        with open(self.path(name), mode) as file:
            file.write(text_of(rows, header))

    def add(self, name, text):
        with open(self.path(name), "a") as file:
            file.write(text)

    def ran(self, *words, text=None):
        ran = subprocess.run(command_of(words), cwd=self.room, env=environment(), input=text, capture_output=True, timeout=PATIENCE, check=False)
        return ran.returncode, ran.stdout.decode(), ran.stderr.decode()

    @contextlib.contextmanager
    def following(self, *words):
        """The program while it follows, which takes interrupts though they may be ignored where the tests run."""
        takes = {"preexec_fn": lambda: signal.signal(signal.SIGINT, signal.SIG_DFL)}
        it = subprocess.Popen(command_of(["-s", "0.1", *words]), cwd=self.room, env=environment(), stdout=subprocess.PIPE, stderr=subprocess.PIPE, **takes)
        try:
            yield it
        finally:
            it.kill()
            it.communicate()

    def ended(self, it, signal_number=None):
        if signal_number:
            it.send_signal(signal_number)
        out, said = it.communicate(timeout=PATIENCE)
        return it.returncode, out.decode(), said.decode()

    def expect_line(self, it, line):
        self.assertEqual(it.stdout.readline().decode(), line + "\n")

    def test_each_window_has_a_line_and_then_come_the_sums(self):
        self.put("run.csv", CALM + LATER + ["begin,2,view,", "end,2,view,0:1:7"])
        self.assertEqual(self.ran("--once", "--events", "4", "run.csv"), (2, """window 1 events 4 atomic from 2 to 5
window 2 events 4 atomic from 6 to 9
window 3 events 4 not-regular from 10 to 13 misses 0:2:8 in record 13
windows 3 events 12 views 4
atomic 2 first 1
only-regular 0
not-regular 1 first 3
refused 0
failed 0
""", ""))

    def test_a_window_that_is_not_atomic_is_kept(self):
        inversion = ["begin,0,update,0:2:8", "begin,1,view,", "end,1,view,0:2:8", "begin,2,view,", "end,2,view,0:1:7", "end,0,update,"]
        self.put("run.csv", CALM + inversion)
        os.mkdir(self.path("kept"))
        status, out, _ = self.ran("--once", "--events", "4", "--keep", "kept", "run.csv")
        self.assertEqual((status, out.splitlines()[1], os.listdir(self.path("kept"))),
                         (1, "window 2 events 6 only-regular from 6 to 11", ["window-2.csv"]))
        with open(self.path("kept/window-2.csv")) as file, open(os.path.join(EXAMPLES, "new-old-inversion.csv")) as wanted:
            self.assertEqual(file.read(), wanted.read().replace("0:1:7", "0:1:8"))
        for folder, words in (("none", "--keep: none is not a folder"), ("run.csv", "--keep: run.csv is not a folder")):
            status, _, said = self.ran("--once", "--keep", folder, "run.csv")
            self.assertEqual((status, words in said), (5, True))
        os.remove(self.path("kept/window-2.csv"))
        os.symlink("/dev/full", self.path("kept/window-2.csv"))
        status, out, said = self.ran("--once", "--events", "4", "--keep", "kept", "run.csv")
        self.assertEqual((status, out.splitlines(), said), (4, ["window 1 events 4 atomic from 2 to 5"],
                                                            "snapjudge: kept/window-2.csv: No space left on device\n"))

    def test_pending_calls_are_in_the_last_window(self):
        self.put("run.csv", CALM + ["begin,0,update,0:2:8", "begin,1,view,", "end,1,view,0:2:8"])
        self.assertEqual(self.ran("--once", "run.csv")[1].splitlines()[0], "window 1 events 7 atomic from 2 to 8")

    def test_a_text_that_is_no_history_is_refused_and_the_windows_before_stay(self):
        self.put("run.csv", CALM + ["begin,0,update,0:3:8", "nothing"])
        status, out, said = self.ran("--once", "--events", "4", "run.csv")
        self.assertEqual((status, out.splitlines()[1:3], said), (3, ["window 2 refused record 6: number", "windows 2 events 4 views 1"], ""))
        self.assertEqual(out.splitlines()[6], "refused 1 first 2")
        self.put("run.csv", [], "")
        self.assertEqual(self.ran("--once", "run.csv")[1].splitlines()[0], "window 1 refused record 1: header")
        self.assertEqual(self.ran("--idle", "0.1", "-s", "0.1", "run.csv")[1].splitlines()[0], "window 1 refused record 1: header")

    def test_a_run_that_is_never_quiet_is_refused_with_what_to_do(self):
        self.put("run.csv", ["begin,3,view,"] + ["begin,4,view,", "end,4,view,"] * 32768)
        status, out, said = self.ran("--once", "run.csv")
        self.assertEqual((status, out.splitlines()[0]), (3, "window 1 refused record 65538: toomany"))
        self.assertEqual(said, "snapjudge: run.csv: toomany: more than 65536 events without a moment at which no call is open; let the recorder work "
                               "in rounds: a barrier, at which all threads wait until no call is open. Open: the view of process 3, begun by record 2\n")
        status, out, said = self.ran("--once", "--most", "65537", "run.csv")
        self.assertEqual((status, out.splitlines()[0], said), (0, "window 1 events 65537 atomic from 2 to 65538", ""))
        status, out, said = self.ran("--once", "--most", "100", "--events", "100", "run.csv")
        self.assertEqual((status, out.splitlines()[0]), (3, "window 1 refused record 102: toomany"))
        self.assertIn("more than 100 events without a moment", said)

    def test_a_window_has_no_more_events_than_is_said(self):
        self.put("run.csv", CALM + LATER)
        status, out, _ = self.ran("--once", "--most", "4", "--events", "4", "run.csv")
        self.assertEqual((status, [line.split()[3] for line in out.splitlines()[:3]]), (0, ["4", "4", "2"]))
        for words in (["--most", "0"], ["--most", "1048577"], ["--most", "999", "--events", "1000"], ["--events", "65537"]):
            self.assertEqual(self.ran("--once", *words, "run.csv")[0], 5, words)

    def test_a_file_is_followed_while_it_grows(self):
        self.put("run.csv", CALM[:3])
        with self.following("--events", "4", "--idle", "1", "run.csv") as it:
            self.add("run.csv", "end,1,vi")
            time.sleep(0.4)
            self.add("run.csv", "ew,0:1:7\n" + text_of(LATER, ""))
            self.expect_line(it, "window 1 events 4 atomic from 2 to 5")
            self.expect_line(it, "window 2 events 4 atomic from 6 to 9")
            # what is after the last cut is judged at the end
            self.assertEqual(self.ended(it), (0, "window 3 events 2 atomic from 10 to 11\nwindows 3 events 10 views 3\natomic 3 first 1\n"
                                                 "only-regular 0\nnot-regular 0\nrefused 0\nfailed 0\n", ""))

    def test_it_ends_when_the_process_that_records_is_gone(self):
        self.put("run.csv", CALM)
        recorder = subprocess.Popen(["sleep", "60"])
        try:
            with self.following("--events", "4", "--pid", str(recorder.pid), "run.csv") as it:
                self.expect_line(it, "window 1 events 4 atomic from 2 to 5")
                self.add("run.csv", text_of(LATER, "") + "begin,0,")
                self.expect_line(it, "window 2 events 4 atomic from 6 to 9")
                self.assertIsNone(it.poll())
                recorder.kill()
                recorder.wait()
                status, out, said = self.ended(it)
        finally:
            recorder.kill()
            recorder.wait()
        self.assertEqual((status, out.splitlines()[:2], said), (0, ["window 3 events 2 atomic from 10 to 11", "windows 3 events 10 views 3"],
                                                                "snapjudge: run.csv: the last line has no end, and is left out\n"))

    def test_a_last_line_without_an_end_is_left_out_or_whole(self):
        self.put("run.csv", CALM)
        self.add("run.csv", "begin,0,update,0:2")
        status, out, said = self.ran("--idle", "0.1", "-s", "0.1", "run.csv")
        self.assertEqual((status, out.splitlines()[0], said), (0, "window 1 events 4 atomic from 2 to 5", "snapjudge: run.csv: the last line has no end, and is left out\n"))
        self.assertEqual(self.ran("--once", "run.csv")[1].splitlines()[0], "window 1 refused record 6: data")
        self.add("run.csv", ":8")
        self.assertEqual(self.ran("--once", "run.csv")[1].splitlines()[0], "window 1 events 5 atomic from 2 to 6")

    def test_an_interrupt_ends_it_with_the_sums_so_far(self):
        for number in (signal.SIGINT, signal.SIGTERM):
            self.put("run.csv", CALM + LATER[:2])
            with self.following("--events", "4", "run.csv") as it:
                self.expect_line(it, "window 1 events 4 atomic from 2 to 5")
                status, out, said = self.ended(it, number)
                self.assertEqual((status, out.splitlines()[:2], said), (0, ["window 2 events 2 atomic from 6 to 7", "windows 2 events 6 views 1"], ""))

    def test_a_file_that_does_not_only_grow_has_failed(self):
        def cut_short():
            os.truncate(self.path("run.csv"), 40)

        def written_anew():
            with open(self.path("run.csv"), "r+") as file:
                file.write(text_of(["begin,7,view,", "end,7,view,"] * 3))

        def replaced():
            self.put("other.csv", CALM + LATER)
            os.replace(self.path("other.csv"), self.path("run.csv"))

        for change, told in ((cut_short, "was cut short"), (written_anew, "was written anew"), (replaced, "is another file now")):
            self.put("run.csv", CALM)
            with self.following("--events", "4", "run.csv") as it:
                self.expect_line(it, "window 1 events 4 atomic from 2 to 5")
                change()
                status, out, said = self.ended(it)
                self.assertEqual((status, out.splitlines()[0], out.splitlines()[-1]), (4, "window 2 failed", "failed 1 first 2"))
                self.assertEqual(said.partition(" while")[0].strip(), f"snapjudge: run.csv: {told}")

    def test_an_idle_time_may_be_shorter_than_the_interval(self):
        self.put("run.csv", CALM)
        self.assertEqual(self.ran("-s", str(2 * PATIENCE), "--idle", "0.2", "run.csv")[0::2], (0, ""))

    def test_a_file_that_is_removed_is_followed_as_it_is(self):
        self.put("run.csv", CALM)
        with self.following("--events", "4", "--idle", "0.5", "run.csv") as it:
            self.expect_line(it, "window 1 events 4 atomic from 2 to 5")
            os.remove(self.path("run.csv"))
            self.assertEqual(self.ended(it)[0::2], (0, ""))

    def test_a_folder_is_one_recording_whose_files_come_later(self):
        self.put("runs/1.csv", CALM[:3])
        with self.following("--events", "4", "--idle", "1", "runs") as it:
            time.sleep(0.3)
            # a call may be open at the end of a file
            self.put("runs/2.csv", CALM[3:] + LATER[:2])
            self.expect_line(it, "window 1 events 4 atomic from 2 of runs/1.csv to 2 of runs/2.csv")
            self.put("runs/3.csv", LATER[2:])
            self.expect_line(it, "window 2 events 4 atomic from 3 of runs/2.csv to 3 of runs/3.csv")
            self.put("runs/notes.txt", ["no record"])
            self.assertEqual(self.ended(it)[0::2], (0, ""))

    def test_a_folder_in_which_an_earlier_file_changes_has_failed(self):
        for name, told in (("runs/1.csv", "runs/1.csv: came too late: a later name is read"), ("runs/2.csv", "runs/2.csv: has changed after a later file began")):
            shutil.rmtree(self.path("runs"), ignore_errors=True)
            self.put("runs/2.csv", CALM)
            self.put("runs/3.csv", LATER)
            with self.following("--events", "4", "runs") as it:
                self.expect_line(it, "window 1 events 4 atomic from 2 of runs/2.csv to 5 of runs/2.csv")
                self.expect_line(it, "window 2 events 4 atomic from 2 of runs/3.csv to 5 of runs/3.csv")
                self.put(name, LATER + LATER)
                status, out, said = self.ended(it)
                self.assertEqual((status, out.splitlines()[0], said), (4, "window 3 failed", f"snapjudge: {told}\n"))

    def test_rounds_begin_at_1_from_what_the_round_before_left(self):
        self.put("runs/1.csv", CALM)
        # the second round as a recorder writes it: 7 is the first value of component 0
        self.put("runs/2.csv", ["begin,1,view,", "end,1,view,", "begin,0,update,0:1:8", "end,0,update,"])
        status, out, _ = self.ran("--once", "--rounds", "runs")
        self.assertEqual((status, out.splitlines()[:3]), (0, ["window 1 events 4 atomic from 2 of runs/1.csv to 5 of runs/1.csv",
                                                              "window 2 events 4 atomic from 2 of runs/2.csv to 5 of runs/2.csv", "windows 2 events 8 views 2"]))
        # as one recording the view shows less than was left, and the number is none that follows
        self.assertEqual(self.ran("--once", "runs")[1].splitlines()[0], "window 1 refused record 4 of runs/2.csv: number")
        self.put("runs/2.csv", ["begin,1,update,0:1:8", "end,1,update,"])
        self.assertEqual(self.ran("--once", "--rounds", "runs")[1].splitlines()[1], "window 2 refused record 2 of runs/2.csv: writer")

    def test_a_cut_while_a_call_is_open_is_refused(self):
        self.put("runs/1.csv", CALM + ["begin,1,view,"])
        self.put("runs/2.csv", ["end,1,view,"])
        status, out, said = self.ran("--once", "--rounds", "--events", "4", "runs")
        self.assertEqual((status, out.splitlines()[1]), (3, "window 2 refused record 6 of runs/1.csv: open"))
        self.assertEqual(said, "snapjudge: runs/1.csv: open: a file may not end here, since this call is open; let each round end when all its calls have "
                               "ended. Open: the view of process 1, begun by record 6 of runs/1.csv\n")
        self.assertEqual(self.ran("--rounds", "runs/1.csv")[0], 5)

    def test_stamps_order_the_records(self):
        stamped = [f"{10 * at},{row}" for at, row in enumerate(CALM + LATER)]
        random.Random(17).shuffle(stamped)
        self.put("run.csv", stamped, "at," + HEADER)
        status, out, _ = self.ran("--once", "--events", "4", "run.csv")
        self.assertEqual((status, [line.partition(" from ")[0] for line in out.splitlines()[:4]]),
                         (0, ["window 1 events 4 atomic", "window 2 events 4 atomic", "window 3 events 2 atomic", "windows 3 events 10 views 3"]))
        at = stamped.index("0,begin,0,update,0:1:7") + 2, stamped.index("30,end,1,view,0:1:7") + 2
        self.assertTrue(out.splitlines()[0].endswith("from %d to %d" % at))
        self.put("run.csv", ["3,begin,0,view,", "3,end,0,view,"], "at," + HEADER)
        self.assertEqual(self.ran("--once", "run.csv")[1].splitlines()[0], "window 1 refused record 3: repeated")

    def test_records_with_stamps_may_come_one_interval_late(self):
        stamped = [f"{10 * at},{row}\n" for at, row in enumerate(CALM + LATER)]
        self.put("run.csv", [], "at," + HEADER)
        with self.following("-s", "1", "--events", "4", "run.csv") as it:
            self.add("run.csv", "".join(stamped[1:5]))
            time.sleep(0.2)
            self.add("run.csv", stamped[0])
            self.expect_line(it, "window 1 events 4 atomic from 6 to 4")
            self.add("run.csv", "25,begin,7,view,\n")
            status, out, said = self.ended(it)
            self.assertEqual((status, out.splitlines()[0]), (3, "window 2 refused record 7: late"))
            self.assertIn("late: its stamp is not after that of a record that was taken; write records sooner, or raise --interval", said)

    def test_an_interrupt_leaves_records_out_to_which_earlier_stamps_may_come(self):
        self.put("run.csv", [f"{at},{row}" for at, row in enumerate(CALM)], "at," + HEADER)
        with self.following("-s", "30", "--events", "4", "run.csv") as it:
            time.sleep(2)
            status, out, said = self.ended(it, signal.SIGINT)
            self.assertEqual((status, out.splitlines()[0], said), (0, "windows 0 events 0 views 0",
                                                                   "snapjudge: run.csv: the last 4 records are left out, since earlier stamps may come\n"))

    def test_files_with_stamps_in_a_folder_follow_one_another(self):
        stamped = [f"{10 * at},{row}" for at, row in enumerate(CALM + LATER)]
        self.put("runs/1.csv", stamped[4::-1], "at," + HEADER)
        self.put("runs/2.csv", stamped[:4:-1], "at," + HEADER)
        self.assertEqual(self.ran("--once", "--events", "4", "runs")[1].splitlines()[:3],
                         ["window 1 events 4 atomic from 6 of runs/1.csv to 3 of runs/1.csv", "window 2 events 4 atomic from 2 of runs/1.csv to 4 of runs/2.csv",
                          "window 3 events 2 atomic from 3 of runs/2.csv to 2 of runs/2.csv"])
        self.put("runs/2.csv", stamped[:5], "at," + HEADER)
        self.assertEqual(self.ran("--once", "--events", "4", "runs")[1].splitlines()[1], "window 2 refused record 2 of runs/2.csv: late")
        self.put("runs/2.csv", LATER)
        self.assertEqual(self.ran("--once", "--events", "4", "runs")[1].splitlines()[1], "window 2 refused record 1 of runs/2.csv: header")

    def test_a_pipe_is_followed_until_it_has_no_writer(self):
        text = text_of(CALM + LATER).encode()
        for words in (["-"], ["--once", "-"], ["/dev/stdin"]):
            status, out, said = self.ran("--events", "4", *words, text=text)
            self.assertEqual((status, out.splitlines()[3], said), (0, "windows 3 events 10 views 3", ""))
        os.mkfifo(self.path("pipe"))
        with self.following("--events", "4", "pipe") as it:
            with open(self.path("pipe"), "wb") as pipe:
                pipe.write(text_of(CALM).encode())
                pipe.flush()
                self.expect_line(it, "window 1 events 4 atomic from 2 to 5")
                pipe.write(text_of(LATER, "").encode())
            self.assertEqual(self.ended(it)[0], 0)

    def test_a_file_at_standard_input_is_followed_from_its_place(self):
        self.put("run.csv", CALM + LATER, "no record\n" + HEADER)
        with open(self.path("run.csv"), "rb") as file:
            os.lseek(file.fileno(), len("no record\n"), os.SEEK_SET)
            ran = subprocess.run(command_of(["--once", "-"]), env=environment(), stdin=file, capture_output=True, timeout=PATIENCE, check=False)
        self.assertEqual((ran.returncode, ran.stdout.splitlines()[0], ran.stderr), (0, b"window 1 events 10 atomic from 2 to 11", b""))

    def test_a_standard_input_that_is_closed_is_told_of(self):
        command = f"'{sys.executable}' -B -m snapjudge.follow --once - <&-"
        ran = subprocess.run(["sh", "-c", command], env=environment(), capture_output=True, timeout=PATIENCE, check=False)
        self.assertEqual((ran.returncode, ran.stdout, ran.stderr), (4, b"", b"snapjudge: -: can't be opened\n"))

    def test_a_record_without_an_end_is_refused(self):
        for device in ("/dev/zero", "run.csv"):
            self.put("run.csv", ["begin,0,view," + "x" * (1 << 20)])
            status, out, said = self.ran("--once", device)
            self.assertEqual((status, out.splitlines()[0].partition(" record ")[2].partition(": ")[2]), (3, "toolong"))
            self.assertIn("or more than 1048576 in a record", said)

    def test_a_folder_that_is_removed_has_failed(self):
        self.put("runs/1.csv", CALM)
        with self.following("--events", "4", "runs") as it:
            self.expect_line(it, "window 1 events 4 atomic from 2 of runs/1.csv to 5 of runs/1.csv")
            shutil.rmtree(self.path("runs"))
            self.assertEqual(self.ended(it)[0::2], (4, "snapjudge: runs: can't be opened\n"))

    def test_no_verdict_comes_where_there_is_none(self):
        self.put("run.csv", CALM)
        for words, status, told in ((["none.csv"], 4, "none.csv: no such file"), (["--once", "."], 0, ""), ([], 5, "PATH"), (["--help"], 5, ""),
                                    (["--events", "0", "run.csv"], 5, "--events"), (["--events", "65537", "run.csv"], 5, "--events"),
                                    (["--idle", "-1", "run.csv"], 5, "--idle"), (["--interval", "nan", "run.csv"], 5, "/--interval: 'nan' is not a number above 0 and below 1000000000"),
                                    (["--once", "--idle", "1", "run.csv"], 5, "not allowed with"), (["--rounds", "run.csv"], 5, "--rounds wants a folder")):
            found = self.ran(*words)
            self.assertEqual((found[0], told in found[2]), (status, True), (words, found))
        self.assertEqual(self.ran("--once", "--views", "2", "run.csv")[0::2], (3, "refused: fewer than 2 views\n"))
        os.mkdir(self.path("empty"))
        self.assertEqual(self.ran("--once", "empty"), (4, "", "snapjudge: there are no recordings\n"))

    def test_a_library_that_is_not_there_is_told_of(self):
        with mock.patch("snapjudge.follow.report", side_effect=ImportError("libsnapjudge.so is not built")), self.assertRaisesRegex(follow.Unable, "is not built"):
            follow.run(follow.words_of(["none.csv"]))

    def test_a_full_disk_is_told_of(self):
        self.put("run.csv", CALM)
        for output in (">/dev/full", ">&-"):
            command = f"'{sys.executable}' -B -m snapjudge.follow --once run.csv {output}"
            ran = subprocess.run(["sh", "-c", command], cwd=self.room, env=environment(), capture_output=True, check=False)
            self.assertEqual((ran.returncode, ran.stderr), (4, b"snapjudge: write failed\n"))

    def test_a_window_for_which_memory_runs_out_has_failed_and_the_others_not(self):
        self.put("run.csv", CALM + LATER)
        lines, path = [], self.path("run.csv")
        answers = [snapjudge.report(text_of(CALM)), MemoryError, snapjudge.report(text_of(CALM))]
        with mock.patch("snapjudge.follow.write", lines.append), mock.patch("snapjudge.follow.say") as say, mock.patch("snapjudge.follow.report", side_effect=answers):
            it = follow.Follow(os.fsencode(path), follow.words_of(["--once", "--events", "4", path]), lambda: False)
            it.take(float("inf"))
            it.end(True, False)
        self.assertEqual(lines[1], b"window 2 events 4 failed from 6 to 9\n")
        self.assertEqual((it.status, it.sums().splitlines()[-1]), (4, b"failed 1 first 2"))
        self.assertIn(b"window 2: out of memory", say.call_args.args[0])


if __name__ == "__main__":
    unittest.main()
