"""The histories of worked logs, what the judge says of them, and what is wrong with logs. usage: misuse_logs.py PROGRAM"""
import os
import random
import subprocess
import sys
import tempfile
import unittest

from merge_logs import LogError, merge, read_log

HERE = os.path.dirname(os.path.abspath(__file__))
LOGS = os.path.join(HERE, "..", "logs")
PROGRAM = os.path.realpath(sys.argv.pop(1))
HEADER = "ns,event,process,op,data"
STAMPED = "at,event,process,op,data"


def log_of(*lines):
    return "".join(f"{line}\n" for line in (HEADER, *lines)).encode()


def update(process, begun, ended, entry):
    return [f"{begun},begin,{process},update,{entry}", f"{ended},end,{process},update,"]


def view(process, begun, ended, entries):
    return [f"{begun},begin,{process},view,", f"{ended},end,{process},view,{entries}"]


def judge(history, *words):
    """The status of the program and the lines of its report."""
    done = subprocess.run([PROGRAM, "check", *words], input=history.encode(), stdout=subprocess.PIPE, timeout=600)
    return done.returncode, done.stdout.decode().splitlines()


def right_logs(draw, skew, step, pause):
    """Logs of three processes and a right object: each call takes effect at a moment from its begin to its end. The clock of a process
    is off by at most skew, and its readings are multiples of step. More than pause lies between two calls.
    """
    calls = []
    for process in range(3):
        now, off = draw.randrange(100), draw.randint(0, 2 * skew)
        for i in range(8):
            begun = now + pause + 1 + draw.randrange(20)
            done = begun + draw.randrange(30)
            now = done + draw.randrange(30)
            calls.append((done, process, i, [(time + off) // step * step for time in (begun, now)]))
    board, logs = [0, 0, 0], [[], [], []]
    for _, process, i, readings in sorted(calls):
        if i % 2:
            logs[process] += view(process, *readings, " ".join(f"{k}:{value}" for k, value in enumerate(board)))
        else:
            board[process] = i + 1
            logs[process] += update(process, *readings, f"{process}:{i + 1}")
    return [log_of(*lines) for lines in logs]


def merged_calls(logs, error):
    return merge([call for log in logs for call in read_log("", log.decode(), error)[0]])[0]


class Logs(unittest.TestCase):
    def setUp(self):
        folder = tempfile.TemporaryDirectory()
        self.addCleanup(folder.cleanup)
        self.folder = folder.name

    def merge(self, logs, *words):
        """The status of merge_logs.py, what it wrote, and what it told. Log i is the file i.log."""
        names = [f"{i}.log" for i in range(len(logs))]
        for name, log in zip(names, logs):
            with open(os.path.join(self.folder, name), "wb") as file:
                file.write(log)
        command = [sys.executable, "-B", os.path.join(HERE, "merge_logs.py"), *words, *names]
        done = subprocess.run(command, cwd=self.folder, stdout=subprocess.PIPE, stderr=subprocess.PIPE, timeout=600)
        return done.returncode, done.stdout.decode(), done.stderr.decode()

    def merged(self, logs, *words):
        status, history, told = self.merge(logs, *words)
        self.assertEqual((status, told), (0, ""))
        return history

    def assertRefused(self, place, word, logs, *words):
        status, history, told = self.merge(logs, *words)
        self.assertEqual((status, history), (3, ""))
        self.assertEqual(told[: len(place) + len(word) + 2], f"{place}{word}: ")

    def assertRefusedLine(self, word, *lines):
        """The last of the lines is at fault."""
        with self.assertRaises(LogError) as raised:
            merge(read_log("0.log", log_of(*lines).decode())[0])
        self.assertEqual((raised.exception.word, raised.exception.place), (word, ("0.log", len(lines) + 1)))

    # ---- histories

    def test_worked_logs(self):
        logs = []
        for name in ("0.log", "1.log", "4.log"):
            with open(os.path.join(LOGS, name), "rb") as file:
                logs.append(file.read())
        with open(os.path.join(LOGS, "merged.csv")) as file:
            expected = file.read()
        cut = "0.log: the last line has no end, and is left out\n"
        self.assertEqual(self.merge(logs), (0, expected, cut))
        self.assertEqual(self.merge([b"\xef\xbb\xbf" + log.replace(b"\n", b"\r\n") for log in logs]), (0, expected, cut))
        self.assertEqual(judge(expected, "--quiet"), (0, ["regular yes", "monotone yes", "atomic yes"]))

    def test_ties(self):
        """An update ends and a view begins at one reading: the view may miss the update."""
        logs = [log_of(*update(0, 3, 5, "0:7")), log_of(*view(1, 5, 9, "0:0"))]
        history = self.merged(logs)
        self.assertEqual(history, f"{STAMPED}\n0,begin,0,update,0:1:7\n9,begin,1,view,\n10,end,0,update,\n27,end,1,view,\n")
        self.assertEqual(judge(history, "--quiet")[0], 0)
        events = (3, "begin,0,update,0:1:7"), (5, "end,0,update,"), (5, "begin,1,view,"), (9, "end,1,view,")
        bare = "\n".join([STAMPED, *(f"{reading},{event}" for reading, event in events)])
        self.assertEqual(judge(bare), (3, ["refused record 4: repeated"]))
        by_process = "\n".join([STAMPED, *(f"{2 * reading + (',1,' in event)},{event}" for reading, event in events)])
        self.assertEqual((judge(by_process)[0], judge(by_process)[1][-1]), (2, "proximity 1 first view 2 entry 0:0 old"))

    def test_error_of_the_clocks(self):
        """The view began before the update had ended, and its clock is 10 ahead."""
        logs = [log_of(*update(0, 100, 105, "0:7")), log_of(*view(1, 112, 115, "0:0"))]
        status, report = judge(self.merged(logs))
        self.assertEqual((status, report[-1]), (2, "proximity 1 first view 2 entry 0:0 old"))
        history = self.merged(logs, "--error", "10")
        self.assertEqual(history, f"{STAMPED}\n0,begin,0,update,0:1:7\n49,begin,1,view,\n102,end,0,update,\n143,end,1,view,\n")
        self.assertEqual(judge(history, "--quiet")[0], 0)

    def test_right_runs(self):
        """A right run is never called wrong, whatever the clocks are, if the error is that of the clocks and their step."""
        draw = random.Random(1)
        for skew, step in ((0, 1), (0, 25), (40, 1), (40, 25)):
            error = skew + step if skew else 0
            for _ in range(25):
                logs = right_logs(draw, skew, step, 2 * error + step)
                self.assertEqual(judge(merged_calls(logs, error), "--quiet")[0], 0)
        trusted = [judge(merged_calls(right_logs(draw, 40, 1, 0), 0), "--quiet")[0] for _ in range(25)]
        self.assertEqual(set(trusted) - {0, 1, 2}, set())
        self.assertGreater(sum(status > 0 for status in trusted), 10)

    def test_error_at_the_start_of_the_clock(self):
        history = self.merged([log_of(*update(0, 0, 1, "0:7"))], "--error", "3")
        self.assertEqual(history, f"{STAMPED}\n0,begin,0,update,0:1:7\n15,end,0,update,\n")

    def test_value_that_nobody_wrote(self):
        """It is judged: the entry gets the last number that had begun."""
        writer = log_of(*update(0, 0, 1, "0:7"), *update(0, 2, 9, "0:8"), *update(0, 10, 11, "0:9"))
        history = self.merged([writer, log_of(*view(1, 4, 5, "0:99"))])
        self.assertIn(",end,1,view,0:2:99\n", history)
        self.assertEqual((judge(history)[0], judge(history)[1][4:]), (2, ["integrity 1 first view 3 entry 0:2:99"]))
        unwritten = self.merged([log_of(*view(1, 4, 5, "3:99"))])
        self.assertIn(",end,1,view,3:1:99\n", unwritten)
        self.assertEqual((judge(unwritten)[0], judge(unwritten)[1][4:]), (2, ["integrity 1 first view 1 entry 3:1:99"]))

    def test_dropped_update_that_was_seen(self):
        history = self.merged([log_of("1,begin,0,update,0:7", "9,drop,0,update,"), log_of(*view(1, 4, 5, "0:7"))])
        self.assertEqual(judge(history)[1][-1], "integrity 1 first view 1 entry 0:1:7")

    def test_value_of_a_dropped_update_again(self):
        lines = ["1,begin,0,update,0:7", "2,drop,0,update,", *update(0, 2, 3, "0:7")]
        self.assertEqual(self.merged([log_of(*lines)]), f"{STAMPED}\n0,begin,0,update,0:1:7\n3,end,0,update,\n")

    def test_fate_that_is_unknown(self):
        """The update stays pending, whether a view shows it or not. Its process goes on under another number."""
        for shown in ("0:0 1:0", "0:7 1:0"):
            history = self.merged([log_of("1,begin,0,update,0:7"), log_of(*view(1, 4, 5, shown), *update(1, 6, 7, "1:3"))])
            self.assertEqual(judge(history, "--quiet")[0], 0)

    def test_killed_at_each_byte(self):
        """The log of a viewer is cut at each byte: what is left is a history."""
        with open(os.path.join(LOGS, "4.log"), "rb") as file:
            whole = file.read()
        writers = [log_of(*update(0, 100, 105, "0:7"), "130,begin,0,update,0:8"), log_of(*update(1, 103, 110, "1:5"))]
        calls = [call for log in writers for call in read_log("", log.decode())[0]]
        seen = set()
        for length in range(len(whole)):
            cut, is_cut = read_log("", whole[:length].decode())
            self.assertEqual(is_cut, length > 0 and whole[length - 1] != 10)
            seen.add(merge(calls + cut)[0])
        self.assertEqual(len(seen), 4)  # no call, a pending one, a whole one, a whole and a pending one
        for history in seen:
            self.assertEqual(judge(history, "--quiet")[0], 0)

    def test_part(self):
        lines = [*view(2, 10, 11, "0:7"), *view(2, 12, 13, "1:5 2:0"), *view(2, 14, 15, "0:7 1:5 2:"), "16,begin,2,view,"]
        logs = [log_of(*update(0, 1, 2, "0:7")), log_of(*update(1, 1, 2, "1:5")), log_of(*lines)]
        self.assertRefused("2.log:3: ", "part", logs)
        first = f"{STAMPED}\n0,begin,0,update,0:1:7\n6,end,0,update,\n37,begin,2,view,\n43,end,2,view,0:1:7\n"
        second = f"{STAMPED}\n0,begin,1,update,1:1:5\n6,end,1,update,\n45,begin,2,view,\n51,end,2,view,1:1:5\n"
        last = "53,begin,2,view,\n59,end,2,view,"
        self.assertEqual(self.merged(logs, "--part", "0"), f"{first}{last}0:1:7\n")
        self.assertEqual(self.merged(logs, "--part", "1,2"), f"{second}{last}1:1:5\n")

    def test_first_values(self):
        logs = [log_of(*update(0, 1, 2, "0:7"), *view(0, 3, 4, "0:7 1:6"))]
        for initial, entries in (("6", "0:1:7"), ("5,6", "0:1:7"), ("6,5", "0:1:7 1:1:6")):
            self.assertIn(f"\n7,end,0,view,{entries}\n", self.merged(logs, "--initial", initial))
        self.assertRefused("0.log:5: ", "initial", [log_of(*update(0, 1, 2, "0:7"), *view(0, 3, 4, "0:7 3:6"))], "--initial", "5,6,7")
        self.assertRefused("0.log:2: ", "same", logs, "--initial", "7,0")

    def test_words(self):
        logs = [log_of(*update(0, 1, 2, "0:a:b"), *update(0, 3, 4, "0:-1"), *view(0, 5, 6, "0:\u00e9 1:none"))]
        history = self.merged(logs, "--table", "table", "--initial", "none")
        expected = "0,begin,0,update,0:1:0\n3,end,0,update,\n4,begin,0,update,0:2:1\n7,end,0,update,\n8,begin,0,view,\n11,end,0,view,0:2:2\n"
        self.assertEqual(history, f"{STAMPED}\n{expected}")
        with open(os.path.join(self.folder, "table"), encoding="utf-8") as file:
            self.assertEqual(file.read(), "0,a:b\n1,-1\n2,\u00e9\n")

    def test_logs_of_nothing(self):
        self.assertEqual(self.merged([b"", log_of(), b""]), f"{STAMPED}\n")

    # ---- several writers of a component

    def test_two_writers(self):
        """Their updates do not overlap, and get a process of their own. The second update is the one that the view shows."""
        logs = [log_of(*update(0, 1, 2, "5:1")), log_of(*view(1, 1, 2, "5:1"), *update(1, 8, 9, "5:2"), *view(1, 10, 11, "5:2"))]
        status, history, told = self.merge(logs)
        self.assertEqual(told, "component 5: processes 0 and 1 update it; in the history its updates have process 2\n")
        updates = "1,begin,2,update,5:1:1", "7,end,2,update,", "29,begin,2,update,5:2:2", "35,end,2,update,"
        views = "0,begin,1,view,", "6,end,1,view,5:1:1", "36,begin,1,view,", "42,end,1,view,5:2:2"
        lines = sorted(updates + views, key=lambda line: int(line.split(",")[0]))
        self.assertEqual((status, history.splitlines()), (0, [STAMPED, *lines]))
        self.assertEqual(judge(history, "--quiet")[0], 0)

    def test_no_process_is_left(self):
        calls = [call for process in range(65536) for call in read_log("0.log", log_of(f"{3 * process + 1},begin,{process},view,").decode())[0]]
        for process in (0, 1):
            calls += read_log(f"{process}.log", log_of(*update(process, 3 * process + 1, 3 * process + 2, f"5:{process + 1}")).decode())[0]
        with self.assertRaises(LogError) as raised:
            merge(calls, limit=1 << 20)
        self.assertEqual(raised.exception.word, "process-limit")

    def test_unknown_updates_of_several_writers(self):
        """An update without an end that no view shows goes; one that a view shows ends with that view, if another update follows."""
        unknown, other = "1,begin,0,update,5:1", log_of(*update(1, 7, 9, "5:2"))
        gone = self.merge([log_of(unknown), other, log_of(*view(2, 4, 6, "5:0"))])
        self.assertEqual(gone[2], "component 5: updates without an end that no view shows, left out: 1\n")
        self.assertNotIn("5:1:1", gone[1])
        shown = self.merge([log_of(unknown), other, log_of(*view(2, 4, 6, "5:1"))])
        told = "component 5: updates cut short: 1; atomic stays as it is, regular may become stricter"
        self.assertEqual(shown[2].splitlines()[1:], [told])
        self.assertIn(",end,2,view,5:1:1\n", shown[1])
        self.assertEqual(judge(shown[1], "--quiet")[0], 0)
        self.assertRefused("1.log:2: ", "overlap", [log_of(unknown), other, log_of(*view(2, 4, 7, "5:1"))])

    def test_versions(self):
        """The versions give the order, and each update is cut to the times that it allows. The first one is shown before it ends."""
        first = log_of("1,begin,0,update,5:1", "9,end,0,update,7")
        second = log_of("2,begin,1,update,5:2", "12,end,1,update,8")
        told = "component 5: processes 0 and 1 update it; in the history its updates have process 3\n"
        told += "component 5: updates cut short: 2; atomic stays as it is, regular may become stricter\n"
        for shown, is_atomic in (("5:7:1", True), ("5:8:2", True), ("5:", True), ("5:7:1 6:7:9", False)):
            status, history, said = self.merge([first, second, log_of(*view(2, 4, 8, shown))], "--versions")
            self.assertEqual((status, said), (0, told))
            self.assertEqual(judge(history, "--quiet")[0] == 0, is_atomic)
        later = log_of("10,begin,1,update,5:2", "12,end,1,update,8")
        history = self.merged([first, later, log_of(*view(2, 4, 8, "5:7:1"))][:1], "--versions")
        self.assertEqual(history, f"{STAMPED}\n0,begin,0,update,5:1:1\n17,end,0,update,\n")
        status, history, told = self.merge([first, later, log_of(*view(2, 4, 13, "5::2"))], "--versions")
        self.assertEqual((status, told), (0, "component 5: processes 0 and 1 update it; in the history its updates have process 3\n"))
        self.assertEqual(judge(history, "--quiet")[0], 0)

    def test_cut_by_versions(self):
        """An update without an end ends before one of a higher version does, and then overlaps it no more."""
        unknown, view_of_it = log_of("1,begin,0,update,5:1"), log_of(*view(2, 2, 3, "5:7:1"), *view(2, 11, 12, "5:8:2"))
        logs = [unknown, log_of("4,begin,1,update,5:2", "10,end,1,update,8"), view_of_it]
        status, history, told = self.merge(logs, "--versions")
        self.assertEqual((status, told.count("cut short: 1")), (0, 1))
        self.assertEqual(judge(history, "--quiet")[0], 0)

    def test_versions_against_time(self):
        logs = [log_of("1,begin,0,update,5:1", "2,end,0,update,8"), log_of("3,begin,1,update,5:2", "4,end,1,update,7")]
        told = "1.log:2 and 0.log:2: not atomic: the first update has the lower version, and it began after the second had ended\n"
        for writers in ("one", "many"):
            self.assertEqual(self.merge(logs, "--versions", "--writers", writers), (1, "", told))

    def test_many_writers(self):
        """Each update keeps its process. The version of the first one is higher, so the second one ends no later than it, and before it."""
        first = log_of("1,begin,0,update,5:1", "9,end,0,update,8")
        second = log_of("2,begin,1,update,5:2", "12,end,1,update,7")
        logs = [first, second, log_of(*view(2, 3, 5, "5:7:2"), *view(2, 6, 7, "5:8:1"))]
        updates = "0,begin,1,update,5:1:2", "1,begin,0,update,5:2:1", "6,end,1,update,", "7,end,0,update,"
        views = "2,begin,2,view,", "3,end,2,view,5:1:2", "4,begin,2,view,", "5,end,2,view,5:2:1"
        history = "\n".join([STAMPED, *sorted(updates + views), ""])
        told = "component 5: updates cut short: 2; atomic stays as it is, regular may become stricter\n"
        self.assertEqual(self.merge(logs, "--versions", "--writers", "many"), (0, history, told))
        verdicts = ["events 8 calls 4 pending 0 views 2", "regular yes", "monotone yes", "atomic yes", "order 4"]
        order = ["1 p1 update 5:1:2", "3 p2 view 5:1:2", "2 p0 update 5:2:1", "4 p2 view 5:2:1"]
        self.assertEqual(judge(history, "--writers", "many"), (0, verdicts + order))
        self.assertEqual(self.merge(logs, "--versions", "--writers", "one"), self.merge(logs, "--versions"))

    def test_many_writers_without_an_end(self):
        """Updates that a view shows stay, and the versions alone cut them. Parted, the first of two ends before the last view begins."""
        many, views = ("--versions", "--writers", "many"), log_of(*view(2, 3, 4, "5:8:2"), *view(2, 5, 6, "5:"))
        for ends in ([], ["9,end,1,update,8"]):
            logs = [log_of("1,begin,0,update,5:1"), log_of("2,begin,1,update,5:2", *ends), views, log_of(*view(3, 3, 4, "5:7:1"))]
            status, history, told = self.merge(logs, *many)
            self.assertEqual((status, told.count("cut short: 1"), told.count("\n")), (0, len(ends), len(ends)))
            self.assertEqual((history.count(",begin,"), history.count(",end,")), (5, 3 + 2 * len(ends)))
            self.assertEqual(judge(history, "--writers", "many", "--quiet"), (1, ["regular yes", "monotone no", "atomic no"]))
            self.assertEqual(judge(self.merge(logs, "--versions")[1], "--quiet"), (2, ["regular no", "monotone no", "atomic no"]))
        unseen = [log_of("1,begin,0,update,5:1"), log_of("2,begin,1,update,5:2", "9,end,1,update,8")]
        told = "component 5: updates without an end that no view shows, left out: 1\n"
        self.assertEqual(self.merge(unseen, *many), (0, f"{STAMPED}\n0,begin,1,update,5:1:2\n1,end,1,update,\n", told))

    # ---- what is wrong

    def test_header(self):
        self.assertRefused("1.log:1: ", "header", [log_of(), b"at,event,process,op,data\n"])
        self.assertRefused("0.log:1: ", "header", [b"\n"])

    def test_fields(self):
        for line in ("", "1,begin,0,view", "1,begin,0,view,,"):
            self.assertRefusedLine("fields", *view(0, 0, 1, ""), line)

    def test_numbers(self):
        for reading in ("", "-1", "+1", "01", "1.5", "1e9", " 1", "1\u0661", str(1 << 64), "9" * 30):
            self.assertRefusedLine("ns", f"{reading},begin,0,view,")
        for process in ("", "-1", "00", "65536"):
            self.assertRefusedLine("process", f"1,begin,{process},view,")
        for entry in ("256:1", "0:4294967296", "0:-1", "0:01", "0:x", ":1", "0", "x:1", "0:1:1"):
            self.assertRefusedLine("data", f"1,begin,0,update,{entry}")
            self.assertRefusedLine("data", "1,begin,0,view,", f"2,end,0,view,{entry}")
        most = log_of(f"{(1 << 64) - 1},begin,65535,update,255:4294967295")
        self.assertEqual(self.merged([most]), f"{STAMPED}\n0,begin,65535,update,255:1:4294967295\n")

    def test_words_of_a_line(self):
        self.assertRefusedLine("event", "1,Begin,0,view,")
        self.assertRefusedLine("op", "1,begin,0,views,")

    def test_data(self):
        for line in ("1,begin,0,update,", "1,begin,0,update,0:", "1,begin,0,update,0:1 1:1", "1,begin,0,view,0:1"):
            self.assertRefusedLine("data", line)
        for entries in ("1:1 0:1", "0:1 0:1", "0:1  1:1", " 0:1", "0:1 "):
            self.assertRefusedLine("data", "1,begin,0,view,", f"2,end,0,view,{entries}")
        self.assertRefusedLine("data", "1,begin,0,update,0:1", "2,end,0,update,0:1")
        self.assertRefusedLine("data", "1,begin,0,view,", "2,drop,0,view,0:1")
        self.assertRefused("0.log:2: ", "data", [log_of("1,begin,0,update,0:")], "--table", "table")

    def test_another_process(self):
        self.assertRefusedLine("another", *view(0, 1, 2, ""), "3,begin,1,view,")

    def test_clock_that_goes_back(self):
        self.assertRefusedLine("back", *view(0, 1, 3, ""), "2,begin,0,view,")
        self.assertRefusedLine("back", "3,begin,0,view,", "2,end,0,view,")
        self.merged([log_of(*view(0, 3, 3, ""))])

    def test_two_calls_open(self):
        self.assertRefusedLine("busy", "1,begin,0,update,0:1", "2,begin,0,view,")

    def test_end_without_begin(self):
        for event in ("end", "drop"):
            self.assertRefusedLine("idle", *view(0, 1, 2, ""), f"3,{event},0,view,")
            self.assertRefusedLine("otherop", "1,begin,0,update,0:1", f"2,{event},0,view,")

    def test_calls_that_are_too_close(self):
        lines = [*view(0, 1, 5, ""), "5,begin,0,view,"]
        self.assertRefusedLine("close", *lines)
        lines[-1] = "25,begin,0,view,"
        self.assertRefused("0.log:4: ", "close", [log_of(*lines)], "--error", "10")
        lines[-1] = "26,begin,0,view,"
        self.merged([log_of(*lines)], "--error", "10")

    def test_two_logs_of_one_process(self):
        self.assertRefused("2.log:2: ", "twice", [log_of(*view(3, 1, 2, "")), log_of(), log_of(*view(3, 8, 9, ""))])

    def test_updates_that_overlap(self):
        logs = [log_of(*update(0, 1, 8, "5:1")), log_of(*view(1, 1, 2, "5:1"), *update(1, 8, 9, "5:2"))]
        self.assertRefused("1.log:4: ", "overlap", logs)
        self.assertTrue(self.merge(logs)[2].endswith(": the other one is 0.log:2\n"))
        versions = [log_of("1,begin,0,update,5:1", "8,end,0,update,1"), log_of("7,begin,1,update,5:2", "9,end,1,update,2")]
        self.assertEqual(self.merge(versions, "--versions")[0], 0)

    def test_versions_that_are_wrong(self):
        first = log_of("1,begin,0,update,5:1", "2,end,0,update,4")
        self.assertRefused("0.log:3: ", "version", [log_of("1,begin,0,update,5:1", "2,end,0,update,x")], "--versions")
        self.assertRefused("0.log:3: ", "data", [first])
        self.assertRefused("1.log:3: ", "version", [first, log_of(*view(1, 3, 4, "5:5:1"))], "--versions")
        self.assertRefused("1.log:3: ", "version", [first, log_of(*view(1, 3, 4, "5:1"))], "--versions")
        self.assertRefused("1.log:2: ", "versions", [first, log_of("3,begin,1,update,5:2", "4,end,1,update,4")], "--versions")
        self.assertRefused("1.log:2: ", "unversioned", [first, log_of(*update(1, 3, 4, "5:2"))], "--versions")
        unknown = [first, log_of("1,begin,1,update,5:2"), log_of(*view(2, 3, 4, "5::2"))]
        self.assertRefused("1.log:2: ", "unversioned", unknown, "--versions")

    def test_value_written_twice(self):
        self.assertRefused("0.log:4: ", "same", [log_of(*update(0, 1, 2, "0:7"), *update(0, 3, 4, "0:7"))])
        self.assertRefused("0.log:2: ", "same", [log_of(*update(0, 1, 2, "0:0"))])
        self.merged([log_of(*update(0, 1, 2, "0:7"), *update(0, 3, 4, "1:7"))])

    def test_too_many_events(self):
        views = [line for at in range(0, 65536, 2) for line in view(0, at, at + 1, "")]
        self.assertEqual(judge(self.merged([log_of(*views)]), "--quiet")[0], 0)
        more = log_of(*views, *view(0, 65536, 65537, ""))
        self.assertRefused("", "toomany", [log_of(*views, "65536,begin,0,view,")])
        self.assertRefused("", "toomany", [more], "--events", "65537")
        self.assertEqual(judge(self.merged([more], "--events", "65538"), "--quiet", "--events", "65538")[0], 0)
        self.assertRefused("", "toomany", [log_of(*view(0, 0, 1, ""))], "--events", "1")

    def test_readings_that_lie_too_far_apart(self):
        self.merged([log_of(*view(0, 0, (1 << 63) - 1, ""))])
        self.merged([log_of(*view(0, 0, 1, ""), f"{(1 << 63) - 1},begin,0,view,")])
        self.assertRefused("", "span", [log_of(*view(0, 0, 1, ""), f"{1 << 63},begin,0,view,")])

    def test_words_of_the_command(self):
        for words in (["--error", "-1"], ["--part", "256"], ["--part", ""], ["--initial", "x"], ["--unknown"], ["--events", "0"], ["--events", "1048577"]):
            self.assertEqual(self.merge([log_of()], *words)[:2], (5, ""))
        self.assertEqual(self.merge([], "--help")[0], 0)
        told = "--writers many needs --versions: record the versions of the store, and give both"
        self.assertEqual(self.merge([log_of()], "--writers", "many"), (5, "", f"merge_logs.py: {told}\n"))
        status, history, told = self.merge([log_of()], "--versions", "--writers", "two")
        self.assertEqual((status, history), (5, ""))
        self.assertTrue(told.startswith("merge_logs.py: argument --writers: invalid choice: 'two'"))
        self.assertEqual(self.merged([log_of()], "--writers", "one"), f"{STAMPED}\n")

    def test_files_that_fail(self):
        missing = (4, "", "merge_logs.py: missing.log: No such file or directory\n")
        self.assertEqual(self.merge([], "missing.log"), missing)
        self.merge([log_of()])
        for output, told in ((">&-", "standard output is closed"), ("> /dev/full", "No space left on device")):
            command = f'exec "$0" -B "$1" 0.log {output}'
            words = ["sh", "-c", command, sys.executable, os.path.join(HERE, "merge_logs.py")]
            done = subprocess.run(words, cwd=self.folder, stderr=subprocess.PIPE, timeout=600)
            self.assertEqual((done.returncode, done.stderr.decode()), (4, f"merge_logs.py: {told}\n"))


unittest.main()
