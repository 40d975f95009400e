"""The examples of the project by their reports, little room, refused memory, and threads on small stacks."""
import glob
import html
import json
import os
import pathlib
import re
import resource
import subprocess
import sys
import threading
import unittest

import snapjudge

HERE = os.path.dirname(os.path.abspath(__file__))
HEADER = "event,process,op,data\n"


def examples():
    """Name, text and wanted report of each example."""
    found = []
    for name in sorted(glob.glob(os.path.join(HERE, "../../examples/*.csv"))):
        with open(name, "rb") as text, open(name[:-4] + ".report") as wanted:
            found.append((name, text.read(), wanted.read()))
    return found


def status_of(report):
    if report.startswith("refused"):
        return "refused"
    if "regular no" in report:
        return "irregular"
    return "regular" if "atomic no" in report else "atomic"


def faults_of(records, writers="one"):
    """Each fault without its calls."""
    return [(fault.kind, fault.count, fault.view, fault.more) for fault in snapjudge.check(HEADER + records, writers=writers).faults]


class Judge(unittest.TestCase):
    def judge(self, text, wanted):
        status, found = snapjudge.report(text)
        self.assertEqual((status, found), (status_of(wanted), wanted))
        if status == "refused":
            with self.assertRaises(snapjudge.Refused) as refused:
                snapjudge.check(text)
            self.assertEqual(f"refused record {refused.exception.record}: {refused.exception.word}\n", wanted)
            self.assertEqual(str(refused.exception), snapjudge.explain(text))
            return
        judged = snapjudge.check(text)
        self.assertEqual((judged.status, judged.report), (status, wanted))
        verdicts = tuple(f"{word} yes" in wanted for word in ("regular", "monotone", "atomic"))
        self.assertEqual((judged.regular, judged.monotone, judged.atomic), verdicts)
        if judged.atomic:
            self.assertEqual(len(judged.order), int(wanted.split("order ")[1].split("\n")[0]))

    def test_each_example_has_its_report(self):
        self.assertGreaterEqual(len(examples()), 10)
        for name, text, wanted in examples():
            with self.subTest(name):
                self.judge(text, wanted)

    def test_eight_threads_of_128_kib_get_each_examples_report(self):
        right, texts = [], examples()

        def work():
            right.append(all(snapjudge.report(text) == (status_of(wanted), wanted) for _, text, wanted in texts))

        old = threading.stack_size(128 * 1024)
        threads = [threading.Thread(target=work) for _ in range(8)]
        for thread in threads:
            thread.start()
        threading.stack_size(old)
        for thread in threads:
            thread.join()
        self.assertEqual(right, [True] * 8)

    def test_too_little_room_is_told_and_stays_as_it_was(self):
        for name, text, wanted in examples():
            for size in (0, len(wanted) - 1):
                room = bytearray(b"\xee" * size)
                with self.assertRaises(snapjudge.TooLittleRoom) as told:
                    snapjudge.report_into(text, room)
                self.assertEqual((told.exception.length, room), (len(wanted), b"\xee" * size))
            room = bytearray(b"\xee" * (len(wanted) + 1))
            self.assertEqual(snapjudge.report_into(text, room), (status_of(wanted), len(wanted)))
            self.assertEqual(room, wanted.encode() + b"\xee")

    def test_refused_memory_leaves_the_room_as_it_was(self):
        # in a process of its own, since the limit is the process's
        child = subprocess.run([sys.executable, os.path.abspath(__file__), "refuse"], capture_output=True, text=True)
        self.assertEqual((child.stdout, child.stderr), ("refused, unchanged, then atomic\n", ""))

    def test_a_zero_byte_is_no_end(self):
        self.assertEqual(snapjudge.report(HEADER.encode() + b"\0"), ("refused", "refused record 2: fields\n"))

    def test_a_history_is_text_or_bytes(self):
        for history in (HEADER, HEADER.encode(), bytearray(HEADER.encode()), memoryview(HEADER.encode())):
            self.assertTrue(snapjudge.check(history).atomic)
        for history, name in ((7, "int"), ([101, 118], "list"), (None, "NoneType"), (open, "builtin_function_or_method")):
            for judge in (snapjudge.check, snapjudge.report):
                with self.assertRaises(TypeError) as refused:
                    judge(history)
                self.assertEqual(str(refused.exception), f"a history is a text, bytes, a path or an open file, and no {name}")

    def test_the_caller_chooses_the_limit_of_events(self):
        view = HEADER + "begin,0,view,\nend,0,view,\n"
        self.assertEqual(snapjudge.report(view, 1), ("refused", "refused record 3: toomany\n"))
        self.assertEqual(snapjudge.check(view, 2).counts, snapjudge.Counts(2, 1, 0, 1))
        updates = HEADER + "".join(f"begin,0,update,0:{n}:0\nend,0,update,\n" for n in range(1, 32770))
        self.assertEqual(snapjudge.report(updates), ("refused", "refused record 65538: toomany\n"))
        self.assertEqual(snapjudge.report(updates, 65537), ("refused", "refused record 65539: toomany\n"))
        self.assertEqual(snapjudge.check(updates, events=65538).counts, snapjudge.Counts(65538, 32769, 0, 0))

    def test_a_limit_that_there_is_not_is_told_and_the_room_stays_as_it_was(self):
        self.assertTrue(snapjudge.check(HEADER, 1 << 20).atomic)
        for events in (0, -1, (1 << 20) + 1, 1 << 31, (1 << 31) + 1, 1 << 32, (1 << 32) + 1, 1 << 64):
            for writers in snapjudge.WRITERS:
                room = bytearray(b"\xee" * 100)
                with self.assertRaises(snapjudge.NoLimit) as told:
                    snapjudge.report_into(HEADER.encode(), room, events, writers=writers)
                self.assertEqual((told.exception.events, room), (events, b"\xee" * 100))

    def test_a_component_has_many_writers_where_the_caller_says_so(self):
        begins = HEADER + "begin,0,update,0:1:5\nbegin,1,update,0:2:6\n"
        text = begins + "end,0,update,\nend,1,update,\n"
        report = "events 4 calls 2 pending 0 views 0\nregular yes\nmonotone yes\natomic yes\norder 2\n1 p0 update 0:1:5\n2 p1 update 0:2:6\n"
        for one in ({}, {"writers": "one"}):
            self.assertEqual(snapjudge.report(text, **one), ("refused", "refused record 3: writer\n"))
        self.assertEqual(snapjudge.report(text, writers="many"), ("atomic", report))
        room = bytearray(len(report))
        self.assertEqual((snapjudge.report_into(text.encode(), room, writers="many"), room), (("atomic", len(report)), report.encode()))
        judged = snapjudge.check(text, writers="many")
        self.assertEqual((judged.report, [step.process for step in judged.order]), (report, [0, 1]))
        self.assertEqual(judged._repr_svg_(), snapjudge.draw(text, "svg", writers="many"))
        self.assertIn(html.escape(snapjudge.draw(text, writers="many")), judged._repr_html_())
        self.assertEqual(snapjudge.shrink(text, writers="many"), text)
        self.assertEqual(snapjudge.stats(text, writers="many").by_component, (snapjudge.ComponentStats(component=0, writer=0, updates=2, views=0),))
        self.assertEqual(faults_of("begin,0,update,0:1:5\nend,0,update,\nbegin,1,update,0:2:6\nend,1,update,\nbegin,2,view,\nend,2,view,0:1:5\n", "many"),
                         [("proximity", 1, 3, {"component": 0, "number": 1, "side": "old"})])
        falling = begins + "end,1,update,\nend,0,update,\n"
        with self.assertRaises(snapjudge.Refused) as refused:
            snapjudge.check(falling, writers="many")
        self.assertEqual((refused.exception.record, refused.exception.word), (4, "order"))
        self.assertEqual(str(refused.exception), snapjudge.explain(falling, writers="many"))
        self.assertTrue(snapjudge.explain(falling, faults=2, writers="many").startswith("refused record 4: order\n"))

    def test_another_word_for_the_writers_is_told(self):
        for judge in (snapjudge.check, snapjudge.report, snapjudge.explain, snapjudge.shrink, snapjudge.draw, snapjudge.stats):
            with self.assertRaises(ValueError) as told:
                judge(HEADER, writers="two")
            self.assertEqual(str(told.exception), "the writers of a component are one or many, and not two")

    def test_an_order_is_taken_apart(self):
        judged = snapjudge.check(HEADER + "begin,0,update,0:1:3\nbegin,1,view,\nend,1,view,\nend,0,update,\n")
        steps = (snapjudge.Step(2, 1, "view", ()), snapjudge.Step(1, 0, "update", (snapjudge.Entry(0, 1, 3),)))
        self.assertEqual((judged.counts, judged.order), (snapjudge.Counts(4, 2, 0, 1), steps))

    def test_each_kind_of_fault_is_taken_apart(self):
        integrity = ("integrity", 1, 3, {"entry": snapjudge.Entry(0, 1, 9)})
        old = ("proximity", 1, 2, {"component": 0, "number": 0, "side": "old"})
        read = ("read", 1, 2, {"other": 3, "component": 0})
        write = ("write", 1, 1, {"misses": (0, 1), "shows": (1, 1)})
        self.assertEqual(faults_of("begin,0,update,0:1:7\nend,0,update,\nbegin,1,view,\nend,1,view,\n"
                                   "begin,2,view,\nend,2,view,0:1:9\n"), [integrity, old])
        self.assertEqual(faults_of("begin,0,update,0:1:7\nbegin,1,view,\nend,1,view,0:1:7\nbegin,2,view,\n"
                                   "end,2,view,\nend,0,update,\n"), [read])
        self.assertEqual(faults_of("begin,2,view,\nbegin,0,update,0:1:7\nend,0,update,\nbegin,1,update,1:1:8\n"
                                   "end,1,update,\nend,2,view,1:1:8\n"), [write])

    def test_a_fault_has_its_calls_with_their_records(self):
        judged = snapjudge.check(HEADER + "begin,2,view,\nbegin,0,update,0:1:7\nend,0,update,\nbegin,1,update,1:1:8\n"
                                          "end,1,update,\nend,2,view,1:1:8\n")
        missed = snapjudge.Call(2, 0, "update", 3, 4, (snapjudge.Entry(0, 1, 7),))
        shown = snapjudge.Call(3, 1, "update", 5, 6, (snapjudge.Entry(1, 1, 8),))
        view = snapjudge.Call(1, 2, "view", 2, 7, (snapjudge.Entry(1, 1, 8),))
        self.assertEqual(judged.faults[0].calls, {"view": view, "misses": missed, "shows": shown})
        self.assertEqual(json.loads(json.dumps(judged.to_dict()))["faults"][0]["calls"]["misses"]["begin"], 3)

    def test_a_read_fault_has_where_its_views_differ(self):
        judged = snapjudge.check(HEADER + "begin,0,update,0:1:7\nbegin,1,view,\nend,1,view,0:1:7\nbegin,2,view,\nend,2,view,\nend,0,update,\n")
        update = snapjudge.Call(1, 0, "update", 2, 7, (snapjudge.Entry(0, 1, 7),))
        self.assertEqual(judged.faults[0].differs, (snapjudge.Difference(0, 1, 0, update),))
        self.assertEqual(judged.to_dict()["faults"][0]["differs"][0]["view_number"], 1)

    def test_a_history_may_be_a_file(self):
        for name, text, wanted in examples():
            self.assertEqual(snapjudge.report(pathlib.Path(name)), (status_of(wanted), wanted))
            with open(name, "rb") as file:
                self.assertEqual(snapjudge.report(file), (status_of(wanted), wanted))
            with open(name, newline="") as file:
                self.assertEqual(snapjudge.report(file), (status_of(wanted), wanted))

    def test_a_notebook_shows_the_picture(self):
        judged = snapjudge.check(HEADER + "begin,0,view,\nend,0,view,\n")
        self.assertEqual(judged._repr_svg_(), snapjudge.draw(judged.text, "svg"))
        frame = re.fullmatch('<iframe srcdoc="([^"]*)" style="[^"]*"></iframe>', judged._repr_html_())
        self.assertEqual(html.unescape(frame[1]), snapjudge.draw(judged.text))
        with self.assertRaises(ValueError):
            snapjudge.draw(judged.text, "png")

    def test_a_picture_has_the_colours_that_are_asked_for(self):
        text = HEADER + "begin,0,update,0:1:7\nend,0,update,\n"
        self.assertEqual(snapjudge.draw(text, "svg", scheme="light"), snapjudge.draw(text, "svg"))
        for form, scheme in (("page", "light"), ("page", "dark"), ("svg", "dark")):
            self.assertNotEqual(snapjudge.draw(text, form, scheme=scheme), snapjudge.draw(text, form))
        self.assertIn("snapjudge-dark", snapjudge.draw(text, "svg", scheme="dark"))
        for form, scheme in (("text", "light"), ("text", "dark"), ("svg", "blue"), ("page", "")):
            with self.assertRaises(ValueError):
                snapjudge.draw(text, form, scheme=scheme)

    def test_all_entries_of_a_large_view_are_told_if_they_are_asked_for(self):
        rows = "".join(f"begin,{k},update,{k}:1:7\nend,{k},update,\n" for k in range(20))
        # one entry belongs to the fault
        shown = " ".join(f"{k}:1:{8 if k == 3 else 7}" for k in range(20))
        text = f"{HEADER}{rows}begin,20,view,\nend,20,view,{shown}\n"
        few, every = snapjudge.explain(text), snapjudge.explain(text, whole=True)
        self.assertIn(": view 3:1:8 and 19 more entries\n", few)
        self.assertEqual(every, few.replace("view 3:1:8 and 19 more entries\n", f"view {shown}\n"))
        self.assertTrue(snapjudge.explain(text, drawn=True, whole=True).startswith(every))

    def test_an_option_that_there_is_not_is_told_and_the_room_stays_as_it_was(self):
        for part in ({"first": 2}, {"around": 2}, {"first": 1, "around": 1}, {"calls": 2001}, {"calls": 0}, {"first": -1}):
            with self.assertRaises(ValueError):
                snapjudge.draw(HEADER + "begin,0,view,\nend,0,view,\n", **part)
        for call, option in (("explain", 4), ("shrink", 3), ("draw", 6), ("stats", 2), ("draw", (1 << 32) - 1)):
            room = bytearray(b"\xee" * 100)
            with self.assertRaises(ValueError) as told:
                snapjudge.answer_into(call, HEADER.encode(), (option,), room)
            self.assertEqual((str(told.exception), room), (f"snapjudge_{call} takes no such option as {(option,)}", b"\xee" * 100))

    def test_several_faults_of_a_kind_are_told_if_they_are_asked_for(self):
        text = HEADER + "begin,0,update,0:1:7\nend,0,update,\nbegin,1,view,\nend,1,view,\nbegin,1,view,\nend,1,view,\n"
        self.assertEqual(snapjudge.explain(text, faults=1), snapjudge.explain(text))
        both = snapjudge.explain(text, faults=2)
        self.assertTrue(both.startswith(snapjudge.explain(text)))
        self.assertEqual((both.count("proximity: view"), snapjudge.explain(text, faults=1000)), (2, both))
        for faults, drawn in ((0, False), (1001, False), (2, True)):
            with self.assertRaises(ValueError):
                snapjudge.explain(text, faults=faults, drawn=drawn)

    def test_a_map_names_the_calls_of_the_run(self):
        text = HEADER + "begin,0,view,\nend,0,view,\nbegin,0,view,\nend,0,view,0:1:7\n"
        self.assertEqual(snapjudge.shrink(text, map=True), "call,process,begin,end,of call,of process,of begin,of end\n1,0,2,3,2,0,4,5\n")
        with self.assertRaises(ValueError):
            snapjudge.shrink(text, map=True, drawn=True)

    def test_what_a_run_has_shown(self):
        counts = snapjudge.stats(HEADER + "begin,0,update,0:1:7\nbegin,1,view,\nend,1,view,0:1:7\nbegin,2,view,\nend,2,view,\nend,0,update,\n")
        self.assertEqual((counts.calls, counts.views, counts.overlap_update, counts.overlap_view, counts.most_open, counts.longest), (3, 2, 2, 0, 2, 6))
        self.assertTrue(counts.shows_concurrency)
        self.assertEqual(counts.by_component, (snapjudge.ComponentStats(component=0, writer=0, updates=1, views=1),))
        self.assertEqual(counts.to_dict()["by_component"], [{"component": 0, "writer": 0, "updates": 1, "views": 1}])
        self.assertFalse(snapjudge.stats(HEADER).shows_concurrency)
        with self.assertRaises(snapjudge.Refused):
            snapjudge.stats(HEADER + "begin,0,read,\n")
        with self.assertRaises(snapjudge.NoLimit):
            snapjudge.stats(HEADER, events=0)

    def test_each_question_has_the_answer_of_the_program(self):
        program = os.environ.get("SNAPJUDGE_PROGRAM")
        if not program:
            self.skipTest("SNAPJUDGE_PROGRAM names no program")
        asked = {("explain",): snapjudge.explain, ("explain", "--draw"): lambda text: snapjudge.explain(text, drawn=True),
                 ("explain", "--all"): lambda text: snapjudge.explain(text, whole=True),
                 ("explain", "--all", "--draw"): lambda text: snapjudge.explain(text, drawn=True, whole=True),
                 ("shrink",): snapjudge.shrink, ("shrink", "--draw"): lambda text: snapjudge.shrink(text, drawn=True),
                 ("shrink", "--map"): lambda text: snapjudge.shrink(text, map=True),
                 ("explain", "--faults", "3"): lambda text: snapjudge.explain(text, faults=3),
                 ("explain", "--all", "--faults", "3"): lambda text: snapjudge.explain(text, whole=True, faults=3),
                 ("draw",): snapjudge.draw, ("draw", "--svg"): lambda text: snapjudge.draw(text, "svg"),
                 ("draw", "--text"): lambda text: snapjudge.draw(text, "text"),
                 ("draw", "--light"): lambda text: snapjudge.draw(text, scheme="light"),
                 ("draw", "--dark"): lambda text: snapjudge.draw(text, scheme="dark"),
                 ("draw", "--svg", "--light"): lambda text: snapjudge.draw(text, "svg", scheme="light"),
                 ("draw", "--svg", "--dark"): lambda text: snapjudge.draw(text, "svg", scheme="dark"),
                 ("draw", "--calls", "2"): lambda text: snapjudge.draw(text, calls=2),
                 ("draw", "--text", "--calls", "2", "--from", "1"): lambda text: snapjudge.draw(text, "text", calls=2, first=1),
                 ("draw", "--svg", "--around", "1"): lambda text: snapjudge.draw(text, "svg", around=1),
                 ("stats",): lambda text: snapjudge.answer("stats", text, 0)[1],
                 ("stats", "--format", "json"): lambda text: snapjudge.answer("stats", text, 1)[1]}
        for name, text, _ in examples():
            for words, ask in asked.items():
                done = subprocess.run([program, *words], input=text, capture_output=True, check=False)
                self.assertEqual(ask(text), done.stdout.decode(), (name, words))


def refuse():
    """Judges a long history with almost no memory left, and again with all of it."""
    text = (HEADER + "".join(f"begin,0,update,0:{n}:0\nend,0,update,\n" for n in range(1, 8193))).encode()
    room = bytearray(b"\xee" * (1 << 20))
    same = bytes(room)
    # the first call loads the library
    snapjudge.report(HEADER)
    with open("/proc/self/statm") as pages:
        held = resource.getpagesize() * int(pages.read().split()[0])
    soft, hard = resource.getrlimit(resource.RLIMIT_AS)
    resource.setrlimit(resource.RLIMIT_AS, (held + 65536, hard))
    try:
        found = snapjudge.report_into(text, room)
    except MemoryError:
        found = "refused"
    resource.setrlimit(resource.RLIMIT_AS, (soft, hard))
    print(f"{found}, {'unchanged' if room == same else 'changed'}, then {snapjudge.report_into(text, room)[0]}")


if __name__ == "__main__":
    if sys.argv[1:] == ["refuse"]:
        refuse()
    else:
        unittest.main()
