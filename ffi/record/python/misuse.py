"""The recorder's texts of worked runs, and the fault of each misuse."""
import os
import signal
import subprocess
import sys
import tempfile
import unittest

from snaprecord import EVENT_LIMIT, Fault, Recorder, RecordError

HERE = os.path.dirname(os.path.abspath(__file__))


def update(log, component, value):
    if log.begin_update(component, value):
        log.end_update()


def view(log, *values):
    if log.begin_view():
        log.end_view_values(values)


class Misuse(unittest.TestCase):
    def assertFault(self, fault, recorder):
        with self.assertRaises(RecordError) as raised:
            recorder.text()
        self.assertIs(raised.exception.fault, fault)

    def test_worked_run(self):
        recorder = Recorder(2, 2, 6)
        writer, viewer = recorder.logs
        self.assertEqual(writer.begin_update(0, 7), 1)
        view(viewer, 7, None)
        writer.end_update()
        self.assertEqual(writer.begin_update(0, 8), 2)
        writer.end_update()
        self.assertTrue(viewer.begin_view())
        viewer.end_view([(0, 2, 8), (1, 0, 0)])
        self.assertTrue(viewer.begin_view())
        viewer.drop_view()
        view(viewer, 99, 0)  # nobody wrote 99
        self.assertEqual(recorder.views(), (3, 1))
        with open(os.path.join(HERE, "..", "worked.csv")) as file:
            self.assertEqual(recorder.text(), file.read())

    def test_failed_calls(self):
        recorder = Recorder(3, 2, 6, initials=(5, 6))
        writer, viewer, spare = recorder.logs
        self.assertEqual(writer.begin_update(0, 7), 1)
        writer.drop_update()
        self.assertEqual(writer.begin_update(0, 7), 1)
        view(viewer, 5, None)
        writer.end_update()
        view(viewer, 7, 6)
        self.assertEqual(writer.begin_update(1, 8), 1)  # it is not known whether this one had an effect
        view(viewer, 7, 8)
        view(spare, 7, 8)
        with open(os.path.join(HERE, "..", "failed.csv")) as file:
            self.assertEqual(recorder.text(), file.read())
        self.assertEqual(recorder.views(), (4, 3))

    def test_what_there_is_so_far(self):
        """What there is while a call is open; and later all."""
        recorder = Recorder(2, 1, 2)
        self.assertEqual(recorder.log(0).begin_update(0, 7), 1)
        view(recorder.log(1), 7)
        events = "0,begin,0,update,0:1:7\n1,begin,1,view,\n2,end,1,view,0:1:7\n"
        self.assertEqual(recorder.text_so_far(), f"at,event,process,op,data\n{events}")
        recorder.log(0).end_update()
        self.assertEqual(recorder.text_so_far(), recorder.text())

    def test_what_is_kept(self):
        """A process that ends, by an exception or by SIGTERM, leaves what there is so far; by os._exit it leaves nothing."""
        begin = "from snaprecord import Recorder; import os, signal; r = Recorder(1, 1, 2); r.keep('kept.csv'); r.log(0).begin_view(); "
        ends = "os.kill(os.getpid(), signal.SIGTERM)"
        kept = {"0": 0, "raise KeyError": 1, ends: 143}
        for end, status in {**kept, "r.leave()": 0, f"r.leave(); {ends}": -signal.SIGTERM, "os._exit(7)": 7}.items():
            with tempfile.TemporaryDirectory() as folder:
                done = subprocess.run([sys.executable, "-B", "-c", begin + end], cwd=folder, env={"PYTHONPATH": HERE}, stderr=subprocess.DEVNULL)
                self.assertEqual(done.returncode, status)
                self.assertEqual(os.listdir(folder), ["kept.csv"] if end in kept else [])
                if os.listdir(folder):
                    with open(f"{folder}/kept.csv") as file:
                        self.assertEqual(file.read(), "at,event,process,op,data\n0,begin,0,view,\n")

    def test_dropped_update_that_was_seen(self):
        recorder = Recorder(2, 1, 2)
        self.assertEqual(recorder.log(0).begin_update(0, 9), 1)
        view(recorder.log(1), 9)
        recorder.log(0).drop_update()
        self.assertEqual(recorder.text(), "at,event,process,op,data\n1,begin,1,view,\n2,end,1,view,0:1:9\n")

    def test_values_of_several_types(self):
        recorder = Recorder(1, 2, 8, initial="")
        log = recorder.log(0)
        update(log, 1, -1)
        update(log, 0, ("a", 1))
        view(log, ("a", 1.0), -1.0)
        view(log, None, "")
        view(log, "b", -1)  # nobody wrote "b"
        self.assertTrue(log.begin_view())
        log.end_view([(0, 1, ("a", 1)), (1, 0, None)])
        events = ["begin,0,update,1:1:0", "end,0,update,", "begin,0,update,0:1:1", "end,0,update,", "begin,0,view,"]
        events += ["end,0,view,0:1:1 1:1:0", "begin,0,view,", "end,0,view,", "begin,0,view,", "end,0,view,0:1:2 1:1:0"]
        events += ["begin,0,view,", "end,0,view,0:1:1"]
        expected = ["at,event,process,op,data", *(f"{at},{event}" for at, event in enumerate(events)), ""]
        self.assertEqual(recorder.text().split("\n"), expected)
        self.assertEqual(recorder.table, [-1, ("a", 1), "b"])

    def test_a_history_that_goes_on(self):
        """The values of the last view of one history are the first ones of the next, which may write older ones again."""
        recorder = Recorder(1, 2, 4, initials=[7, 0])
        view(recorder.log(0), 7, 0)
        update(recorder.log(0), 0, 0)
        view(recorder.log(0), 0, 0)
        lines = recorder.text().split("\n")
        self.assertEqual(lines[2:4] + lines[6:], ["1,end,0,view,", "2,begin,0,update,0:1:0", "5,end,0,view,0:1:0", ""])

    def test_numbers_of_32_bits_stand_for_themselves(self):
        recorder = Recorder(1, 1, 4, initial="first")
        update(recorder.log(0), 0, (1 << 32) - 1)
        view(recorder.log(0), (1 << 32) - 1)
        self.assertTrue(recorder.text().endswith("\n3,end,0,view,0:1:4294967295\n"))
        self.assertEqual(recorder.table, [])

    def test_limits(self):
        of_another_kind = ("1", 1, 1), (1, 2.0, 1), (1, 1, True), (None, 1, 1)
        for words in ((0, 1, 1), (65537, 1, 1), (1, 257, 1), (2, 1, EVENT_LIMIT // 4 + 1), (1, 1, 0), *of_another_kind):
            with self.assertRaises(RecordError) as raised:
                Recorder(*words)
            self.assertIs(raised.exception.fault, Fault.LIMITS)
        Recorder(2, 256, 100)
        Recorder(16, 1, EVENT_LIMIT // 32)

    def test_log_that_there_is_not(self):
        for thread in (-1, 2, "0", True):
            with self.assertRaises(RecordError) as raised:
                Recorder(2, 1, 1).log(thread)
            self.assertIs(raised.exception.fault, Fault.LIMITS)

    def test_full_log(self):
        recorder = Recorder(2, 1, 2)
        for value in (1, 2):
            update(recorder.log(0), 0, value)
        self.assertEqual(recorder.log(0).begin_update(0, 3), 0)
        self.assertFalse(recorder.log(1).begin_view())
        recorder.text()
        recorder.log(0).end_update()
        self.assertFault(Fault.AFTER_FULL, recorder)

    def test_nested_call(self):
        recorder = Recorder(2, 1, 4)
        self.assertEqual(recorder.log(0).begin_update(0, 1), 1)
        self.assertFalse(recorder.log(0).begin_view())
        self.assertFalse(recorder.log(1).begin_view())
        self.assertFault(Fault.NESTED, recorder)

    def test_end_without_begin(self):
        recorder = Recorder(1, 1, 4)
        recorder.log(0).end_update()
        self.assertFault(Fault.NOT_OPEN, recorder)
        for end in ("end_update", "drop_update"):
            recorder = Recorder(1, 1, 4)
            self.assertTrue(recorder.log(0).begin_view())
            getattr(recorder.log(0), end)()
            self.assertFault(Fault.NOT_OPEN, recorder)
        recorder = Recorder(1, 1, 4)
        recorder.log(0).drop_update()
        self.assertFault(Fault.NOT_OPEN, recorder)

    def test_end_of_a_view_without_begin(self):
        ends = lambda log: log.end_view_values([0]), lambda log: log.end_view([(0, 0, 0)]), lambda log: log.drop_view()
        for end in ends:
            for updates in (False, True):
                recorder = Recorder(1, 1, 4)
                self.assertTrue(not updates or recorder.log(0).begin_update(0, 1))
                end(recorder.log(0))
                self.assertFault(Fault.NOT_OPEN, recorder)

    def test_dropped_update_leaves_its_room(self):
        recorder = Recorder(1, 1, 1)
        for _ in range(100):
            self.assertEqual(recorder.log(0).begin_update(0, 1), 1)
            recorder.log(0).drop_update()

    def test_component(self):
        recorder = Recorder(1, 2, 4)
        self.assertEqual(recorder.log(0).begin_update(2, 1), 0)
        self.assertFault(Fault.COMPONENT, recorder)
        recorder = Recorder(1, 2, 4)
        self.assertTrue(recorder.log(0).begin_view())
        recorder.log(0).end_view([(1, 1, 1), (0, 1, 1)])
        self.assertFault(Fault.COMPONENT, recorder)
        recorder = Recorder(1, 2, 4)
        self.assertTrue(recorder.log(0).begin_view())
        recorder.log(0).end_view([(2, 1, 1)])
        self.assertFault(Fault.COMPONENT, recorder)

    def test_component_of_another_kind(self):
        for component in (True, 1.0, "1", None):
            recorder = Recorder(1, 2, 4)
            self.assertEqual(recorder.log(0).begin_update(component, 1), 0)
            self.assertFault(Fault.COMPONENT, recorder)
            recorder = Recorder(1, 2, 4)
            self.assertTrue(recorder.log(0).begin_view())
            recorder.log(0).end_view([(component, 1, 1)])
            self.assertFault(Fault.COMPONENT, recorder)

    def assertRefusedEntry(self, entry):
        recorder = Recorder(1, 1, 4)
        self.assertTrue(recorder.log(0).begin_view())
        recorder.log(0).end_view([entry])
        self.assertFault(Fault.VALUE, recorder)

    def test_number(self):
        for number in (-1, 1 << 32, 1.5, "1", True, False):
            self.assertRefusedEntry((0, number, 1))

    def test_value(self):
        for value in (None, [1], {}, ("a", [])):
            recorder = Recorder(1, 1, 4)
            self.assertEqual(recorder.log(0).begin_update(0, value), 0)
            self.assertFault(Fault.VALUE, recorder)
            self.assertRefusedEntry((0, 1, value))
            if value is not None:
                recorder = Recorder(1, 1, 4)
                view(recorder.log(0), value)
                self.assertFault(Fault.VALUE, recorder)

    def test_view_of_a_part(self):
        for fault, *values in ((Fault.PART, 0), (Fault.COMPONENT, 0, 0, 0), (Fault.COMPONENT, 0, 0, None)):
            recorder = Recorder(1, 2, 4)
            view(recorder.log(0), *values)
            self.assertFault(fault, recorder)

    def test_no_call_raises(self):
        class Odd:
            def __hash__(self):
                raise RuntimeError("no hash")

        def broken():
            yield 1
            raise RuntimeError("no value")

        ends = [lambda log, it=it: log.end_view_values(it) for it in (None, 5, [Odd()], broken())]
        ends += [lambda log, it=it: log.end_view(it) for it in (None, 5, [(0, 1)], [5], [None], [(0, 1, Odd())], broken())]
        for end in ends:
            recorder = Recorder(1, 1, 4)
            self.assertTrue(recorder.log(0).begin_view())
            end(recorder.log(0))
            self.assertFault(Fault.VALUE, recorder)
        recorder = Recorder(1, 1, 4)
        self.assertEqual(recorder.log(0).begin_update(0, Odd()), 0)
        self.assertFault(Fault.VALUE, recorder)
        for component in (None, "0", [0], Odd()):
            recorder = Recorder(1, 1, 4)
            self.assertEqual(recorder.log(0).begin_update(component, 1), 0)
            self.assertFault(Fault.COMPONENT, recorder)

    def test_initial_values(self):
        for initials in ([4], [4, 5, 6]):
            self.assertFault(Fault.INITIALS, Recorder(1, 2, 4, initials=initials))
        for component in range(2):
            recorder = Recorder(1, 2, 4, initials=[4, 5])
            update(recorder.log(0), component, 5)
            view(recorder.log(0), 5, 5)
            if component == 1:
                self.assertFault(Fault.SAME_VALUE, recorder)
            else:
                self.assertTrue(recorder.text().endswith("\n3,end,0,view,0:1:5\n"))

    def test_two_writers(self):
        recorder = Recorder(2, 2, 4)
        update(recorder.log(0), 1, 5)
        update(recorder.log(1), 1, 6)
        self.assertFault(Fault.TWO_WRITERS, recorder)

    def test_same_value(self):
        recorder = Recorder(1, 2, 4)
        for _ in range(2):
            update(recorder.log(0), 1, 5)
        recorder.text()
        view(recorder.log(0), 0, 5)
        self.assertFault(Fault.SAME_VALUE, recorder)
        recorder = Recorder(1, 1, 4, initial=5)
        update(recorder.log(0), 0, 5)
        view(recorder.log(0), 5)
        self.assertFault(Fault.SAME_VALUE, recorder)


unittest.main()
