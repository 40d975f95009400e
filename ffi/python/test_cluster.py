"""Many recordings at once: the sums, the reasons, and workers that are killed, on this machine and at a Dask scheduler."""
import concurrent.futures
import importlib.util
import multiprocessing
import os
import queue
import shutil
import signal
import subprocess
import sys
import tempfile
import threading
import unittest
from unittest import mock

from snapjudge import bags, cluster

HERE = os.path.dirname(os.path.abspath(__file__))
sys.path.insert(0, os.path.join(HERE, "..", "..", "bench"))
from recordings import EXAMPLES, PROGRAM, program_answers, program_sums, scheduler, write_recordings  # noqa: E402

FILES = 2000
# The file that is not there.
MISSING = 1203
SUMS = b"""files 2000
atomic 1969 first 000000.csv
only-regular 20 first 000037.csv
not-regular 8 first 000101.csv
refused 2 first 000702.csv
failed 1 first 001203.csv
"""
SAID = b"snapjudge: 001203.csv: no such file\n"
# How many files are judged when a worker is killed.
KILLED_AT = 400


class Recordings(unittest.TestCase):
    """Tests over one folder of recordings."""

    @classmethod
    def setUpClass(cls):
        cls.room = tempfile.mkdtemp()
        cls.addClassCleanup(shutil.rmtree, cls.room)
        cls.names = write_recordings(cls.room, FILES, MISSING)
        cls.paths = [os.path.join(os.fsencode(cls.room), name) for name in cls.names]

    def expect_sums(self, answers):
        self.assertEqual(cluster.sums(self.names, answers), SUMS)

    def ran(self, *words, text=None, cwd=None):
        command = [sys.executable, "-B", "-m", "snapjudge.cluster", *words]
        env = {**os.environ, "PYTHONPATH": HERE}
        ran = subprocess.run(command, cwd=cwd or self.room, env=env, input=text, capture_output=True, timeout=300, check=False)
        return ran.returncode, ran.stdout, ran.stderr


class OneMachine(Recordings):
    def test_the_sums_are_those_of_the_files_by_any_number_of_workers(self):
        names = b"\n".join(self.names)
        for words in (("--workers", "1"), ("--workers", "3", "--bag", "7"), ()):
            found = self.ran(*words, "--files-from", "-", text=b"\n".join(self.names))
            self.assertEqual(found, (4, SUMS, SAID))

    @unittest.skipUnless(os.path.exists(PROGRAM), "the program is not built")
    def test_the_program_has_the_same_sums(self):
        self.expect_sums(program_answers(self.room, self.names))
        self.assertEqual(program_sums(self.room, self.names, 2), SUMS)

    def test_a_folder_has_its_recordings_in_the_order_of_their_names(self):
        with tempfile.TemporaryDirectory() as room:
            os.makedirs(os.path.join(room, "b.csv"))
            os.symlink(room, os.path.join(room, "again"))
            for name, kind in (("b/x.csv", 0), ("b.csv/y.csv", 0), ("a\n\\.csv", 1), ("c.txt", 2), ("d.csv", 2)):
                path = os.path.join(room, name)
                os.makedirs(os.path.dirname(path), exist_ok=True)
                shutil.copyfile(os.path.join(EXAMPLES, ("atomic-run.csv", "missed-update.csv", "stale-view.csv")[kind]), path)
            os.mkfifo(os.path.join(room, "b", "pipe.csv"))
            wanted = b"files 4\natomic 2 first ./b.csv/y.csv\nonly-regular 1 first ./a\\n\\\\.csv\n"
            wanted += b"not-regular 1 first ./d.csv\nrefused 0\nfailed 0\n"
            self.assertEqual(self.ran(".", cwd=room), (2, wanted, b""))
            below = [os.path.relpath(path, os.fsencode(room)) for path in cluster.names_below(os.fsencode(room))]
            self.assertEqual(below, [b"a\n\\.csv", b"b.csv/y.csv", b"b/x.csv", b"d.csv"])
            self.assertEqual(self.ran("d.csv", "b/x.csv", "b/x.csv", cwd=room)[1].splitlines()[:2], [b"files 3", b"atomic 2 first b/x.csv"])

    def test_under_a_name_that_is_not_utf8_only_a_note_is_passed_over(self):
        with tempfile.TemporaryDirectory() as room:
            for name in (b"run.csv", b"\xff.txt", b"\xff.csv", b"\xff/in.csv"):
                path = os.path.join(os.fsencode(room), name)
                os.makedirs(os.path.dirname(path), exist_ok=True)
                shutil.copyfile(os.path.join(EXAMPLES, "atomic-run.csv"), path)
            status, out, said = self.ran(".", cwd=room)
        lines = out.splitlines()
        self.assertEqual((status, lines[:2], lines[-1]), (4, [b"files 3", b"atomic 1 first ./run.csv"], b"failed 2 first ./\\xff"))
        self.assertEqual(said, b"snapjudge: ./\\xff: is not UTF-8\nsnapjudge: ./\\xff.csv: is not UTF-8\n")

    def test_a_name_is_shown_without_bytes_that_control_a_terminal(self):
        for name, wanted in ((b"a\x1b[2J\t\x7f", b"a\\x1b[2J\\x09\\x7f"), (b"\xc3\xa9\n\r\\", b"\xc3\xa9\\n\\r\\\\"), (b"caf\xe9 \xc3\xa9", b"caf\\xe9 \\xc3\\xa9")):
            self.assertEqual(cluster.shown(name), wanted)

    def test_a_folder_that_cannot_be_read_has_failed(self):
        with mock.patch("os.scandir", side_effect=PermissionError(13, "no", "runs")):
            self.assertEqual(cluster.names_below(b"runs"), [b"runs"])

    def test_names_end_with_a_zero_byte_where_that_is_asked_for(self):
        names = [b"a\nb.csv", b"-x.csv", b"\xff.csv"]
        for name in names:
            shutil.copyfile(os.path.join(EXAMPLES, "atomic-run.csv"), os.path.join(os.fsencode(self.room), name))
        with open(os.path.join(self.room, "list"), "wb") as file:
            file.write(b"\0".join(names))
        found = self.ran("-0", "--files-from", "list")
        lines = found[1].splitlines()
        self.assertEqual((found[0], lines[:2], lines[-1]), (4, [b"files 3", b"atomic 2 first a\\nb.csv"], b"failed 1 first \\xff.csv"))
        self.assertEqual(found[2], b"snapjudge: \\xff.csv: is not UTF-8\n")
        for name in names:
            os.remove(os.path.join(os.fsencode(self.room), name))

    def test_each_file_without_a_verdict_has_its_reason(self):
        status, out, said = self.ran("--views", "2", ".", "000000.csv/x", os.path.join(EXAMPLES, "none.csv"), "/dev/zero", cwd=EXAMPLES)
        self.assertEqual((status, out.splitlines()[-1]), (4, b"failed 2 first 000000.csv/x"))
        self.assertIn(b"stale-view.csv: refused: fewer than 2 views\n", said)
        self.assertIn(b"none.csv: no such file\n", said)
        with mock.patch("snapjudge.bags.report", side_effect=MemoryError):
            self.assertEqual(bags.judge_file(self.paths[0], bags.Limits()), (4, "out of memory"))
        with mock.patch("snapjudge.bags.read_text", side_effect=OSError):
            self.assertEqual(bags.judge_file(self.paths[0], bags.Limits()), (4, "read failed"))
        self.assertEqual(bags.judge_file(self.room, bags.Limits()), (4, "is a directory; check -r judges the files below it"))
        self.assertEqual(bags.judge_file("a\0b", bags.Limits()), (4, "can't be opened"))
        self.assertEqual(bags.judge_file("a" * 300, bags.Limits()), (4, "the name is too long"))

    def test_a_long_recording_is_judged_where_its_events_are_allowed(self):
        updates = 32_769
        with tempfile.TemporaryDirectory() as room:
            with open(os.path.join(room, "long.csv"), "w", encoding="ascii") as file:
                file.write("event,process,op,data\n")
                file.writelines(f"begin,0,update,0:{number}:1\nend,0,update,\n" for number in range(1, updates + 1))
            self.assertEqual(self.ran(room)[0], 3)
            self.assertEqual(self.ran("--events", str(2 * updates - 1), room)[0], 3)
            status, out, said = self.ran("--events", str(2 * updates), room)
            self.assertEqual((status, out.splitlines()[:2], said), (0, [b"files 1", b"atomic 1 first " + os.fsencode(room) + b"/long.csv"], b""))

    def test_many_writers_are_judged_where_they_are_allowed(self):
        with tempfile.TemporaryDirectory() as room:
            with open(os.path.join(room, "two.csv"), "w", encoding="ascii") as file:
                file.write("event,process,op,data\nbegin,0,update,0:1:5\nbegin,1,update,0:2:6\nend,0,update,\nend,1,update,\n")
            self.assertEqual(self.ran(room)[0], 3)
            self.assertEqual(self.ran("--writers", "one", room)[0], 3)
            status, out, said = self.ran("--writers", "many", room)
            self.assertEqual((status, out.splitlines()[:2], said), (0, [b"files 1", b"atomic 1 first " + os.fsencode(room) + b"/two.csv"], b""))

    def test_no_status_of_a_verdict_comes_without_sums(self):
        for words, status, told in ((["--scheduler"], 5, b"expected one argument"), ([], 5, b"there is no recording"),
                                    (["--help"], 5, b""), (["--views", "-1", "."], 5, b"--views"), (["--scheduler", "", "."], 5, b"no address"),
                                    (["--workers", "0", "."], 5, b"--workers: '0' is no whole number from 1 to "),
                                    (["--events", "0", "."], 5, b"--events: '0' is no whole number from 1 to 1048576"),
                                    (["--events", "1048577", "."], 5, b"--events: '1048577' is no whole number"), (["--bag", "x", "."], 5, b"--bag: 'x' is no"),
                                    (["--writers", "two", "."], 5, b"--writers: invalid choice: 'two'"),
                                    (["--views", "1" * 5000, "."], 5, b"--views"),
                                    (["--files-from", "none"], 4, b"none: no such file"), (["--files-from", "."], 4, b".: is a directory; check -r judges the files below it"), (["--files-from", "-"], 4, b"there are no recordings")):
            found = self.ran(*words)
            self.assertEqual((found[0], b"files" in found[1].splitlines()[:1]), (status, False))
            self.assertIn(told, found[2])
        self.assertEqual(self.ran("--files-from", "-", text=b"000000.csv\n\n000001.csv\n"), (4, b"", b"snapjudge: -: name 2 is empty\n"))
        for output in (">/dev/full", ">&-"):
            command = f"'{sys.executable}' -B -m snapjudge.cluster 000000.csv {output}"
            ran = subprocess.run(["sh", "-c", command], cwd=self.room, env={**os.environ, "PYTHONPATH": HERE}, capture_output=True, check=False)
            self.assertEqual((ran.returncode, ran.stderr), (4, b"snapjudge: write failed\n"))

    def test_a_process_that_is_killed_loses_no_file(self):
        killed = []

        def kill(judged):
            if judged >= KILLED_AT and not killed:
                killed.extend(multiprocessing.active_children()[:1])
                os.kill(killed[0].pid, signal.SIGKILL)

        engine = cluster.Processes(3)
        self.expect_sums(cluster.judge_all(engine, self.paths, tell=kill))
        engine.close()
        self.assertEqual(len(killed), 1)

    def test_an_interrupt_ends_it_without_sums(self):
        with tempfile.TemporaryDirectory() as room:
            pipe = os.path.join(room, "pipe")
            os.mkfifo(pipe)
            command = [sys.executable, "-B", "-m", "snapjudge.cluster", "--workers", "2", "--bag", "1", room, pipe]
            env = {**os.environ, "PYTHONPATH": HERE}
            for number in range(8):
                shutil.copyfile(os.path.join(EXAMPLES, "atomic-run.csv"), os.path.join(room, f"{number}.csv"))
            # an interrupt may be ignored where the tests run
            takes_interrupts = {"preexec_fn": lambda: signal.signal(signal.SIGINT, signal.SIG_DFL)}
            judge = subprocess.Popen(command, env=env, stdout=subprocess.PIPE, stderr=subprocess.PIPE, **takes_interrupts)
            # opened once a worker has opened the pipe, which then waits for text
            with open(pipe, "wb"):
                judge.send_signal(signal.SIGINT)
                out, said = judge.communicate(timeout=60)
            self.assertEqual((judge.returncode, out, said), (130, b"", b""))

    def test_processes_that_cannot_start_are_told_of(self):
        with mock.patch("snapjudge.cluster.end_with_parent", os.abort), self.assertRaisesRegex(cluster.Unable, "no process can be started"):
            cluster.Processes(2)

    def test_a_terminal_is_told_how_far_it_is(self):
        with mock.patch("snapjudge.cluster.say") as say, mock.patch("snapjudge.cluster.STEP", 0):
            progress = cluster.Progress(9, True)
            progress.tell(3)
            progress.end()
            cluster.Progress(9, False).tell(3)
        self.assertEqual([call.args[0].partition(",")[0] for call in say.call_args_list], ["\r\x1b[K3 of 9 files", "\r\x1b[K"])


class Deadly:
    """Workers that die of some files, and that note which bags they had."""

    workers, room, tries, deaths = 2, 2, 2, (concurrent.futures.BrokenExecutor,)

    def __init__(self, deadly, error):
        self.deadly, self.error, self.bags = deadly, error, []

    def submit(self, paths, limits):
        self.bags.append(paths)
        future = concurrent.futures.Future()
        if self.deadly in paths:
            future.set_exception(self.error)
        else:
            future.set_result([(0, "") for _ in paths])
        return future

    def answers(self, future):
        return future.result()


class Deaths(unittest.TestCase):
    def test_a_file_of_which_workers_die_has_failed_and_no_other(self):
        engine = Deadly(5, concurrent.futures.BrokenExecutor())
        answers = cluster.judge_all(engine, list(range(12)), size=4)
        self.assertEqual(answers, [(4, "its worker died") if path == 5 else (0, "") for path in range(12)])
        self.assertEqual(sorted(bag for bag in engine.bags if 5 in bag), [[4, 5, 6, 7]] * 2 + [[5]] * 2)

    def test_a_worker_that_cannot_judge_ends_it(self):
        with self.assertRaisesRegex(cluster.Unable, "a worker can't judge: libsnapjudge.so is not built"):
            cluster.judge_all(Deadly(5, ImportError("libsnapjudge.so is not built")), list(range(12)))


@unittest.skipUnless(importlib.util.find_spec("distributed"), "python3-distributed is not here")
class ManyMachines(Recordings):
    def test_a_scheduler_gives_the_same_sums_when_a_worker_is_killed(self):
        with scheduler(3) as (address, workers):
            found = self.ran("--scheduler", address, "--files-from", "-", text=b"\n".join(self.names))
            self.assertEqual(found, (4, SUMS, SAID))

            def kill(judged):
                if judged >= KILLED_AT:
                    workers[1].kill()

            engine = cluster.Cluster(address)
            self.expect_sums(cluster.judge_all(engine, self.paths, tell=kill))
            engine.close()
            self.assertEqual(workers[1].wait(), -signal.SIGKILL)

    def test_a_bag_whose_worker_dies_before_its_answers_are_fetched_is_judged_once_more(self):
        with scheduler(2) as (address, workers):
            engine = cluster.Cluster(address)
            ended = queue.SimpleQueue()
            future = engine.submit(self.paths[:3], bags.Limits())
            future.add_done_callback(ended.put)
            self.assertIs(ended.get(timeout=60), future)
            (keeper,) = engine.client.who_has(future)[future.key]
            number = engine.client.run(os.getpid)[keeper]
            (worker,) = (worker for worker in workers if worker.pid == number)
            worker.kill()
            self.assertEqual(engine.answers(future), [(0, "")] * 3)
            engine.close()

    def test_a_scheduler_without_workers_is_told_of(self):
        pipe = os.path.join(self.room, "pipe")
        os.mkfifo(pipe)
        with scheduler(1) as (address, workers), mock.patch("snapjudge.cluster.PATIENCE", 1):
            engine = cluster.Cluster(address)
            # the one worker waits for the pipe, and is killed
            threading.Timer(1, workers[0].kill).start()
            with self.assertRaisesRegex(cluster.Unable, "has lost its workers"):
                cluster.judge_all(engine, [pipe])
            engine.close()
            with mock.patch("snapjudge.cluster.CONNECT", 1), self.assertRaisesRegex(cluster.Unable, "the scheduler has no worker"):
                cluster.Cluster(address)
        os.remove(pipe)

    def test_a_scheduler_that_is_not_there_is_told_of(self):
        with mock.patch("snapjudge.cluster.CONNECT", 1), self.assertRaisesRegex(cluster.Unable, "127.0.0.1:1: no scheduler answers"):
            cluster.Cluster("127.0.0.1:1")


if __name__ == "__main__":
    unittest.main()
