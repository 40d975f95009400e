"""What the harnesses of this folder share: workers that use a system, the verdicts of their runs, and a server for the while.

A harness is called with PROGRAM FOLDER [RUNS]: the judge, where the first caught run of each way is kept, and how many runs each
way has, 20 if no number is given. If a program is missing that it needs it says so, and ends with 77.
"""
import concurrent.futures
import contextlib
import datetime
import itertools
import os
import pathlib
import random
import re
import shutil
import signal
import subprocess
import sys
import tempfile
import threading
import time

HERE = pathlib.Path(__file__).resolve().parent
RECORDERS = HERE.parents[1] / "ffi/record"
sys.path.insert(0, str(RECORDERS / "python"))
from snaprecord import Recorder

# a script that is asked for help writes its head, and does nothing else
if sys.argv[1:2] in (["-h"], ["--help"]):
    sys.exit(print(sys.modules["__main__"].__doc__.strip()))

WORKERS, CALLS = 4, 200  # how many calls each worker makes
RUNS = 20  # how many runs each way has by default
VERDICTS = ["atomic", "only regular", "neither"]  # by the status of the judge
SKIPPED = 77


class Board:
    """A worker's way to a system. A harness says what an update and a view are."""

    def pause(self):
        """Stands between two reads of a view: a test lets others run here."""

    def close(self):
        """Ends a connection, if there is one."""


def update(board, log, component, value):
    """Whether the recorder took the call."""
    if not log.begin_update(component, value):
        return False
    board.update(component, value)
    log.end_update()
    return True


def view(board, log):
    """Whether the recorder took the call."""
    if not log.begin_view():
        return False
    values = board.view()
    log.end_view_values(values)
    return True


def record(boards, seed, components=WORKERS):
    """The history of a run: each worker makes updates and views, by a seeded choice. It updates each fourth component, in turn."""
    recorder, start = Recorder(WORKERS, components, CALLS), threading.Barrier(WORKERS)

    def work(board, log):
        choice, mine = random.Random(f"{seed} {log.thread}"), itertools.cycle(range(log.thread, components, WORKERS))
        start.wait()
        for i in range(CALLS):
            value = (log.thread + 1) * 1000000 + i  # each value once
            if not (update(board, log, next(mine), value) if choice.random() < 0.5 else view(board, log)):
                return

    with concurrent.futures.ThreadPoolExecutor(WORKERS) as pool:
        list(pool.map(work, boards, recorder.logs))  # raises what a worker raised
    for board in boards:
        board.close()
    return recorder.text()


def judge(program, command, text, words=()):
    """What the judge writes of a history, and its status; the words are options."""
    done = subprocess.run([program, command, *words], input=text, capture_output=True, text=True, check=False)
    if done.returncode >= len(VERDICTS):
        sys.exit(f"{program} {command} ended with {done.returncode}: {done.stderr}{done.stdout}")
    return done.stdout, done.returncode


def tabulate(version, ways, history, words=()):
    """Writes a row for each way, and a witness for each that was caught; history(way, seed) answers that of a run.

    The judge gets the words for it. A witness has one writer of each component, and needs none.
    """
    if len(sys.argv) not in (3, 4):
        sys.exit(f"usage: {sys.argv[0]} PROGRAM FOLDER [RUNS]")
    program, folder, runs = sys.argv[1], pathlib.Path(sys.argv[2]), int((sys.argv + [RUNS])[3])
    folder.mkdir(parents=True, exist_ok=True)
    other = "" if runs == RUNS else f" Runs of each way: {runs}."
    print(f"{version.strip()}, on {datetime.date.today()}.{other}\n")
    print(f"| How it was read | {' | '.join(VERDICTS)} |\n|---|---:|---:|---:|", flush=True)
    caught = {}
    for way in ways:
        found = [0] * len(VERDICTS)
        for seed in range(runs):
            text = history(way, seed)
            status = judge(program, "check", text, words)[1]
            found[status] += 1
            if status:
                caught.setdefault(way, text)
        print(f"| {way} | {' | '.join(map(str, found))} |", flush=True)
    for way, text in caught.items():
        name = re.sub("[^a-z0-9]+", "-", f"{pathlib.Path(sys.argv[0]).stem} {way}".lower())
        (folder / f"{name}.csv").write_text(text)
        witness, _ = judge(program, "shrink", text, words)
        explanation, _ = judge(program, "explain", witness)
        print(f"\nWitness: {way}.\n\n```\n{witness}```\n\n```\n{explanation}```", flush=True)


class Companion:
    """A program beside this one, which answers each line with lines, and puts an empty one after them."""

    def __init__(self, command):
        pipe = subprocess.PIPE
        self.running = subprocess.Popen(command, stdin=pipe, stdout=pipe, stderr=subprocess.STDOUT, text=True)

    def ask(self, line):
        print(line, file=self.running.stdin, flush=True)
        return self.answer()

    def answer(self):
        lines = []
        for line in self.running.stdout:
            if line == "\n":
                return lines
            lines.append(line)
        raise ConnectionError("".join(lines))

    def close(self):
        self.running.communicate()


def need(name, *folders):
    """The place of a program. Without it the harness ends, and says so."""
    found = shutil.which(name, path=os.pathsep.join([os.environ["PATH"], *folders]))
    if not found:
        print(f"skipped: {name} is not here")
        sys.exit(SKIPPED)
    return found


def as_user(user, command):
    """The command as root starts it, in this user's name. Others run their servers in their own."""
    if user is None or os.geteuid() != 0:
        return command
    return [need("setpriv"), "--reuid", user, "--regid", user, "--init-groups", *command]


def output(command, user=None):
    """What a command writes."""
    return subprocess.run(as_user(user, command), stdin=subprocess.DEVNULL, capture_output=True, text=True, check=True).stdout


@contextlib.contextmanager
def scratch(user=None):
    """A new folder until the block ends."""
    with tempfile.TemporaryDirectory() as folder:
        if user is not None and os.geteuid() == 0:
            shutil.chown(folder, user)
        yield folder


@contextlib.contextmanager
def server(command, connect, user=None):
    """Runs a server until the block ends, however it ends, once `connect` has found it there."""
    signal.signal(signal.SIGTERM, lambda number, _: sys.exit(128 + number))
    # the system interrupts the server if this program is killed
    command, none = as_user(user, [need("setpriv"), "--pdeathsig", "INT", *command]), subprocess.DEVNULL
    running = subprocess.Popen(command, stdin=none, stdout=none, stderr=none, start_new_session=True)
    try:
        wait_for(running, connect)
        yield
    finally:
        running.send_signal(signal.SIGINT)
        try:
            running.wait(20)
        except subprocess.TimeoutExpired:
            running.kill()
            running.wait()


def wait_for(running, connect):
    """Waits until `connect` finds the server."""
    for _ in range(300):
        if running.poll() is not None:
            break
        with contextlib.suppress(OSError, subprocess.CalledProcessError):
            return connect()
        time.sleep(0.1)
    raise ConnectionError(f"{running.args} does not serve")
