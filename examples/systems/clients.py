"""Clients of one store, of which several write one key at one time, and whose calls may fail; and the history of a run of them.

An update answers the version that the store gave it, and a view the version and the value of each key that somebody has written.
merge_logs.py makes the history of their logs, so docs/RECORDING.md says what becomes of a call that failed.
"""
import concurrent.futures
import contextlib
import http
import http.client
import itertools
import json
import pathlib
import random
import subprocess
import sys
import tempfile
import threading
import time

from harness import RECORDERS

PAUSE = 0.01  # at most, between two calls of a client, in seconds
MARGIN = 0.4  # before what disturbs a run, and after it
PATIENCE = 0.3  # how long a client waits for an answer
MANY = ("--writers", "many")  # what merge_logs.py and the judge are told of such histories


class NoEffect(ConnectionError):
    """The call failed, and never has an effect."""


class Unknown(ConnectionError):
    """The call failed, and nobody knows whether it has an effect."""


def post(address, port, path, words):
    """What a server answers to a request, both in JSON."""
    with contextlib.closing(http.client.HTTPConnection(address, port, timeout=PATIENCE)) as connection:
        try:
            connection.connect()
        except OSError as error:
            raise NoEffect from error
        try:
            connection.request("POST", path, json.dumps(words))
            answer = connection.getresponse()
            said = json.loads(answer.read())
        except (OSError, http.client.HTTPException, ValueError) as error:
            raise Unknown from error
    if answer.status != http.HTTPStatus.OK:
        raise Unknown(said)
    return said


class Log:
    """What one process does. A client whose update has an unknown end goes on as another process, with another log."""

    def __init__(self, file, process):
        self.file, self.process = file, process
        self.file.write("ns,event,process,op,data\n")

    def note(self, event, op, data=""):
        self.file.write(f"{time.monotonic_ns()},{event},{self.process},{op},{data}\n")


class Run:
    """A run of clients over keys 0, 1 and so on. Each client updates each key, and updates of a key may overlap."""

    def __init__(self, folder, keys):
        self.folder, self.keys, self.is_over = folder, keys, threading.Event()
        self.lock, self.files = threading.Lock(), contextlib.ExitStack()
        self.processes, self.values = itertools.count(), itertools.count(1)

    def log(self):
        """The log of a new process."""
        with self.lock:
            process = next(self.processes)
            file = open(f"{self.folder}/{process}.log", "w", buffering=1, encoding="ascii")
            return Log(self.files.enter_context(file), process)

    def work(self, client, seed):
        choice, log = random.Random(seed), self.log()
        while not self.is_over.wait(choice.random() * PAUSE):
            if choice.random() < 0.5:
                self.view(client, log)
            elif not self.update(client, log, choice.randrange(self.keys)):
                log = self.log()

    def update(self, client, log, key):
        """Whether its end is known."""
        with self.lock:
            value = next(self.values)
        log.note("begin", "update", f"{key}:{value}")
        try:
            version = client.update(key, value)
        except Unknown:
            return False
        except NoEffect:
            log.note("drop", "update")
        else:
            log.note("end", "update", version)
        return True

    def view(self, client, log):
        log.note("begin", "view")
        try:
            shown = client.view()
        except (Unknown, NoEffect):
            log.note("drop", "view")
        else:
            entries = (":".join(map(str, [key, *shown[key]] if key in shown else [key, ""])) for key in range(self.keys))
            log.note("end", "view", " ".join(entries))


def merged(folder):
    """The history of the logs in a folder, by the versions of the store. Its components have many writers."""
    logs = sorted(pathlib.Path(folder).glob("*.log"))
    command = [sys.executable, "-B", RECORDERS / "python/merge_logs.py", "--versions", *MANY, *logs]
    done = subprocess.run(command, capture_output=True, text=True, check=False)
    if done.returncode:
        sys.exit(f"merge_logs.py ended with {done.returncode}: {done.stderr}")
    return done.stdout


def record(clients, keys, seed, disturb):
    """The history of a run of these clients. They begin before disturb() does, and end after it."""
    with tempfile.TemporaryDirectory() as folder, concurrent.futures.ThreadPoolExecutor(len(clients)) as pool:
        run = Run(folder, keys)
        with run.files:
            works = [pool.submit(run.work, client, f"{seed} {place}") for place, client in enumerate(clients)]
            try:
                time.sleep(MARGIN)
                disturb()
                time.sleep(MARGIN)
            finally:
                run.is_over.set()
            for work in works:
                work.result()  # raises what was raised there
        return merged(folder)
