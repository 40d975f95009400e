"""Judges many recordings by several processes, on this machine or on those of a Dask scheduler, and writes the sums.

Each process takes a bag of files, reads and judges them by the library, and answers their exit statuses. A bag whose worker dies is
given to another. The answers are kept by the place of the name, so no file counts twice, and none is lost. The sums are written when
each file has its answer, and not before.
"""
import argparse
import collections
import concurrent.futures
import contextlib
import ctypes
import logging
import multiprocessing
import os
import queue
import signal
import sys
import time
import traceback

from snapjudge import MOST_EVENTS, WRITERS
from snapjudge.bags import FAILED, UNOPENED, USUAL, Limits, judge_bag

# What is shown for these bytes of a name.
ESCAPES = {ord("\n"): b"\\n", ord("\r"): b"\\r", ord("\\"): b"\\\\"}
# The lines of the sums, by the exit status.
KINDS = ("atomic", "only-regular", "not-regular", "refused", "failed")
# The exit status if the words of the command line are not taken, help among them.
USAGE = 5
# The status that a shell gives to a program which an interrupt ended.
INTERRUPTED = 128 + signal.SIGINT
# The most files in a bag, and how many bags there are at least for each worker, so that none has much left at the end.
MOST_IN_BAG, BAGS_EACH = 256, 32
# How many bags are at the scheduler at once.
MOST_SENT = 1000
# How long a scheduler may take to answer and to have a worker, and how long it may be silent without a worker, in seconds.
CONNECT, PATIENCE = 10, 60
# How often a bag is tried on this machine, if each time its worker dies.
TRIES = 3
# The seconds between two lines of progress.
STEP = 0.2
# A process asks the system for a signal at the death of its parent.
PR_SET_PDEATHSIG = 1


class Unable(Exception):
    """Why there are no sums."""


class Processes:
    """Processes of this machine, each of which judges one bag at a time. A new one takes the place of one that has died."""

    deaths = (concurrent.futures.BrokenExecutor,)
    tries = TRIES

    def __init__(self, workers):
        self.workers = self.room = workers
        self._idle = collections.deque([None] * workers)
        # each process with what gives its number
        self._started = {}
        first = self._start()
        try:
            self._started[first].result()
        except concurrent.futures.BrokenExecutor:
            raise Unable("no process can be started") from None
        self._idle[-1] = first

    def _start(self):
        """A process of its own. It is not a fork, since a library of this program may have threads."""
        process = concurrent.futures.ProcessPoolExecutor(1, multiprocessing.get_context("spawn"), initializer=end_with_parent)
        self._started[process] = process.submit(os.getpid)
        return process

    def submit(self, paths, limits):
        process = self._idle.pop() or self._start()
        try:
            future = process.submit(judge_bag, paths, limits)
        except concurrent.futures.BrokenExecutor:
            # it died while it had no bag
            self._started.pop(process)
            process = self._start()
            future = process.submit(judge_bag, paths, limits)
        future.add_done_callback(lambda done: self._take_back(process, done.exception()))
        return future

    def _take_back(self, process, error):
        if error:
            self._started.pop(process)
        self._idle.append(None if error else process)

    def answers(self, future):
        """What the process answered for a bag."""
        return future.result()

    def is_there(self):
        return True

    def close(self):
        """Ends the processes; one that still judges is killed, since it may wait for its file."""
        idle = list(self._idle)
        for process, number in list(self._started.items()):
            if process not in idle:
                with contextlib.suppress(OSError, concurrent.futures.BrokenExecutor):
                    os.kill(number.result(), signal.SIGKILL)
            process.shutdown()


def end_with_parent():
    """Ends this process if the one that started it ends, or is interrupted."""
    signal.signal(signal.SIGINT, signal.SIG_DFL)
    ctypes.CDLL(None).prctl(PR_SET_PDEATHSIG, signal.SIGKILL)


class Cluster:
    """The workers of a Dask scheduler, which itself tries a bag again if a worker dies."""

    room = MOST_SENT
    tries = 1

    def __init__(self, address):
        try:
            import distributed
        except ImportError:
            raise Unable("--scheduler wants Dask: on Debian, apt-get install python3-distributed") from None
        self.deaths = (distributed.KilledWorker,)
        self.address = address
        try:
            self.client = distributed.Client(address, timeout=CONNECT, set_as_default=False)
        except (OSError, ValueError) as error:
            raise Unable(f"{address}: no scheduler answers: {error}") from None
        try:
            self.client.wait_for_workers(1, timeout=CONNECT)
        except distributed.TimeoutError:
            self.client.close()
            raise Unable(f"{address}: the scheduler has no worker") from None
        self.workers = sum(self.client.nthreads().values())

    def submit(self, paths, limits):
        return self.client.submit(judge_bag, paths, limits, pure=False)

    def answers(self, future):
        """What a worker answered for a bag. If that worker has died since, the bag is judged once more."""
        return self.client.gather(future)

    def is_there(self):
        return self.client.status == "running" and bool(self.client.scheduler_info()["workers"])

    def close(self):
        self.client.close()


def bag_size(files, workers):
    """How many files a bag has: few enough that each worker gets many bags."""
    return max(1, min(MOST_IN_BAG, files // (workers * BAGS_EACH)))


def judge_all(engine, paths, limits=Limits(), size=None, tell=lambda judged: None):
    """The answer for each path, in their order: its exit status, and a reason or nothing. `tell` is called with the number of answers."""
    size = size or bag_size(len(paths), engine.workers)
    answers, judged = [None] * len(paths), 0
    waiting = collections.deque((range(len(paths))[at : at + size], 0) for at in range(0, len(paths), size))
    sent, ended = {}, queue.SimpleQueue()
    while waiting or sent:
        while waiting and len(sent) < engine.room:
            places, deaths = waiting.popleft()
            future = engine.submit([paths[place] for place in places], limits)
            sent[future] = places, deaths
            future.add_done_callback(ended.put)
        future = next_of(ended, engine)
        places, deaths = sent.pop(future)
        found = answers_of(future, engine, len(places))
        if found is None:
            waiting.extend(again(places, deaths + 1, engine.tries))
            if len(places) > 1 or deaths + 1 < engine.tries:
                continue
            found = [(FAILED, "its worker died")]
        for place, answer in zip(places, found):
            answers[place] = answer
        judged += len(places)
        tell(judged)
    return answers


def next_of(ended, engine):
    """The next bag that has ended. A scheduler without workers gets some time."""
    while True:
        try:
            return ended.get(timeout=PATIENCE)
        except queue.Empty:
            if not engine.is_there():
                raise Unable(f"{engine.address}: the scheduler is gone, or has lost its workers") from None


def answers_of(future, engine, count):
    """The answers for a bag, or none if its worker died."""
    try:
        found = engine.answers(future)
    except engine.deaths:
        return None
    except concurrent.futures.CancelledError:
        raise Unable(f"{engine.address}: the scheduler is gone") from None
    except Exception as error:
        raise Unable(f"a worker can't judge: {error}") from error
    if len(found) != count:
        raise Unable("a worker has another version of snapjudge")
    return found


def again(places, deaths, tries):
    """What is tried again of a bag whose worker has died this often: the bag, then its files one by one, then nothing."""
    if deaths < tries:
        return [(places, deaths)]
    return [(places[at : at + 1], 0) for at in range(len(places))] if len(places) > 1 else []


def is_utf8(name):
    """Whether a name is UTF-8, as the program must have it."""
    try:
        name.decode("utf-8")
    except UnicodeDecodeError:
        return False
    return True


def shown(name):
    """A name as the program shows it: in one line, and no byte of it controls a terminal."""
    greatest = 255 if is_utf8(name) else 126
    is_plain = [32 <= byte <= greatest and byte != 127 for byte in range(256)]
    return b"".join(ESCAPES.get(byte, b"%c" % byte if is_plain[byte] else b"\\x%02x" % byte) for byte in name)


def sums(names, answers):
    """The lines of the sums: how many files there are, and of each kind how many and the first."""
    lines = [b"files %d" % len(names)]
    for code, kind in enumerate(KINDS):
        found = [name for name, answer in zip(names, answers) if answer[0] == code]
        first = b" first " + shown(found[0]) if found else b""
        lines.append(b"%s %d%s" % (kind.encode(), len(found), first))
    return b"".join(line + b"\n" for line in lines)


def is_other(path):
    """Whether a pipe, a socket or a device is there, which no recording is."""
    return not os.path.isfile(path) and os.path.exists(path)


def is_taken(path, is_folder):
    """Whether an entry of a folder counts as a recording. Under a name that is not UTF-8 nothing is opened: what could be lost counts."""
    is_named = path.endswith(b".csv")
    if is_utf8(path):
        return is_named and not is_folder and not is_other(path)
    return is_named or (is_folder and not os.path.islink(path))


def names_below(folder):
    """The recordings below a folder, in the order of their names. A folder that can't be listed is among them itself."""
    found = []
    for place, folders, files in os.walk(folder, onerror=lambda error: found.append(os.fsencode(error.filename))):
        entries = [(os.path.join(place, name), True) for name in folders] + [(os.path.join(place, name), False) for name in files]
        found += [path for path, is_folder in entries if is_taken(path, is_folder)]
        folders[:] = filter(is_utf8, folders)
    return sorted(found)


def names_in(path, end):
    """The names in a list, each ended by a byte; the last need not be."""
    try:
        # a standard input that is closed is none
        found = contextlib.nullcontext(sys.stdin and sys.stdin.buffer) if path == "-" else open(path, "rb")
    except (OSError, ValueError) as error:
        raise Unable(f"{path}: " + UNOPENED.get(getattr(error, "errno", None), "can't be opened")) from None
    try:
        with found as file:
            text = file.read()
    except (OSError, AttributeError):
        raise Unable(f"{path}: read failed") from None
    names = text.removesuffix(end).split(end) if text else []
    if b"" in names:
        raise Unable(f"{path}: name {names.index(b'') + 1} is empty")
    return names


class Words(argparse.ArgumentParser):
    """The words of the command line. No status of a verdict comes if they are not taken."""

    def exit(self, status=0, message=None):
        super().exit(USAGE, message)


def whole(least, most=sys.maxsize):
    """What reads a whole number of a range, and says the range if a word is none."""

    def read(word):
        is_number = word.isascii() and word.isdecimal() and len(word) < 20
        if not is_number or not least <= int(word) <= most:
            raise argparse.ArgumentTypeError(f"{word!r} is no whole number from {least} to {most}")
        return int(word)

    return read


natural, positive, limit = whole(0), whole(1), whole(1, MOST_EVENTS)


def words_of(arguments):
    words = Words(prog="python3 -m snapjudge.cluster", description="Judges many recordings, and writes the sums of their verdicts.")
    where = words.add_mutually_exclusive_group()
    where.add_argument("--scheduler", metavar="ADDRESS", help="judge by the workers of this Dask scheduler")
    where.add_argument("--workers", metavar="N", type=positive, help="judge by N processes of this machine; the default is one for each processor")
    words.add_argument("--views", metavar="N", type=natural, default=0, help="refuse a history of fewer than N completed views")
    words.add_argument("--events", metavar="N", type=limit, default=USUAL, help=f"allow a history N events; the default is {USUAL:,}")
    words.add_argument("--writers", choices=WRITERS, default="one", help="how many processes may write a component; the default is one")
    words.add_argument("--bag", metavar="N", type=positive, help="give a worker N files at a time")
    words.add_argument("--files-from", metavar="LIST", help="take the names in this file too, one a line; - is standard input")
    words.add_argument("-0", "--null", action="store_true", help="the names in the list end with a zero byte")
    words.add_argument("--no-progress", action="store_true", help="do not show on a terminal how far it is")
    words.add_argument("paths", metavar="PATH", nargs="*", help="a recording, or a folder: all *.csv below it")
    found = words.parse_args(arguments)
    if not found.paths and not found.files_from:
        words.error("there is no recording, no folder and no list")
    if found.scheduler == "":
        words.error("the scheduler has no address")
    return found


class Progress:
    """A line on a terminal that says how far it is."""

    def __init__(self, total, is_shown):
        self.total, self.is_shown = total, is_shown
        self.begun = self.told = time.monotonic()

    def tell(self, judged):
        now = time.monotonic()
        if self.is_shown and now - self.told >= STEP:
            self.told = now
            say(f"\r\x1b[K{judged} of {self.total} files, {judged / (now - self.begun):.0f} a second")

    def end(self):
        if self.told != self.begun:
            say("\r\x1b[K")


def say(text):
    """Writes to standard error, if there is one."""
    data = text if isinstance(text, bytes) else os.fsencode(text)
    try:
        sys.stderr.flush()
        sys.stderr.buffer.write(data)
        sys.stderr.flush()
    except (OSError, AttributeError, ValueError):
        pass


def write(data):
    """Writes all to standard output, past its buffer."""
    if sys.stdout is None:
        raise Unable("write failed")
    try:
        while data:
            data = data[os.write(sys.stdout.fileno(), data) :]
    except OSError:
        raise Unable("write failed") from None


def run(words):
    """Judges all recordings that the words name, writes the sums and says the reasons. Answers the greatest exit status."""
    names = []
    for path in map(os.fsencode, words.paths):
        names += names_below(path) if is_utf8(path) and os.path.isdir(path) else [path]
    names += names_in(words.files_from, b"\0" if words.null else b"\n") if words.files_from else []
    if not names:
        raise Unable("there are no recordings")
    engine = Cluster(words.scheduler) if words.scheduler else Processes(words.workers or len(os.sched_getaffinity(0)))
    progress = Progress(sum(map(is_utf8, names)), not words.no_progress and sys.stderr is not None and sys.stderr.isatty())
    try:
        here = os.getcwdb()
        paths = [os.path.join(here, name) for name in names if is_utf8(name)]
        judged = iter(judge_all(engine, paths, Limits(words.views, words.events, words.writers), words.bag, progress.tell))
        answers = [next(judged) if is_utf8(name) else (FAILED, "is not UTF-8") for name in names]
    finally:
        progress.end()
        engine.close()
    for name, (code, reason) in zip(names, answers):
        if reason:
            say((b"snapjudge: " if code == FAILED else b"") + shown(name) + b": " + reason.encode() + b"\n")
    write(sums(names, answers))
    return max(code for code, _ in answers)


def main(arguments):
    words = words_of(arguments)
    # Dask notes each lost worker at length, and what is wrong is said here
    logging.disable(logging.CRITICAL)
    try:
        return run(words)
    except Unable as error:
        say(f"snapjudge: {error}\n")
    except KeyboardInterrupt:
        return INTERRUPTED
    except Exception:
        say(traceback.format_exc())
    return FAILED


if __name__ == "__main__":
    sys.exit(main(sys.argv[1:]))
