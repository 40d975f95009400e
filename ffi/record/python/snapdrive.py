"""Drives a snapshot object of one's own: threads update and view it by a seeded schedule, and the judge judges each run.

Two files, this one and snaprecord.py, Python 3.8 or later, no dependencies: copy both. docs/OWN-OBJECT.md of snapjudge shows how.

    class Board:                                        # a fresh one for each run, with 0 in each component
        def __init__(self, components): ..
        def update(self, thread, component, value): ..
        def view(self, thread): ..                      # one value for each component, or None if it gave up

    main({"board": Board})                              # takes options from the command line
    outcome = run(Board, runs=100, threads=3)           # or this, in a test of one's own; raises DriveError and RecordError

If an object calls pause() between its steps, the other threads run in the middle of its calls. An update that failed raises
NoEffect or Unknown.

SPDX-License-Identifier: 0BSD
Copyright (C) 2026 by the authors of snapjudge
Permission to use, copy, modify, and/or distribute this software for any purpose with or without fee is hereby granted.
THE SOFTWARE IS PROVIDED "AS IS" AND THE AUTHOR DISCLAIMS ALL WARRANTIES WITH REGARD TO THIS SOFTWARE INCLUDING ALL IMPLIED
WARRANTIES OF MERCHANTABILITY AND FITNESS. IN NO EVENT SHALL THE AUTHOR BE LIABLE FOR ANY SPECIAL, DIRECT, INDIRECT, OR
CONSEQUENTIAL DAMAGES OR ANY DAMAGES WHATSOEVER RESULTING FROM LOSS OF USE, DATA OR PROFITS, WHETHER IN AN ACTION OF
CONTRACT, NEGLIGENCE OR OTHER TORTIOUS ACTION, ARISING OUT OF OR IN CONNECTION WITH THE USE OR PERFORMANCE OF THIS SOFTWARE.
"""
import ctypes
import dataclasses
import os
import re
import shutil
import subprocess
import sys
import tempfile
import threading
import time

from snaprecord import EVENT_LIMIT, RecordError, Recorder

# Of each number among the options the least and the greatest.
RANGES = {
    "threads": (1, 64),
    "components": (1, 64),
    "calls": (1, EVENT_LIMIT // 2),
    "runs": (1, 10**9),
    "seed": (0, 2**64 - 1),
    "nap": (0, 10**6),
    "stop": (0, 10**9),
    "limit": (1, 10**5),
    "views": (0, 10**9),
    "events": (2, EVENT_LIMIT),
    "depth": (1, 64),
}
USAGE = """usage: [OBJECT] [OPTION VALUE ..]
  --threads 4      how many threads, at most 64
  --components 4   how many components, at most 64; thread t updates t, t + threads and so on
  --calls 200      how many calls each thread makes; all threads together make at most half of --events
  --events 65536   how many events a run may have, at most 1048576; a call has two
  --runs 20        how many runs, each of a fresh object
  --seed 1         the seed of the random choice of calls
  --order choice   the seed chooses each call; or turn: updates and a view in turn
  --schedule free  threads run freely; or pct: in turns that the seed chooses, the same in each try
  --depth 3        by pct the turns change at this many moments, less one; at most 64
  --nap 0          if not 0, pauses and the gaps between calls last up to that many microseconds
  --stop 0         if not 0, ends after that many runs that were not atomic
  --limit 60       how many seconds a run may take
  --views 1        how many views must end in all runs together; 0 asks for none
  --out .          the folder for the first run that was not atomic
  --program FILE   the program snapjudge; else SNAPJUDGE_PROGRAM names it, else it is on the PATH
  --choices        writes the calls that the seed chooses, and runs nothing
  --help           writes the options and the objects, with status 0"""


@dataclasses.dataclass
class Options:
    threads: int = 4
    components: int = 4
    calls: int = 200
    runs: int = 20
    seed: int = 1
    nap: int = 0
    stop: int = 0
    limit: int = 60
    views: int = 1
    events: int = 65536
    depth: int = 3
    order: str = "choice"
    schedule: str = "free"
    out: str = "."
    program: str = ""

    def __post_init__(self):
        for name, (least, greatest) in RANGES.items():
            value = getattr(self, name)
            if type(value) is not int or not least <= value <= greatest:
                raise DriveError("limits", f"{name} is a number from {least} to {greatest}")
        if self.threads * self.calls > self.events // 2:
            raise DriveError("limits", f"all threads make at most {self.events // 2} calls")
        if self.order not in ("choice", "turn"):
            raise DriveError("usage", "order is choice or turn")
        if self.schedule not in ("free", "pct"):
            raise DriveError("usage", "schedule is free or pct")


@dataclasses.dataclass
class Outcome:
    """How many runs were atomic, only regular, or not regular; and which was the first that was not atomic, from 1, or 0. How many
    views ended in all runs, how many of these overlapped an update, and how many runs have such a view."""

    atomic: int = 0
    only_regular: int = 0
    not_regular: int = 0
    first: int = 0
    views: int = 0
    overlapping: int = 0
    overlapped: int = 0

    @property
    def caught(self):
        return self.only_regular + self.not_regular

    @property
    def runs(self):
        return self.atomic + self.caught

    @property
    def counted_runs(self):
        return f"{self.runs} run" if self.runs == 1 else f"{self.runs} runs"

    def add(self, views, overlapping):
        self.views += views
        self.overlapping += overlapping
        self.overlapped += overlapping > 0

    def test_looked(self, asked):
        """Raises if the runs say nothing of the object: all were atomic, and too few views ended, or none overlapped an update."""
        if self.first or not asked:
            return
        if self.views < asked:
            raise DriveError("few views", f"{self.views} views ended in {self.counted_runs}, fewer than {asked}: there is no verdict")
        if not self.overlapping:
            none = f"none of {self.views} views overlapped an update in {self.counted_runs}"
            raise DriveError("no overlap", f"{none}: there is no verdict on calls at the same time")

    def __str__(self):
        verdicts = f"atomic {self.atomic}, only-regular {self.only_regular}, not-regular {self.not_regular}"
        overlaps = f"{self.overlapping} of {self.views} views overlapped an update, in {self.overlapped} of {self.counted_runs}"
        return f"{verdicts}; {overlaps}"


class DriveError(Exception):
    """Why runs have no verdict; `name` is usage, limits, view, died, hangs, memory, few views, no overlap, no judge, no verdict or
    files."""

    def __init__(self, name, message):
        super().__init__(message)
        self.name = name


# ---- the schedule

MASK = 2**64 - 1
GAMMA = 0x9E3779B97F4A7C15


def mix(state):
    """The output of splitmix64 in this state."""
    state = (state ^ state >> 30) * 0xBF58476D1CE4E5B9 & MASK
    state = (state ^ state >> 27) * 0x94D049BB133111EB & MASK
    return state ^ state >> 31


def splitmix64(state):
    """The generator of this seed."""
    while True:
        state = state + GAMMA & MASK
        yield mix(state)


def calls_of(options, thread, seed):
    """The component that each call of a thread updates; None is a view."""
    own, random = range(thread, options.components, options.threads), splitmix64(seed)
    for i in range(options.calls):
        if options.order == "turn":
            turn = i % (len(own) + 1)
            yield own[turn] if turn < len(own) else None
        else:
            choice = next(random)
            yield None if choice & 1 or not own else own[(choice >> 1) % len(own)]


def schedules(options):
    """The calls of each thread, for each run."""
    seeds = splitmix64(options.seed)
    for _ in range(options.runs):
        yield [list(calls_of(options, thread, next(seeds))) for thread in range(options.threads)]


class Turns:
    """Turns of the threads of a run: probabilistic concurrency testing, by Burckhardt, Kothari, Musuvathi and Nagarakatte (2010).

    One thread runs at a time: of those that have not ended the one with the highest priority. The seed chooses these, and the points at
    which the running thread gets a priority below all of them. Only the running thread reads and writes the turns.
    """

    SPIN = 10000  # after this many points within one call a thread may wait for another one, and gets a priority below all others
    of_thread = threading.local()

    def __init__(self, options, random, points):
        """`points` is how many points the run before had."""
        order = list(range(options.threads))
        self.priorities, self.points, self.spins, self.lowest = {}, 0, 0, 0
        for i in reversed(range(options.threads)):
            j = next(random) % (i + 1)
            order[i], order[j] = order[j], order[i]
            self.priorities[order[i]] = options.depth + i
        self.changes = [1 + next(random) % points for _ in range(options.depth - 1)]
        self.turn = [threading.Semaphore(0) for _ in order]

    def enter(self, thread):
        """A thread begins, and waits for its turn."""
        Turns.of_thread.turns, Turns.of_thread.number = self, thread
        self.turn[thread].acquire()

    def leave(self, thread):
        """A thread ends."""
        del Turns.of_thread.turns, self.priorities[thread]
        self.give(thread)

    def give(self, thread=None):
        """The turn goes to the thread that has it now; another one then waits for its own."""
        first = max(self.priorities, key=self.priorities.get, default=thread)
        if first != thread:
            self.turn[first].release()
            if thread in self.priorities:
                self.turn[thread].acquire()

    def point(self, thread):
        self.points += 1
        self.spins += 1
        for i, at in enumerate(self.changes):
            if at == self.points:
                self.priorities[thread] = i
        if self.spins > self.SPIN:
            self.spins, self.lowest = 0, self.lowest - 1
            self.priorities[thread] = self.lowest
        self.give(thread)


class FreeTurns:
    """Threads that run freely."""

    points = 1

    def enter(self, thread):
        pass

    leave = enter

    def give(self):
        pass


class Pace:
    """What all runs share: the source of choices, and how many points the last run had."""

    def __init__(self, options):
        self.options, self.random, self.points = options, splitmix64(mix(options.seed)), 6 * options.threads * options.calls

    def turns(self):
        return Turns(self.options, self.random, self.points) if self.options.schedule == "pct" else FreeTurns()


def point():
    """A place between two steps. By the schedule pct the turn may change here; else nothing is done."""
    turns = getattr(Turns.of_thread, "turns", None)
    if turns:
        turns.point(Turns.of_thread.number)
    return turns


class _Naps:
    longest, random = 0, splitmix64(0)


def pause():
    """Lets the other threads run, and naps if the options ask for it."""
    if point():
        return
    time.sleep(next(_Naps.random) % (_Naps.longest + 1) / 1e6 if _Naps.longest else 0)


# ---- updates that fail


class NoEffect(Exception):
    """Raised by an update that had no effect, and can have none any more. It is left out of the history."""


class Unknown(Exception):
    """Raised by an update of which nobody knows whether it had an effect, or will have one. It stays pending, and its thread makes no
    more calls in this run."""


# ---- one run


def work(board, log, thread, calls, options):
    for i, component in enumerate(calls):
        turns = point()
        if component is None:
            if not log.begin_view():
                return
            point()
            values = board.view(thread)
            point()
            if values is None:
                log.drop_view()
            else:
                log.end_view_values(values)
                if len(values) != options.components:
                    raise DriveError("view", f"a view has {len(values)} values of {options.components} components")
        else:
            value = (thread + 1) * 1000000 + i  # each value once
            if not log.begin_update(component, value):
                return
            try:
                point()
                board.update(thread, component, value)
                point()
                log.end_update()
            except NoEffect:
                log.drop_update()
            except Unknown:
                return
        if turns:
            turns.spins = 0
        elif options.nap:
            pause()


def fresh(make, options):
    try:
        return make(options.components)
    except Exception as error:
        raise DriveError("died", f"the object can't be made: {error!r}") from error


def start_all(threads):
    for number, thread in enumerate(threads):
        try:
            thread.start()
        except (RuntimeError, MemoryError) as error:
            raise DriveError("memory", f"thread {number} can't be started") from error


def record(make, options, schedule, front, turns):
    """The recorder of a fresh object under a schedule. What a run made that did not end is in FRONT-unfinished.csv."""
    board, recorder = fresh(make, options), Recorder(options.threads, options.components, options.calls)
    recorder.keep(f"{front}-unfinished.csv")
    start, failed = threading.Barrier(options.threads), []

    def run_thread(thread):
        try:
            start.wait()
            turns.enter(thread)
            work(board, recorder.log(thread), thread, schedule[thread], options)
        except DriveError as error:
            failed.append(error)
        except BaseException as error:  # also SystemExit, which else would end this thread alone
            failed.append(DriveError("died", f"a call of thread {thread} raised {error!r}"))
        turns.leave(thread)

    threads = [threading.Thread(target=run_thread, args=(thread,), daemon=True) for thread in range(options.threads)]
    end = time.monotonic() + options.limit
    start_all(threads)
    turns.give()
    for thread in threads:
        thread.join(max(0, end - time.monotonic()))
    if not failed and any(thread.is_alive() for thread in threads):
        failed.append(DriveError("hangs", f"a run took more than {options.limit} s: a call of the object does not end"))
    if failed:
        keep_unfinished(recorder, front)
        raise failed[0]
    recorder.leave()
    return recorder


def keep_unfinished(recorder, front):
    """Writes the calls so far of a run that does not end, or in which a call died."""
    recorder.leave()
    try:
        with open(f"{front}-unfinished.csv", "w", encoding="ascii") as file:
            file.write(recorder.text_so_far())
    except (OSError, RecordError):
        return  # the message on the run matters more
    print(f"{os.path.basename(front)}: its calls so far are in {front}-unfinished.csv", file=sys.stderr)


# ---- the judge


class Judge:
    """The library if it is there, and else the program. SNAPJUDGE_LIBRARY names the library; it is empty for none."""

    def __init__(self, named, events):
        self.events = events
        named = named or os.environ.get("SNAPJUDGE_PROGRAM") or "snapjudge"
        self.program = shutil.which(named)
        if self.program and not self._is_judge():
            raise DriveError("no judge", f"{self.program} is not snapjudge: it tells no version of it")
        folder = os.path.dirname(os.path.realpath(self.program)) if self.program else "."
        library = os.environ.get("SNAPJUDGE_LIBRARY")
        places = [f"{folder}/../lib/libsnapjudge.so", f"{folder}/ffi/build/libsnapjudge.so", "libsnapjudge.so"]
        self.library = next(filter(None, map(self._load, places if library is None else filter(None, [library]))), None)
        if not self.library and (library or not self.program):
            raise DriveError("no judge", f"there is no {library or 'program ' + named}: install snapjudge, or name it by --program")

    @staticmethod
    def _load(place):
        try:
            library = ctypes.CDLL(place)
            return library if library.snapjudge_version() == 1 else None
        except (OSError, AttributeError):
            return None

    def _is_judge(self):
        """Whether the program says its version. One of another kind may end with 0 whatever it is given, and that is not a verdict."""
        try:
            done = subprocess.run([self.program, "--version"], stdin=subprocess.DEVNULL, stdout=subprocess.PIPE)
        except OSError:
            return False
        return done.returncode == 0 and re.match(b"snapjudge [0-9]", done.stdout) is not None

    def status(self, text):
        """0 for atomic, 1 for only regular, 2 for not regular."""
        status = self._by_library(text.encode()) if self.library else self._by_program(text)
        if status not in range(3):
            raise DriveError("no verdict", f"the judge ends with status {status}")
        return status

    def test_verdict(self):
        """Tries, before the first run, whether the judge recognizes a history that is not regular: its view misses an update. A judge
        whose status is lost, as by a script with a pipe, would call every run atomic."""
        status = self.status("event,process,op,data\nbegin,0,update,0:1:7\nend,0,update,\nbegin,1,view,\nend,1,view,\n")
        if status != 2:
            raise DriveError("no judge", f"of a history that is not regular the judge tells status {status}, and not 2")

    def _by_library(self, text):
        room, length = ctypes.create_string_buffer(2 * len(text) + 256), ctypes.c_size_t()
        sized = ctypes.c_size_t(len(text)), ctypes.c_uint32(self.events), room, ctypes.c_size_t(len(room))
        return self.library.snapjudge_check_limit(text, *sized, ctypes.byref(length))

    def _command(self, verb):
        return [self.program, verb, f"--events={self.events}", *(["--quiet"] if verb == "check" else [])]

    def _by_program(self, text):
        with tempfile.TemporaryFile("w+") as file:
            file.write(text)
            file.seek(0)
            return subprocess.run(self._command("check"), stdin=file, stdout=subprocess.DEVNULL).returncode

    def keep(self, text, front):
        """Writes a history, its witness and its explanation."""
        history = f"{front}-caught.csv"
        with open(history, "w", encoding="ascii") as file:
            file.write(text)
        for verb, name in (("shrink", f"{front}-witness.csv"), ("explain", f"{front}-explained.txt")):
            if os.path.exists(name):
                os.remove(name)  # of an earlier run
            if self.program:
                with open(history, encoding="ascii") as file, open(name, "wb") as out:
                    if subprocess.run(self._command(verb), stdin=file, stdout=out).returncode not in range(3):
                        raise DriveError("files", f"{name} can't be written")


def test_folder(out):
    """Tries whether files can be written into a folder, before the first run, so that none is lost."""
    name = os.path.join(out, f"run-{os.getpid()}.csv")
    try:
        with open(name, "w"):
            pass
        os.remove(name)
    except OSError as error:
        raise DriveError("files", f"{name} can't be written: {error.strerror}") from error


def run(make, name="object", **words):
    """Runs fresh objects, and counts the verdicts. Of the first run that is not atomic it keeps NAME-caught.csv, the history,
    NAME-witness.csv, the least of it that is not atomic, and NAME-explained.txt. The words are the options."""
    options = Options(**words)
    judge, outcome, told = Judge(options.program, options.events), Outcome(), time.monotonic()
    front = os.path.join(options.out, name)
    test_folder(options.out)
    judge.test_verdict()
    _Naps.longest, _Naps.random, pace = options.nap, splitmix64(options.seed), Pace(options)
    for number, schedule in enumerate(schedules(options), 1):
        turns = pace.turns()
        recorder = record(make, options, schedule, front, turns)
        pace.points = turns.points
        text = recorder.text()
        outcome.add(*recorder.views())
        status = judge.status(text)
        found = ("atomic", "only_regular", "not_regular")[status]
        setattr(outcome, found, getattr(outcome, found) + 1)
        if status and not outcome.first:
            outcome.first = number
            try:
                judge.keep(text, front)
            except OSError as error:
                raise DriveError("files", f"the first run that was caught can't be written: {error}") from error
            print(f"{name}: run {number} is not atomic: see {front}-caught.csv and the files beside it", file=sys.stderr)
        ended = number == options.runs or 0 < options.stop == outcome.caught
        if ended or time.monotonic() >= told + 1:
            told = time.monotonic()
            print(f"{name}: run {number} of {options.runs}: {outcome}", file=sys.stderr)
        if ended:
            break
    outcome.test_looked(options.views)
    return outcome


def read(words):
    """The options of a command line."""
    found = {}
    for at in range(0, len(words), 2):
        word, name, value = words[at], words[at][2:], (words[at + 1 :] or [None])[0]
        if not word.startswith("--"):
            raise DriveError("usage", f"{word} is not an option")
        if name not in Options.__dataclass_fields__:
            raise DriveError("usage", f"there is no option {word}")
        if value is None:
            raise DriveError("usage", f"{word} has no value")
        if name in RANGES and not (value.isascii() and value.isdigit()):
            raise DriveError("usage", f"{word}: {value} is not a number")
        found[name] = int(value) if name in RANGES else value
    return found


def choices(options):
    """A line for each call that the seed chooses."""
    for number, schedule in enumerate(schedules(options), 1):
        for thread, calls in enumerate(schedule):
            for component in calls:
                yield f"{number} {thread} {'view' if component is None else f'update {component}'}"


def tell(lines):
    """Writes lines to standard output."""
    try:
        if sys.stdout is None:
            raise OSError("it is closed")
        sys.stdout.writelines(f"{line}\n" for line in lines)
        sys.stdout.flush()
    except OSError as error:
        raise DriveError("files", f"standard output can't be written: {error.strerror or error}") from error


def answer(objects, name, words):
    """Runs what the words ask for, and answers what was found, or nothing if nothing was run."""
    if "--help" in words or "-h" in words:
        return tell([usage_of(objects)])
    if name not in objects:
        raise DriveError("usage", f"there is no object {name}")
    if "--choices" in words:
        words.remove("--choices")
        return tell(choices(Options(**read(words))))
    outcome = run(objects[name], name, **read(words))
    tell([f"{name}: {outcome}"])
    return outcome


def usage_of(objects):
    return f"{USAGE}\nobjects: {' '.join(objects)}"


def main(objects):
    """Runs the object that the command line names, or the first one. It ends with 0 if each run was atomic, 1 if some were only
    regular, and 2 if some were not regular. It ends with 3 if too little was seen for a verdict, and with 4 if there is none
    for another reason.
    """
    words = sys.argv[1:]
    name = words.pop(0) if words and not words[0].startswith("-") else next(iter(objects))
    try:
        outcome = answer(objects, name, words) or Outcome()
    except (DriveError, RecordError) as error:
        fault = error.name if isinstance(error, DriveError) else error.fault.name.lower().replace("_", " ")
        usage = f"{usage_of(objects)}\n" if fault == "usage" else ""
        print(f"{usage}{name}: {fault}: {error}", file=sys.stderr, flush=True)
        os._exit(3 if fault in ("few views", "no overlap") else 4)  # a call that hangs holds up no more
    sys.exit(2 if outcome.not_regular else 1 if outcome.only_regular else 0)
