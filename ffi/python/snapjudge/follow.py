"""Judges one long recording while it grows, window by window, and writes a line for each window and then the sums.

How it is cut into windows is in windows.py beside this file, and the judge of each is the library, whose answer is proved. This file
reads what comes: a file, a pipe, or the files of a folder.
"""
import argparse
import collections
import contextlib
import os
import select
import signal
import stat
import sys
import time
import traceback

from snapjudge import MOST_EVENTS, STATUSES, WRITERS, report
from snapjudge.bags import BYTES_AN_EVENT, FAILED, PIECE, REFUSED, UNOPENED, USUAL
from snapjudge.cluster import INTERRUPTED, KINDS, Unable, Words, is_utf8, limit, names_below, natural, positive, say, shown, write
from snapjudge.windows import HEADER, PLAIN, RECORD, STAMPED, Cutter, Reader, Refusal, Waiting, require, window_of

# Of how many events a window is at least by default.
LEAST = 1000
IRREGULAR = STATUSES.index("irregular")
# No number of seconds on the command line is as great.
LONGEST = 1_000_000_000
# How many of the last bytes are compared when a file has grown, to see that it is still the same.
TAIL = 256

# What a refusal means and what to do, if the word is of this module.
TOO_LONG = "let the recorder work in rounds: a barrier, at which all threads wait until no call is open"
ADVICE = {
    "toomany": f"more than {{most}} events without a moment at which no call is open; {TOO_LONG}",
    "toolong": f"more than {{longest}} bytes without a moment at which no call is open, or more than {RECORD} in a record; {TOO_LONG}",
    "late": "its stamp is not after that of a record that was taken; write records sooner, or raise --interval",
    "open": "a file may not end here, since this call is open; let each round end when all its calls have ended",
}


class Trouble(Exception):
    """Why the recording can't be read further, and the file that this concerns."""

    def __init__(self, reason, name):
        super().__init__(reason)
        self.name = name


class File:
    """The bytes of a file that grows, or of a pipe."""

    def __init__(self, path):
        self.path = path
        if not is_utf8(path):
            raise Trouble("is not UTF-8", path)
        try:
            if path == b"-" and sys.stdin is None:
                # it is closed, and another file may have its number by now
                raise ValueError
            # a pipe without a writer would let it wait, and hold an interrupt up
            self.number = 0 if path == b"-" else os.open(path, os.O_RDONLY | os.O_NONBLOCK)
            self.is_plain = stat.S_ISREG(os.fstat(self.number).st_mode)
        except (OSError, ValueError) as error:
            raise Trouble(UNOPENED.get(getattr(error, "errno", None), "can't be opened"), path) from None
        # standard input may begin in the middle of a file
        self.length = os.lseek(self.number, 0, os.SEEK_CUR) if self.is_plain else 0
        self.has_ended, self._tail = False, b""

    def read(self):
        """The next bytes, or none if there are none now. A pipe without a writer has ended."""
        try:
            if self.is_plain:
                self._expect_same()
            elif self.has_ended or not select.select([self.number], [], [], 0)[0]:
                return b""
            piece = os.read(self.number, PIECE)
        except OSError:
            raise Trouble("read failed", self.path) from None
        self.length += len(piece)
        self._tail = (self._tail + piece)[-TAIL:]
        self.has_ended = not piece and not self.is_plain
        return piece

    def _expect_same(self):
        """Refuses a file that has become shorter, or has other bytes, or whose name another file has now."""
        if os.fstat(self.number).st_size < self.length:
            raise Trouble("was cut short while it was read", self.path)
        if os.pread(self.number, len(self._tail), self.length - len(self._tail)) != self._tail:
            raise Trouble("was written anew while it was read", self.path)
        with contextlib.suppress(FileNotFoundError):
            if self.path != b"-" and not os.path.samestat(os.stat(self.path), os.fstat(self.number)):
                raise Trouble("is another file now", self.path)

    def close(self):
        if self.number:
            os.close(self.number)


class Files:
    """The files of a recording, one after the other: one alone, or all *.csv below a folder, in the order of their names."""

    def __init__(self, path):
        self.folder = path if is_utf8(path) and os.path.isdir(path) else None
        self._lengths, self._next = {}, collections.deque(() if self.folder else [path])

    def following(self):
        """The name of the file after those that were read, or none as yet."""
        if not self._next and self.folder:
            self._list()
        return self._next[0] if self._next else None

    def _list(self):
        shown = names_below(self.folder)
        # what comes while a folder is listed may be shown without what came before it, so the names up to the last are listed again
        names = [name for name in names_below(self.folder) if name <= shown[-1]] if shown else []
        # a folder that can't be listed is among the names itself
        lost = [name for name in names if name == self.folder or not name.endswith(b".csv")]
        if lost:
            raise Trouble("can't be opened", lost[0])
        last = max(self._lengths, default=b"")
        for name in names:
            if name not in self._lengths:
                if name < last:
                    raise Trouble("came too late: a later name is read", name)
                self._next.append(name)
            elif name != last:
                with contextlib.suppress(FileNotFoundError):
                    if os.stat(name).st_size != self._lengths[name]:
                        raise Trouble("has changed after a later file began", name)

    @property
    def has_left(self):
        """Whether a file comes before the one at hand."""
        return len(self._lengths) > 1

    def open_next(self):
        file = File(self._next.popleft())
        self._lengths[file.path] = 0
        return file

    def leave(self, file):
        self._lengths[file.path] = file.length
        file.close()


class Interrupts:
    """Signals that ask to end. They end the following, and not the program at once."""

    def __init__(self):
        self._ear, mouth = os.pipe()
        os.set_blocking(mouth, False)
        signal.set_wakeup_fd(mouth)
        for number in (signal.SIGINT, signal.SIGTERM):
            if signal.getsignal(number) != signal.SIG_IGN:
                signal.signal(number, lambda *_: None)

    def wait(self, seconds, files=()):
        """Waits this many seconds, or until one of these files has something to read. Answers whether it is asked to end."""
        return self._ear in select.select([self._ear, *files], [], [], seconds)[0]


class Follow:
    """A recording that is followed: its files, the events that wait, and its windows, each of which is judged at once."""

    def __init__(self, path, words, is_asked):
        self._files, self._words, self._is_asked = Files(path), words, is_asked
        self._file = self._reader = None
        self._waiting, self._cutter = Waiting(), Cutter(self._judge, words.events, words.most, words.writers)
        self._passed, self._windows, self._events, self._views = time.monotonic(), 0, 0, 0
        # of each status how many windows have it, and the first
        self._counts, self._firsts = [0] * len(KINDS), [None] * len(KINDS)

    @property
    def has_ended(self):
        """Whether nothing more can come: a pipe has no writer any more."""
        return self._file is not None and self._file.has_ended and not self._files.folder

    @property
    def pipes(self):
        """The pipes that one can wait for."""
        return [] if self._file is None or self._file.is_plain or self._file.has_ended else [self._file.number]

    @property
    def views(self):
        """How many completed views the windows have."""
        return self._views

    @property
    def status(self):
        return max((code for code, count in enumerate(self._counts) if count), default=0)

    def take(self, seconds):
        """Takes what is there now, for this many seconds at most. Answers whether there was something."""
        ends, found, has_following = time.monotonic() + seconds, False, False
        while time.monotonic() < ends and not self._is_asked():
            piece = self._file.read() if self._file else b""
            if piece:
                self._take(self._reader.take(piece))
            elif has_following:
                # it was there before the last look at this file, so nothing more comes here
                self._go_on()
                has_following = False
            elif self._files.following() is None:
                break
            else:
                has_following = True
                continue
            found = True
        if not self._files.folder and not self._words.once and time.monotonic() - self._passed >= self._words.interval:
            self._cut_safe()
            self._waiting.pass_time()
            self._passed = time.monotonic()
        return found

    def _take(self, events):
        for stamp, event in events:
            if stamp is None:
                self._cutter.take(event)
            else:
                self._waiting.add(stamp, event)

    def _cut_safe(self):
        for event in self._waiting.pop_safe():
            self._cutter.take(event)

    def _go_on(self):
        """Leaves a file, and opens the next."""
        headers = PLAIN, STAMPED
        if self._file:
            self._end_file()
            self._files.leave(self._file)
            if self._words.rounds:
                self._cutter.end_round()
                self._waiting = Waiting()
            else:
                headers = (self._reader.header,)
        self._file = self._files.open_next()
        self._reader = Reader(self._file.path if self._files.folder else None, headers)

    def _end_file(self):
        """The end of the file ends its last record, and no earlier stamp is to come."""
        self._take(self._reader.take(b"", is_end=True))
        require(self._reader.header, self._reader.place, "header")
        self._waiting.pass_time()
        self._cut_safe()

    def end(self, is_whole, is_asked):
        """Ends the recording. A last record without an end counts if the file is whole. If somebody asked to end, earlier
        stamps may still come."""
        if not self._file:
            raise Unable("there are no recordings")
        if is_whole:
            self._end_file()
        else:
            self._leave_file(is_asked)
        self._cutter.end()

    def _leave_file(self, is_asked):
        """Ends a file that may not be whole, and says what is left out."""
        require(self._reader.header or self._files.has_left, self._reader.place, "header")
        if self._reader.rest:
            self._say("the last line has no end, and is left out", self._file.path)
        if not is_asked:
            self._waiting.pass_time()
        self._cut_safe()
        if self._waiting:
            self._say(f"the last {len(self._waiting)} records are left out, since earlier stamps may come", self._file.path)

    def _say(self, reason, name):
        say(b"snapjudge: " + shown(name) + b": " + os.fsencode(reason) + b"\n")

    def _judge(self, events, left):
        """Judges a window, and writes its line."""
        text, missed = window_of(events, left)
        more, number = b"", self._windows + 1
        try:
            status, told = report(text, self._words.most, writers=self._words.writers)
            code = STATUSES.index(status)
        except MemoryError:
            code = FAILED
            self._say(f"window {number}: out of memory", self._file.path)
        if code == REFUSED:
            raise Trouble(f"the judge refuses window {number}: {told.strip()}", self._file.path)
        if code < REFUSED:
            self._views += int(told.partition("\n")[0].rpartition(" ")[2])
            if missed:
                place, entry = missed
                code, more = IRREGULAR, b" misses %d:%d:%d in record %s" % (*entry, told_place(place))
            if code and self._words.keep:
                self._keep(number, text)
        self._events += len(events)
        begins, ends = told_place(events[0].place), told_place(events[-1].place)
        self._count(code, b"events %d %s from %s to %s" % (len(events), KINDS[code].encode(), begins, ends) + more)

    def _keep(self, number, text):
        path = os.path.join(self._words.keep, f"window-{number}.csv")
        try:
            with open(path, "wb") as file:
                file.write(text)
        except OSError as error:
            raise Unable(f"{path}: {error.strerror}") from None

    def _count(self, code, line):
        self._windows += 1
        self._counts[code] += 1
        self._firsts[code] = self._firsts[code] or self._windows
        write(b"window %d %s\n" % (self._windows, line))

    def refuse(self, refusal):
        """The rest of the recording is not a window: a line names the record at fault."""
        self._count(REFUSED, b"refused record %s: %s" % (told_place(refusal.place), refusal.word.encode()))
        if refusal.word in ADVICE:
            call, more = refusal.call, ""
            if call:
                more = f". Open: the {call.op.decode()} of process {call.process}, begun by record {os.fsdecode(told_place(call.place))}"
            advice = ADVICE[refusal.word].format(most=self._words.most, longest=self._words.most * BYTES_AN_EVENT)
            self._say(f"{refusal.word}: {advice}{more}", self._file.path)

    def fail(self, trouble):
        """The rest of the recording can't be judged."""
        if not self._file:
            raise Unable(f"{os.fsdecode(shown(trouble.name))}: {trouble}")
        self._say(str(trouble), trouble.name)
        self._count(FAILED, KINDS[FAILED].encode())

    def sums(self):
        """How many windows there are, and of each kind how many and the first."""
        lines = [f"windows {self._windows} events {self._events} views {self._views}"]
        for kind, count, first in zip(KINDS, self._counts, self._firsts):
            lines.append(f"{kind} {count}" + (f" first {first}" if count else ""))
        return "".join(line + "\n" for line in lines).encode()


def told_place(place):
    """A record in a line: its number, and the name of its file if there are several."""
    return b"%d" % place.record + (b"" if place.name is None else b" of " + shown(place.name))


def seconds(word):
    try:
        number = float(word)
    except ValueError:
        number = 0
    if not 0 < number < LONGEST:
        raise argparse.ArgumentTypeError(f"{word!r} is not a number above 0 and below {LONGEST}")
    return number


def words_of(arguments):
    words = Words(prog="python3 -m snapjudge.follow", description=(
        "Judges one recording while it grows, window by window. Each window ends at a moment at which no call is open. "
        "An interrupt ends it, with the sums so far."))
    when = words.add_mutually_exclusive_group()
    when.add_argument("--once", action="store_true", help="end at the end of the file or the folder, and wait for nothing")
    when.add_argument("--idle", metavar="SECONDS", type=seconds, help="end if nothing has come for this time")
    when.add_argument("--pid", metavar="PID", type=positive, help="end when this process, which records, is gone")
    words.add_argument("-s", "--interval", metavar="SECONDS", type=seconds, default=1.0, help="look for more once in this time; the default is 1")
    words.add_argument("--events", metavar="N", type=limit,
                       help=f"end a window at its first such moment, once it has N events; the default is {LEAST}")
    words.add_argument("--most", metavar="N", type=limit, default=USUAL,
                       help=f"let a window have up to N events; the default is {USUAL}, and {MOST_EVENTS} is the most")
    words.add_argument("--writers", choices=WRITERS, default="one", help="how many processes may write a component; the default is one")
    words.add_argument("--rounds", action="store_true", help="each file of the folder is a round, whose numbers begin at 1")
    words.add_argument("--keep", metavar="FOLDER", help="write each window that is not atomic into this folder")
    words.add_argument("--views", metavar="N", type=natural, default=0, help="refuse a recording of fewer than N completed views")
    words.add_argument("path", metavar="PATH", help="a recording, - for standard input, or a folder: all *.csv below it are one recording")
    found = words.parse_args(arguments)
    if found.events is None:
        found.events = min(LEAST, found.most)
    if found.events > found.most:
        words.error(f"--events: a window has {found.most} events at most; --most allows more")
    if found.keep is not None and not os.path.isdir(found.keep):
        words.error(f"--keep: {found.keep} is not a folder")
    if found.rounds and not os.path.isdir(found.path):
        words.error("--rounds wants a folder")
    return found


def follow_to_the_end(follow, words, interrupts):
    """Takes what comes until the recording ends, or somebody asks to end. Answers whether somebody asked."""
    last = time.monotonic()
    while True:
        # looked at first, so that everything that it wrote is taken
        is_gone = words.pid and not is_there(words.pid)
        found = follow.take(float("inf") if words.once else words.interval)
        is_asked, now = interrupts.wait(0), time.monotonic()
        last = now if found else last
        is_whole = follow.has_ended or words.once and not follow.pipes
        if is_asked or is_whole or not found and (is_gone or words.idle and now - last >= words.idle):
            follow.end(is_whole and not is_asked, is_asked)
            return is_asked
        if not found:
            interrupts.wait(min(words.interval, words.idle or words.interval), follow.pipes)


def is_there(process):
    """Whether a process exists, whoever owns it."""
    try:
        os.kill(process, 0)
    except PermissionError:
        return True
    except (ProcessLookupError, OverflowError):
        return False
    return True


def run(words):
    """Follows the recording, writes its windows and then the sums. Answers the greatest exit status."""
    try:
        # the library is loaded now, and not when the first window has come
        report(HEADER)
    except ImportError as error:
        raise Unable(error) from None
    interrupts = Interrupts()
    follow = Follow(os.fsencode(words.path), words, lambda: interrupts.wait(0))
    is_cut = False
    try:
        is_cut = follow_to_the_end(follow, words, interrupts) and words.once
    except Refusal as refusal:
        follow.refuse(refusal)
    except Trouble as trouble:
        follow.fail(trouble)
    write(follow.sums())
    if follow.status < REFUSED and follow.views < words.views:
        say(f"refused: fewer than {words.views} views\n")
        return REFUSED
    return INTERRUPTED if is_cut else follow.status


def main(arguments):
    words = words_of(arguments)
    try:
        return run(words)
    except Unable as error:
        say(f"snapjudge: {error}\n")
    except KeyboardInterrupt:
        return INTERRUPTED
    except Exception:
        say(traceback.format_exc())
    return FAILED


if __name__ == "__main__":
    sys.exit(main(sys.argv[1:]))
