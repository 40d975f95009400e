"""Records the calls that threads make of a single-writer board, and writes them as a history for `snapjudge check`.

One file, Python 3.8 or later, no dependencies: copy it into a harness. docs/OWN-OBJECT.md of snapjudge leads through one.

    recorder = Recorder(threads, components, calls)

    log = recorder.log(t)                           # thread t, and no other
    if not log.begin_update(component, value):      # refused: make no further call
        return
    board.update(component, value)
    log.end_update()
    if not log.begin_view():
        return
    values = board.view()
    log.end_view_values(values)                     # or end_view, of numbers; of a call that failed drop_..

    text = recorder.text()                          # after the threads were joined; raises RecordError
    recorder.keep("unfinished.csv")                 # before: writes what there is so far when the process ends

A value may be anything that a dict takes as a key, but None. In a view None is the value that the component has at first.

What the record says: if call A ended before call B began in it, that was so in the run. Each stamp is one step of one clock.
A begin takes it last in begin_.., and an end takes it first in end_... A thread appends to its own log alone. It takes no
lock if the interpreter has its global one. No call of a log raises, whatever it is given, unless memory is missing: what is
wrong is a misuse.
What it cannot say: the clock orders more calls than the object may, so a fault that needs two calls without such an order can
hide.

SPDX-License-Identifier: 0BSD
Copyright (C) 2026 by the authors of snapjudge
Permission to use, copy, modify, and/or distribute this software for any purpose with or without fee is hereby granted.
THE SOFTWARE IS PROVIDED "AS IS" AND THE AUTHOR DISCLAIMS ALL WARRANTIES WITH REGARD TO THIS SOFTWARE INCLUDING ALL IMPLIED
WARRANTIES OF MERCHANTABILITY AND FITNESS. IN NO EVENT SHALL THE AUTHOR BE LIABLE FOR ANY SPECIAL, DIRECT, INDIRECT, OR
CONSEQUENTIAL DAMAGES OR ANY DAMAGES WHATSOEVER RESULTING FROM LOSS OF USE, DATA OR PROFITS, WHETHER IN AN ACTION OF
CONTRACT, NEGLIGENCE OR OTHER TORTIOUS ACTION, ARISING OUT OF OR IN CONNECTION WITH THE USE OR PERFORMANCE OF THIS SOFTWARE.
"""
import atexit
import bisect
import enum
import itertools
import signal
import sys
import threading

EVENT_LIMIT = 1048576  # of a history; a call has two. More than 65536 the judge takes by --events N
COMPONENT_LIMIT = 256
PROCESS_LIMIT = 65536  # a thread is one process


class Fault(enum.Enum):
    """What is wrong with a record, or with the use of a recorder."""

    LIMITS = "more threads, components or calls than the judge takes"
    NESTED = "a call began before the thread's last one had ended"
    NOT_OPEN = "a call ended that had not begun"
    AFTER_FULL = "a call was made although begin had refused it: a log was full"
    COMPONENT = "a component is too high, or the entries of a view do not rise"
    VALUE = (
        "a number is not a whole number of 32 bits without a sign, a value is None or can't be a key of a dict, or what a view shows is "
        "no list of them"
    )
    TWO_WRITERS = "two threads updated one component"
    SAME_VALUE = "views tell values, and a component got one value twice, or its initial one: make them differ, or end views with numbers"
    PART = "a view tells the values of fewer components than there are: record each part by a recorder of its own"
    INITIALS = "there are initial values, and not as many as components"


class RecordError(Exception):
    """Why there is no recorder, or no text; `fault` is its name."""

    def __init__(self, fault, subject):
        super().__init__(f"{subject}: {fault.value}")
        self.fault = fault


class _Kind(enum.Enum):
    BEGIN_UPDATE = "begin", "update"
    END_UPDATE = "end", "update"
    BEGIN_VIEW = "begin", "view"
    END_VIEW = "end", "view", "numbers"
    END_VIEW_VALUES = "end", "view", "values"


class _State(enum.Enum):
    IDLE, REFUSED, UPDATING, VIEWING = range(4)


def _clock():
    """Answers 0, 1, 2 and so on, each once."""
    count = itertools.count().__next__
    if getattr(sys, "_is_gil_enabled", lambda: True)():
        return count  # one step under the global lock
    lock = threading.Lock()

    def tick():
        with lock:
            return count()

    return tick


def _is_number_below(limit, number):
    return type(number) is int and 0 <= number < limit  # True is an int as well, and would be written by its name


def _has_32_bits(number):
    return _is_number_below(1 << 32, number)


def _is_value(value):
    try:
        hash(value)
    except Exception:  # of a class of the caller, whose hash may raise what it likes
        return False
    return value is not None


def _entries(shown):
    """What a view shows as triples, or None if it is not a list of them."""
    try:
        return tuple((component, number, value) for component, number, value in shown)
    except Exception:
        return None


def _numbered(values):
    """The values of components 0, 1 and so on as triples without numbers, or None if they are not a list."""
    try:
        return tuple((component, 0, value) for component, value in enumerate(values))
    except Exception:
        return None


_kept = set()  # the recorders whose history is written if the process ends


def _end(number, frame):
    """Ends the process by a signal so that it writes what is kept."""
    sys.exit(128 + number)


class Log:
    """What one thread recorded."""

    def __init__(self, recorder, thread):
        self._recorder, self._tick = recorder, recorder._tick
        self.thread, self.events, self._begun, self._state = thread, [], {}, _State.IDLE

    def _misused(self, fault):
        """The first misuse is kept for Recorder.text, and stops all threads."""
        if self._recorder._misuse is None:
            self._recorder._misuse = RecordError(fault, f"thread {self.thread}")
        self._recorder._stopped = True
        self._state = _State.REFUSED
        return False

    def _may_begin(self):
        if self._state in (_State.UPDATING, _State.VIEWING):
            return self._misused(Fault.NESTED)
        if len(self.events) == 2 * self._recorder.calls:
            self._recorder._stopped = True  # all threads stop, else views show updates that no one recorded
        if self._recorder._stopped:
            self._state = _State.REFUSED
        return self._state is _State.IDLE

    def _may_end(self, expected):
        if self._state is expected:
            return True
        return self._misused(Fault.AFTER_FULL if self._state is _State.REFUSED else Fault.NOT_OPEN)

    def _is_component(self, component):
        return _is_number_below(self._recorder.components, component)

    def _begin(self, state, kind, data):
        self._state = state
        event = [None, kind, data]
        self.events.append(event)
        event[0] = self._tick()

    def _end(self, stamp, kind, data):
        self.events.append([stamp, kind, data])
        self._state = _State.IDLE

    def begin_update(self, component, value):
        """The number of the update, from 1 in each component; or 0: a log is full, or a call was misused. Then make no further call."""
        if not self._may_begin():
            return 0
        if not self._is_component(component) or not _is_value(value):
            self._misused(Fault.VALUE if self._is_component(component) else Fault.COMPONENT)
            return 0
        number = self._begun[component] = self._begun.get(component, 0) + 1
        self._begin(_State.UPDATING, _Kind.BEGIN_UPDATE, ((component, number, value),))
        return number

    def end_update(self):
        stamp = self._tick()
        if self._may_end(_State.UPDATING):
            self._end(stamp, _Kind.END_UPDATE, ())

    def begin_view(self):
        """False: a log is full, or a call was misused. Then make no further call."""
        may = self._may_begin()
        if may:
            self._begin(_State.VIEWING, _Kind.BEGIN_VIEW, ())
        return may

    def end_view(self, entries):
        """The end of a view that shows these (component, number, value), components rising. Number 0, or no entry, is the initial state."""
        self._end_view(self._tick(), _Kind.END_VIEW, _entries(entries))

    def end_view_values(self, values):
        """The end of a view that shows these values, of each component from 0 on; None is the one that it has at first.

        Recorder.text finds the number of each by its value. So the updates of a component must write values that differ from
        each other and from the one that it has at first.
        """
        stamp = self._tick()
        self._end_view(stamp, _Kind.END_VIEW_VALUES, _numbered(values))

    def _end_view(self, stamp, kind, data):
        if not self._may_end(_State.VIEWING):
            return
        if data is None:
            self._misused(Fault.VALUE)
            return
        components = [component for component, _, _ in data]
        if not all(map(self._is_component, components)) or any(low >= high for low, high in zip(components, components[1:])):
            self._misused(Fault.COMPONENT)
        elif kind is _Kind.END_VIEW_VALUES and len(data) < self._recorder.components:
            self._misused(Fault.PART)
        elif not all(_has_32_bits(number) and (_is_value(value) or number == 0 and value is None) for _, number, value in data):
            self._misused(Fault.VALUE)
        else:
            self._end(stamp, kind, data)

    def drop_view(self):
        """Call this in place of the end of a view that gave no answer, because it gave up: the view is left out of the history."""
        self._drop(_State.VIEWING)

    def drop_update(self):
        """In place of the end of an update that had no effect, and can have none any more: it is left out of the history, and the
        next update of its component gets its number. If that is not known, end nothing, and use this log no more.
        """
        for component, _, _ in self._drop(_State.UPDATING):
            self._begun[component] -= 1

    def _drop(self, expected):
        """What the call had begun with."""
        if not self._may_end(expected):
            return ()
        self._state = _State.IDLE
        return self.events.pop()[2]


class Recorder:
    """A recorder for this many threads, components, and calls of each thread, at most EVENT_LIMIT / 2 calls in all.

    `initial` is the value that each component has at first; or `initials` has the first value of each.
    """

    def __init__(self, threads, components, calls, initial=0, initials=None):
        are_numbers = all(type(number) is int for number in (threads, components, calls))
        fits = are_numbers and 1 <= threads <= PROCESS_LIMIT and 0 <= components <= COMPONENT_LIMIT and calls >= 1
        if not fits or 2 * threads * calls > EVENT_LIMIT:
            raise RecordError(Fault.LIMITS, f"{threads} threads of {calls} calls, {components} components")
        self.components, self.calls, self.initial, self.initials, self.table = components, calls, initial, initials, []
        self._tick, self._stopped, self._misuse = _clock(), False, None
        self.logs = [Log(self, thread) for thread in range(threads)]

    def log(self, thread):
        """The log of a thread, which is the process of that number."""
        if not _is_number_below(len(self.logs), thread):
            raise RecordError(Fault.LIMITS, f"thread {thread!r} of {len(self.logs)}")
        return self.logs[thread]

    def text(self):
        """The history that all logs hold. They follow one another: the judge puts the events in the order of their stamps.

        Whole numbers of 32 bits stand for themselves if all values are such. Else `table` then has the values, by the numbers
        that stand for them, from 0 on. Raises RecordError of the first misuse, of INITIALS, TWO_WRITERS or SAME_VALUE.
        """
        return self._text([log.events for log in self.logs])

    def text_so_far(self):
        """The history while threads run: a call that is open, or ends meanwhile, has no end in it.

        An update whose begin is left out had not begun before each view that is in it had ended. So a right run is never called wrong.
        """
        now = self._tick()
        whole = [[tuple(event) for event in list(log.events)] for log in self.logs]
        return self._text([[event for event in events if event[0] is not None and event[0] < now] for events in whole])

    def keep(self, path):
        """If the process ends before the next call of `leave`, the history so far is written into a file of this path.

        That is at the end of Python, also by an exception or sys.exit, and by SIGTERM if it is called by the main thread. A process
        that dies otherwise, as by os._exit or SIGKILL, writes nothing.
        """
        self._path = path
        _kept.add(self)
        atexit.register(self._write)
        if threading.current_thread() is threading.main_thread() and signal.getsignal(signal.SIGTERM) is signal.SIG_DFL:
            signal.signal(signal.SIGTERM, _end)

    def leave(self):
        """Ends what `keep` began."""
        atexit.unregister(self._write)
        _kept.discard(self)
        if not _kept and threading.current_thread() is threading.main_thread() and signal.getsignal(signal.SIGTERM) is _end:
            signal.signal(signal.SIGTERM, signal.SIG_DFL)

    def _write(self):
        with open(self._path, "w", encoding="ascii") as file:
            file.write(self.text_so_far())

    def _text(self, logs):
        if self._misuse is not None:
            raise self._misuse
        if self.initials is not None and len(self.initials) != self.components:
            raise RecordError(Fault.INITIALS, f"{len(self.initials)} values, {self.components} components")
        begun, numbers = self._updates(logs)

        def number_of(component, value, ended):
            if value is None or value == self._initial_of(component):
                return 0
            # A value that nobody wrote gets the last number that had begun when the view ended: the judge then says
            # `integrity`, and no more of this entry by itself.
            last = max(1, bisect.bisect_left(begun.get(component, []), ended))
            return numbers.get((component, value), last)

        records = []
        for thread, events in enumerate(logs):
            for stamp, kind, data in events:
                if kind is _Kind.END_VIEW_VALUES:
                    data = [(component, number_of(component, value, stamp), value) for component, _, value in data]
                records.append((f"{stamp},{kind.value[0]},{thread},{kind.value[1]},", [entry for entry in data if entry[1]]))
        values = [value for _, data in records for _, _, value in data]
        self.table = [] if all(map(_has_32_bits, values)) else list(dict.fromkeys(values))
        places = {value: place for place, value in enumerate(self.table)}
        lines = ["at,event,process,op,data"]
        for front, data in records:
            lines.append(front + " ".join(f"{component}:{number}:{places.get(value, value)}" for component, number, value in data))
        return "\n".join(lines) + "\n"

    def views(self):
        """How many views of the history ended, and how many of these overlapped an update: both calls were open at one moment.

        A run in which none did says nothing of calls at the same time. It is counted after the threads were joined.
        """
        events = [event for log in self.logs for event in log.events]
        begun = sorted(stamp for stamp, kind, _ in events if kind is _Kind.BEGIN_UPDATE)
        ended = sorted(stamp for stamp, kind, _ in events if kind is _Kind.END_UPDATE)
        # the event before an end is the begin of its call
        calls = [call for log in self.logs for call in zip(log.events, log.events[1:])]
        views = [(begin[0], end[0]) for begin, end in calls if end[1] in (_Kind.END_VIEW, _Kind.END_VIEW_VALUES)]
        # more updates began before its end than ended before its begin
        overlapping = sum(bisect.bisect_left(begun, end) > bisect.bisect_left(ended, begin) for begin, end in views)
        return len(views), overlapping

    def _initial_of(self, component):
        return self.initial if self.initials is None else self.initials[component]

    def _updates(self, logs):
        """Of each component the stamps of its updates' begins; and by component and value the numbers, if some view has values alone."""
        by_values = any(kind is _Kind.END_VIEW_VALUES for events in logs for _, kind, _ in events)
        begun, numbers, writers = {}, {}, {}
        for thread, events in enumerate(logs):
            for stamp, kind, data in events:
                if kind is not _Kind.BEGIN_UPDATE:
                    continue
                ((component, number, value),) = data
                if writers.setdefault(component, thread) != thread:
                    raise RecordError(Fault.TWO_WRITERS, f"component {component}")
                begun.setdefault(component, []).append(stamp)
                is_new = numbers.setdefault((component, value), number) == number
                if by_values and (not is_new or value == self._initial_of(component)):
                    raise RecordError(Fault.SAME_VALUE, f"component {component}, value {value}")
        return begun, numbers
