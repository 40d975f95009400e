"""Puts the logs of several processes together as one history for `snapjudge check`.

    python3 merge_logs.py [--error NS] [--initial VALUE[,VALUE..]] [--part K[,K..]] [--table FILE] [--versions [--writers WRITERS]]
                          [--events N] LOG..

One file, Python 3.8 or later, no dependencies: copy it into a harness. docs/RECORDING.md of snapjudge has the form of a log.
The history goes to standard output.

    --error NS       how far the clock of a host may be from the true time, in nanoseconds: 0 if all processes read one clock
    --initial VALUE  the value that each component has at first, 0 by default; or those of components 0, 1 and so on
    --part K,..      takes these components alone, and the views that list each of them
    --table FILE     values may be any words, and FILE then has the number that stands for each: lines NUMBER,WORD
    --versions       the store numbers the updates of a component: ends of updates and entries of views have these versions
    --writers many   with --versions: updates of a component may overlap in the history, which is for `snapjudge check --writers many`;
                     with `one`, the default, they are parted
    --events N       how many events the history may have, 65536 by default; `snapjudge check` then needs the same

If several processes update a component, its updates get a process of their own, and standard error says so; with `--writers many`
each keeps its process. It also says which updates were left out or cut short.

The status is 0 if the history was written. It is 1 if the versions contradict time, so that the run is not atomic, and no
history was written. It is 3 if the logs are not a history: standard error then has the log, the line, a word and a sentence. It
is 4 if reading or writing failed, and 5 if the words of the command line were not taken.

SPDX-License-Identifier: 0BSD
Copyright (C) 2026 by the authors of snapjudge
Permission to use, copy, modify, and/or distribute this software for any purpose with or without fee is hereby granted.
THE SOFTWARE IS PROVIDED "AS IS" AND THE AUTHOR DISCLAIMS ALL WARRANTIES WITH REGARD TO THIS SOFTWARE INCLUDING ALL IMPLIED
WARRANTIES OF MERCHANTABILITY AND FITNESS. IN NO EVENT SHALL THE AUTHOR BE LIABLE FOR ANY SPECIAL, DIRECT, INDIRECT, OR
CONSEQUENTIAL DAMAGES OR ANY DAMAGES WHATSOEVER RESULTING FROM LOSS OF USE, DATA OR PROFITS, WHETHER IN AN ACTION OF
CONTRACT, NEGLIGENCE OR OTHER TORTIOUS ACTION, ARISING OUT OF OR IN CONNECTION WITH THE USE OR PERFORMANCE OF THIS SOFTWARE.
"""
import argparse
import bisect
import dataclasses
import heapq
import re
import sys

HEADER = "ns,event,process,op,data"
EVENT_LIMIT = 65536  # of a history by default; a call has two, its begin and its end
MOST_EVENTS = 1048576
COMPONENT_LIMIT = 256
PROCESS_LIMIT = 65536
HAVE_DATA = (("begin", "update"), ("end", "view"))

FAULTS = {
    "header": f"the first line must be {HEADER}",
    "fields": "a line has five fields",
    "ns": "a reading of the clock is a number from 0 to 18446744073709551615, without a sign or leading zeros",
    "event": "the field event is begin, end or drop",
    "process": "a process is a number from 0 to 65535",
    "op": "the field op is update or view",
    "data": "the begin of an update has COMPONENT:VALUE, the end of a view has such entries, components rising, and other lines "
    "have nothing; a component is at most 255, and a value has 32 bits, or with --table is a word",
    "version": "with --versions the end of an update has its VERSION or nothing, and an entry of a view is COMPONENT:VERSION:VALUE or "
    "COMPONENT::VALUE; a version is a number of at most 64 bits, and each line says the same one of an update",
    "another": "a log has one process, and this line names another: give each process a log of its own",
    "back": "the clock went back, since the line before has a later reading: read a monotonic clock",
    "busy": "a call begins, and the last one has not ended: one whose fate is unknown is the last of its process",
    "idle": "a call ends, and none is open: write the begin before the call",
    "otherop": "a call ends, and the open one is of the other kind",
    "close": "a call begins too soon after the last one: more than twice the clocks' error has to lie between them",
    "twice": "another log has this process: give each process a number of its own",
    "overlap": "two updates of one component overlap: let one process at a time write it, or record the versions of the store for --versions",
    "unversioned": "no line tells the version of this update: record it at its end, or with a view that shows it",
    "versions": "two updates of one component have this version: record what the store gives to one update alone",
    "same": "a component gets one value twice, or the one that it has at first: make its values differ",
    "initial": "--initial has no value for this component: give one for all, or one for each",
    "part": "the view does not list each component: choose a part by --part",
    "process-limit": "there is no number left for a process that has the updates of a component",
    "toomany": f"there are more events than {EVENT_LIMIT}, or than --events allows: give it, up to {MOST_EVENTS}, here and to snapjudge check",
    "span": "the readings lie too far apart for a stamp of 64 bits",
}


class LogError(Exception):
    """Why the logs are not a history: `word` names what is wrong, and `place` is a log and a line, or empty; `other` is the place
    of the other call that is part of it.
    """

    def __init__(self, word, *place, other=None):
        where = ":".join(map(str, place)) + ": " * bool(place)
        super().__init__(f"{where}{word}: {FAULTS[word]}" + (f": the other one is {other.log}:{other.line}" if other else ""))
        self.word, self.place = word, place


class Contradiction(Exception):
    """The versions contradict time: of two updates of one component the one with the lower version began after the other had ended.
    No order of the calls keeps both, so the run is not atomic.
    """

    def __init__(self, lower, higher):
        super().__init__(
            f"{lower.log}:{lower.line} and {higher.log}:{higher.line}: not atomic: the first update has the lower version, and it began "
            "after the second had ended"
        )


class Placed:
    """What is in a line of a log."""

    def require(self, holds, word, other=None):
        if not holds:
            raise LogError(word, self.log, self.line, other=other)


@dataclasses.dataclass
class Call(Placed):
    """A call without an end is pending. `shown` has, by components, what an update writes or a view shows; None is a first value.
    `versions` has, by components, the versions that its lines have. A cut comes after the begins at its reading, and before the ends.
    """

    log: str
    line: int
    process: int
    op: str
    begun: int
    shown: dict
    ended: "int | None" = None
    versions: dict = dataclasses.field(default_factory=dict)
    begun_in_turn: "int | None" = None  # of an update that was cut: its turn among the cuts at that reading
    ended_in_turn: "int | None" = None

    def component(self):
        """The component of an update."""
        return next(iter(self.shown))

    def value(self):
        """What an update writes."""
        return next(iter(self.shown.values()))


def number_below(limit, word):
    """The number that a word spells, or None."""
    number = int(word) if re.fullmatch("0|[1-9][0-9]{0,19}", word) else limit
    return number if number < limit else None


class Reader(Placed):
    """Takes the lines of one log, and has its calls in their order."""

    def __init__(self, log, error, has_words, has_versions):
        self.log, self.error, self.has_words, self.has_versions = log, error, has_words, has_versions
        self.calls, self.open, self.line = [], None, 1
        self.process = self.reading = self.left = None  # left: the reading at the end of the last call

    def take(self, line):
        self.line += 1
        fields = line.split(",")
        self.require(len(fields) == 5, "fields")
        reading, event, process, op, data = fields
        reading, process = number_below(1 << 64, reading), number_below(PROCESS_LIMIT, process)
        self.require(reading is not None, "ns")
        self.require(event in ("begin", "end", "drop"), "event")
        self.require(process is not None, "process")
        self.require(op in ("update", "view"), "op")
        shown, versions = self.data(event, op, data)
        self.require(self.process in (None, process), "another")
        self.require(self.reading is None or self.reading <= reading, "back")
        self.process, self.reading = process, reading
        if event == "begin":
            self.begin(reading, op, shown)
        else:
            self.leave(reading, event, op, shown, versions)

    def data(self, event, op, data):
        """The values in the field data, and the versions, each by components."""
        if self.has_versions and (event, op) == ("end", "update"):
            # which component that is of, the begin of the call has told
            return {}, {None: self.version(data)} if data else {}
        if (event, op) not in HAVE_DATA:
            self.require(data == "", "data")
            return {}, {}
        entries = [self.entry(word, self.has_versions and op == "view") for word in data.split(" ")] if data else []
        components = [component for component, _, _ in entries]
        self.require(all(low < high for low, high in zip(components, components[1:])), "data")
        self.require(op == "view" or len(entries) == 1 and entries[0][2] is not None, "data")
        shown = {component: value for component, _, value in entries}
        return shown, {component: version for component, version, _ in entries if version is not None}

    def entry(self, word, has_version):
        """The component, the version or None, and the value of an entry. An entry with a first value needs no version."""
        component, colon, value = word.partition(":")
        component, version = number_below(COMPONENT_LIMIT, component), None
        self.require(component is not None and colon, "data")
        if has_version and value:
            word, colon, value = value.partition(":")
            self.require(colon, "version")
            version = self.version(word) if word else None
        self.require(self.has_words or value == "" or number_below(1 << 32, value) is not None, "data")
        return component, version, value or None

    def version(self, word):
        version = number_below(1 << 64, word)
        self.require(version is not None, "version")
        return version

    def begin(self, reading, op, shown):
        self.require(self.open is None, "busy")
        self.require(self.left is None or reading > self.left + 2 * self.error, "close")
        self.open = Call(self.log, self.line, self.process, op, reading - self.error, shown)
        self.calls.append(self.open)

    def leave(self, reading, event, op, shown, versions):
        self.require(self.open is not None, "idle")
        self.require(self.open.op == op, "otherop")
        if event == "drop":
            self.calls.pop()
        else:
            self.left, self.open.ended = reading, reading + self.error
            if op == "view":
                self.open.line, self.open.shown, self.open.versions = self.line, shown, versions
            elif versions:
                self.open.versions = {self.open.component(): versions[None]}
        self.open = None


def read_log(log, text, error=0, has_words=False, has_versions=False):
    """The calls of a log, and whether its last line has no end: that one is left out, since a process that is killed cuts it."""
    *lines, rest = text.split("\n")
    if lines and lines[0] != HEADER:
        raise LogError("header", log, 1)
    reader = Reader(log, error, has_words, has_versions)
    for line in lines[1:]:
        reader.take(line)
    return reader.calls, rest != ""


class Component:
    """The updates of one component, as the history has them: `updates` are in the order of their numbers. Once those that overlap are
    parted, none overlaps the next. With many writers they are not parted, and begin and end in that order.

    Without versions their begins give that order. With them the versions do, and each update is cut to the times that the order
    allows it: it comes after the begin of each update with a lower version, and before the end of each with a higher one. Then the
    same orders of all calls explain the run. An update without an end that no view shows may be left out. One that a view shows took
    effect before the end of that view, and with one writer ends with it, if others come after it.
    """

    def __init__(self, component, updates, first_shown, has_versions, has_many):
        self.component, self.first_shown, self.has_versions = component, first_shown, has_versions
        self.updates = sorted(updates, key=lambda update: update.begun)
        kept = [update for update in self.updates if not self.may_go(update)]
        self.left_out = len(updates) - len(kept)
        self.writers = sorted({update.process for update in kept})
        if has_versions:
            for update in kept:
                update.require(component in update.versions, "unversioned")
            kept.sort(key=lambda update: update.versions[component])
            for update, later in zip(kept, kept[1:]):
                later.require(update.versions[component] != later.versions[component], "versions", update)
        self.updates = self.cut(kept if has_many else [self.ended(update, update is kept[-1]) for update in kept])
        self.kept = kept
        for update, later in zip(self.updates, self.updates[1:]):
            later.require(has_versions or not overlap(update, later), "overlap", update)

    @property
    def cut_short(self):
        return sum(after != before for after, before in zip(self.updates, self.kept))

    def part(self, moments):
        """Cuts updates that overlap the next one, at the moment of that one and in its turn."""
        for place, (moment, turn) in enumerate(moments[1:], 1):
            update, later = self.updates[place - 1 : place + 1]
            if overlap(update, later):
                if update.ended is None or update.ended >= moment:
                    self.updates[place - 1] = dataclasses.replace(update, ended=moment, ended_in_turn=turn)
                self.updates[place] = dataclasses.replace(later, begun=moment, begun_in_turn=turn)

    def may_go(self, update):
        """Whether the update has no end and no view shows it; without versions the last one of the component stays pending."""
        is_unknown = update.ended is None and (self.component, update.value()) not in self.first_shown
        return is_unknown and (self.has_versions or update is not self.updates[-1])

    def ended(self, update, is_last):
        """The update with an end, if it has none and others come after it."""
        view = self.first_shown.get((self.component, update.value()))
        if update.ended is not None or is_last or view is None or view.ended < update.begun:
            return update
        return dataclasses.replace(update, ended=view.ended)

    def cut(self, updates):
        """The updates, each cut to what the order of their versions allows."""
        if not self.has_versions:
            return updates
        begins, ends = [], []
        for update in updates:
            begins.append(max([update, *begins[-1:]], key=lambda it: it.begun))
        for update in reversed(updates):
            ends.append(min([update, *ends[-1:]], key=lambda it: (it.ended is None, it.ended)))
        cut = []
        for update, begun, ended in zip(updates, begins, reversed(ends)):
            if ended.ended is not None and ended.ended < begun.begun:
                raise Contradiction(begun, ended)
            cut.append(dataclasses.replace(update, begun=begun.begun, ended=ended.ended))
        return cut

    def told(self, process):
        """What was done to the updates, a line each; the process is the one that they got."""
        if process is not None:
            writers = " and ".join(map(str, self.writers))
            yield f"component {self.component}: processes {writers} update it; in the history its updates have process {process}"
        if self.left_out:
            yield f"component {self.component}: updates without an end that no view shows, left out: {self.left_out}"
        if self.cut_short:
            yield f"component {self.component}: updates cut short: {self.cut_short}; atomic stays as it is, regular may become stricter"


def overlap(update, later):
    """Whether an update overlaps the next one of its component."""
    return update.ended is None or update.ended >= later.begun


def moments_of(updates, views):
    """By component, a moment of each update and its turn among all: if some order of all calls explains the views, one in which the
    updates take effect at these moments. Each call takes effect at its begin, or when the last call takes effect that must come before
    it. Those are the update that a view shows, the view that misses an update, and the update before of the component.
    """
    calls = [update for of in updates.values() for update in of] + views
    places = {(k, update.value()): at for k, of in updates.items() for at, update in enumerate(of)}
    first, later, waits = {}, [[] for _ in calls], [0] * len(calls)
    for k, of in updates.items():
        first[k] = sum(map(len, list(updates.values())[: len(first)]))

    def must_follow(after, before):
        later[before].append(after)
        waits[after] += 1

    for k, of in updates.items():
        for at in range(first[k] + 1, first[k] + len(of)):
            must_follow(at, at - 1)
    for at, view in enumerate(views, len(calls) - len(views)):
        for k, of in updates.items():
            shown = places.get((k, view.shown.get(k)), -1)
            if shown >= 0:
                must_follow(at, first[k] + shown)
            if shown + 1 < len(of):
                must_follow(first[k] + shown + 1, at)
    moments, turns = [call.begun for call in calls], [None] * len(calls)
    ready = [(moments[at], at) for at, count in enumerate(waits) if not count]
    heapq.heapify(ready)
    for turn in range(len(calls)):
        if not ready:
            break
        moment, at = heapq.heappop(ready)
        if calls[at].ended is not None and calls[at].ended < moment:
            break
        turns[at] = turn
        for after in later[at]:
            moments[after] = max(moments[after], moment)
            waits[after] -= 1
            if not waits[after]:
                heapq.heappush(ready, (moments[after], after))
    if None in turns:  # no order explains the views, and then any will do
        moments = [call.begun for call in calls]
        turns = range(len(calls))
    return {k: [(moments[at], turns[at]) for at in range(first[k], first[k] + len(of))] for k, of in updates.items()}


class Board:
    """All calls, as the history has them, and the updates of each component, numbered from 1 on."""

    def __init__(self, calls, initials, has_versions=False, has_many=False):
        self.initials, self.numbers, self.begun, self.told = initials, {}, {}, []
        views = sorted((call for call in calls if call.op == "view" and call.ended is not None), key=lambda view: view.ended)
        written = self.written(call for call in calls if call.op == "update")
        if has_versions:
            self.tell_versions(written, views)
        first_shown, updates = {}, {}
        for view in views:
            for entry in view.shown.items():
                first_shown.setdefault(entry, view)
        for (k, _), update in written.items():
            updates.setdefault(k, []).append(update)
        free = self.free_processes(calls)
        self.calls = [call for call in calls if call.op == "view"]
        components = {k: Component(k, updates[k], first_shown, has_versions, has_many) for k in sorted(updates)}
        pairs = [pair for component in components.values() for pair in zip(component.updates, component.updates[1:])]
        if not has_many and any(overlap(*pair) for pair in pairs):
            moments = moments_of({k: component.updates for k, component in components.items()}, views)
            for k, component in components.items():
                component.part(moments[k])
        for k, component in components.items():
            process = None
            if not has_many and len(component.writers) > 1:
                process = next(free, None)
                component.updates[0].require(process is not None, "process-limit")
            self.told += component.told(process)
            for number, update in enumerate(component.updates, 1):
                self.numbers[k, update.value()] = number
                self.calls.append(update if process is None else dataclasses.replace(update, process=process))
            self.begun[k] = [update.begun for update in component.updates]

    def written(self, updates):
        """The updates by components and values: each value is written once."""
        written = {}
        for update in updates:
            component, value = update.component(), update.value()
            update.require((component, value) not in written and value != self.initial_of(update, component), "same")
            written[component, value] = update
        return written

    def tell_versions(self, written, views):
        """Gives the updates the versions that views show of them."""
        for view in views:
            for component, version in view.versions.items():
                update = written.get((component, view.shown[component]))
                if update is not None:
                    view.require(update.versions.setdefault(component, version) == version, "version", update)

    @staticmethod
    def free_processes(calls):
        """The numbers of processes that no log has, those above all others first."""
        taken = {call.process for call in calls}
        above = max(taken, default=-1) + 1
        return (process for process in [*range(above, PROCESS_LIMIT), *range(above)] if process not in taken)

    def initial_of(self, call, component):
        call.require(len(self.initials) == 1 or component < len(self.initials), "initial")
        return self.initials[0 if len(self.initials) == 1 else component]

    def number(self, call, component, value):
        """The number of an entry of a view. A value that nobody wrote gets the last number that had begun when the view ended: the
        judge then says `integrity`, and no more of this entry by itself.
        """
        if value in (None, self.initial_of(call, component)):
            return 0
        if (component, value) in self.numbers:
            return self.numbers[component, value]
        return max(1, bisect.bisect_right(self.begun.get(component, ()), call.ended))

    def entries(self, call):
        """What the call writes or shows, as component, number and value, without what is as at first."""
        if call.op == "update":
            return [(component, self.numbers[component, value], value) for component, value in call.shown.items()]
        numbered = [(component, self.number(call, component, value), value) for component, value in call.shown.items()]
        return [entry for entry in numbered if entry[1]]


def chosen(calls, part):
    """The calls of a part of the components, or of all."""
    if part is None:
        components = {component for call in calls for component in call.shown}
        for call in calls:
            call.require(call.op == "update" or call.ended is None or components == set(call.shown), "part")
        return calls
    updates = [call for call in calls if call.op == "update" and part.issuperset(call.shown)]
    views = [call for call in calls if call.op == "view" and part.issubset(call.shown)]  # a pending one shows nothing

    def within(entries):
        return {component: entry for component, entry in entries.items() if component in part}

    return updates + [dataclasses.replace(view, shown=within(view.shown), versions=within(view.versions)) for view in views]


def stamped(calls, limit, has_many):
    """The events, by stamps that rise: at one reading the begins come before the ends, so that such calls overlap. With many writers
    these begins, and these ends, are in the order of the calls, which for the updates of a component is that of their numbers.
    """
    places = {process: place for place, process in enumerate(sorted({call.process for call in calls}))}
    least = min((call.begun for call in calls), default=0)

    def stamp(call, reading, is_end):
        return (2 * (reading - least) + is_end) * len(places) + places[call.process]

    def place(reading, turn, call, is_end):
        """Cuts at a reading come after its begins and before its ends, in their turn."""
        if turn is not None:
            return reading, 1, 2 * turn + (not is_end)
        return reading, 2 * is_end, 0 if has_many else places[call.process]  # equal places keep the order of the calls

    begins = [(place(call.begun, call.begun_in_turn, call, False), "begin", call) for call in calls]
    ends = [(place(call.ended, call.ended_in_turn, call, True), "end", call) for call in calls if call.ended is not None]
    events = sorted(begins + ends, key=lambda event: event[0])
    if has_many or any(call.begun_in_turn is not None for call in calls):
        events = [(at, event, call) for at, (_, event, call) in enumerate(events)]
    else:
        events = [(stamp(call, reading, event == "end"), event, call) for (reading, _, _), event, call in events]
    if len(events) > limit:
        raise LogError("toomany")
    if events and events[-1][0] >= 1 << 64:
        raise LogError("span")
    return events


def merge(calls, initials=("0",), part=None, has_words=False, limit=EVENT_LIMIT, has_versions=False, has_many=False):
    """The history of the calls of all logs, its table of words, and what standard error is to say of it. Many writers need versions."""
    board = Board(chosen(calls, part), initials, has_versions, has_many)
    lines, table = ["at,event,process,op,data"], {}

    def spelled(value):
        return table.setdefault(value, len(table)) if has_words else value

    for stamp, event, call in stamped(board.calls, limit, has_many):
        entries = board.entries(call) if (event, call.op) in HAVE_DATA else []
        data = " ".join(f"{component}:{number}:{spelled(value)}" for component, number, value in entries)
        lines.append(f"{stamp},{event},{call.process},{call.op},{data}")
    return "\n".join(lines) + "\n", table, board.told


def read_logs(names, error=0, has_words=False, has_versions=False):
    """The calls of all logs. Standard error says what is left out of one."""
    logs = {}
    for name in names:
        with open(name, encoding="utf-8-sig", errors="surrogateescape") as file:
            calls, is_cut = read_log(name, file.read(), error, has_words, has_versions)
        if is_cut:
            print(f"{name}: the last line has no end, and is left out", file=sys.stderr)
        if calls:
            if calls[0].process in logs:
                raise LogError("twice", name, 2)
            logs[calls[0].process] = calls
    return [call for calls in logs.values() for call in calls]


class Parser(argparse.ArgumentParser):
    def error(self, message):
        self.exit(5, f"{self.prog}: {message}\n")

    def add_versions(self, told):
        self.add_argument("--versions", help=told, action="store_true")
        told = "many: updates of a component may overlap in the history, for snapjudge check --writers many; the default is one"
        self.add_argument("--writers", help=told, choices=("one", "many"), default="one")

    def words(self):
        """The words of the command line, in which many writers need versions."""
        words = self.parse_args()
        words.has_many = words.writers == "many"
        if words.has_many and not words.versions:
            self.error("--writers many needs --versions: record the versions of the store, and give both")
        return words


def words_of_command():
    def count(word):
        number = number_below(1 << 64, word)
        if number is None:
            raise argparse.ArgumentTypeError(f"{word} is not a number of nanoseconds")
        return number

    def events(word):
        number = number_below(MOST_EVENTS + 1, word)
        if not number:
            raise argparse.ArgumentTypeError(f"{word} is not a number from 1 to {MOST_EVENTS}")
        return number

    def components(word):
        numbers = [number_below(COMPONENT_LIMIT, part) for part in word.split(",")]
        if None in numbers:
            raise argparse.ArgumentTypeError(f"{word} is not a list of components")
        return set(numbers)

    parser = Parser(description="Puts the logs of several processes together as one history.")
    def option(name, form, told, **rest):
        parser.add_argument(name, metavar=form, help=told, **rest)

    option("--error", "NS", "how far the clock of a host may be from the true time, in nanoseconds", type=count, default=0)
    told = "the value that each component has at first, else 0; or those of components 0, 1 and so on"
    option("--initial", "VALUE[,VALUE..]", told, type=lambda word: word.split(","), default=["0"])
    option("--part", "K[,K..]", "takes these components alone, and the views that list each of them", type=components)
    option("--table", "FILE", "values may be any words; FILE then has the number for each, in lines NUMBER,WORD")
    told = "the store numbers the updates of a component: ends of updates and entries of views have these versions"
    parser.add_versions(told)
    option("--events", "N", f"how many events the history may have; the default is {EVENT_LIMIT}", type=events, default=EVENT_LIMIT)
    option("logs", "LOG", "the log of one process", nargs="+")
    words = parser.words()
    if words.table is None and not all(number_below(1 << 32, value) is not None for value in words.initial):
        parser.error("a first value has 32 bits, or with --table is a word")
    return words


def main():
    words = words_of_command()
    has_words = words.table is not None
    try:
        calls = read_logs(words.logs, words.error, has_words, words.versions)
        history, table, told = merge(calls, words.initial, words.part, has_words, words.events, words.versions, words.has_many)
        for line in told:
            print(line, file=sys.stderr)
        if has_words:
            with open(words.table, "w", encoding="utf-8", errors="surrogateescape") as file:
                file.writelines(f"{number},{word}\n" for word, number in table.items())
        if sys.stdout is None:
            raise OSError("standard output is closed")
        sys.stdout.write(history)
        sys.stdout.flush()
    except Contradiction as found:
        print(found, file=sys.stderr)
        return 1
    except LogError as error:
        print(error, file=sys.stderr)
        return 3
    except OSError as error:
        what = error.strerror or error
        print(f"merge_logs.py: {error.filename}: {what}" if error.filename else f"merge_logs.py: {what}", file=sys.stderr)
        return 4
    return 0


if __name__ == "__main__":
    sys.exit(main())
