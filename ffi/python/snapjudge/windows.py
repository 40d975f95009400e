"""Cuts the events of a long recording into windows: each begins at a moment at which no call is open, from what was left there.

What the events before a window leave of a component is the entry of its last update. The text of a window is `renumbered` of
crates/snap_theory/specs/Renumbered.antt, and each of its views is asked for `ShowsNoLess` of the same file. So the law of windows says
that the recording is atomic, or regular, exactly if each window is. The law is proved. This file is not.
"""
import collections
import heapq
import re

from snapjudge.bags import BYTES_AN_EVENT, USUAL

# The headers of a recording, without and with stamps.
PLAIN, STAMPED = [b"event", b"process", b"op", b"data"], [b"at", b"event", b"process", b"op", b"data"]
# The first line of each window.
HEADER = b",".join(PLAIN) + b"\n"
# The greatest process, component, number or value, and stamp.
PROCESS, COMPONENT, GREATEST, STAMP = 2**16 - 1, 255, 2**32 - 1, 2**64 - 1
# The most bytes of a record without its line end, which is far more than a record of a history can have.
RECORD = 2**20

# A byte order mark, which may begin a text.
MARK = b"\xef\xbb\xbf"
# A field with the byte that ends it. A quoted one is closed by a quote that no other follows.
FIELD = re.compile(rb'(?:"([^"]*(?:""[^"]*)*)"(?!")([^,\r\n]*)|((?!")[^,\r\n]*))([,\r\n])')
ENTRY = re.compile(rb"(0|[1-9][0-9]{0,2}):([1-9][0-9]{0,9}):(0|[1-9][0-9]{0,9})")

Event = collections.namedtuple("Event", "is_begin op process data place size")
# Records of the recording: the name of the file, or none if there is one file, and the number of the record.
Place = collections.namedtuple("Place", "name record")


class Refusal(Exception):
    """The recording is not a history from this record on, or can't be cut there: a word says why, and which call is open."""

    def __init__(self, place, word, call=None):
        super().__init__(word)
        self.place, self.word, self.call = place, word, call


def require(is_so, place, word):
    if not is_so:
        raise Refusal(place, word)


class Records:
    """Cuts the bytes of a file, which come piece by piece, into records, each a list of fields and its size with a line end."""

    def __init__(self):
        self._rest, self._begun = b"", False

    @property
    def rest(self):
        """The bytes of a record that has no end yet."""
        return self._rest

    def take(self, piece, is_end=False):
        """The records that are whole now. The end of the text ends the last one."""
        text = self._rest + piece
        if not self._begun:
            if not is_end and MARK.startswith(text):
                self._rest = text
                return []
            self._begun, text = True, text.removeprefix(MARK)
        if b'"' in text:
            return self._quoted(text, is_end)
        lines = re.split(rb"[\r\n]", text)
        self._rest = b"" if is_end else lines.pop()
        return [(line.split(b","), len(line) + 1) for line in lines if line]

    def _quoted(self, text, is_end):
        found, begin, at, fields = [], 0, 0, []
        while at < len(text):
            match = FIELD.match(text, at)
            if not match:
                break
            inside, behind, plain, end = match.groups()
            fields.append(inside.replace(b'""', b'"') + behind if plain is None else plain)
            at = match.end()
            if end != b",":
                if at - begin > 1:
                    found.append((fields, at - begin))
                begin, fields = at, []
        self._rest = text[begin:]
        if is_end and self._rest:
            found.append((fields + [last_field(text[at:])], len(self._rest) + 1))
            self._rest = b""
        return found


def last_field(text):
    """The field that the end of the text ends: one that is quoted may be open."""
    match = FIELD.match(text + b"\n")
    if match and match.end() > len(text):
        inside, behind, plain, _ = match.groups()
        return inside.replace(b'""', b'"') + behind if plain is None else plain
    return text[1:].replace(b'""', b'"')


def number(field, most):
    """The number that a field spells, or none."""
    if not field.isdigit() or len(field) > 20 or (len(field) > 1 and field[:1] == b"0"):
        return None
    found = int(field)
    return found if found <= most else None


def entries_of(data):
    """The entries that a field spells, or none if it has another form."""
    found, least = [], 0
    for part in data.split(b" ") if data else ():
        match = ENTRY.fullmatch(part)
        if not match:
            return None
        component, count, value = map(int, match.groups())
        if not least <= component <= COMPONENT or count > GREATEST or value > GREATEST:
            return None
        found.append((component, count, value))
        least = component + 1
    return found


def event_of(fields, place, size):
    """The event that four fields spell."""
    event, process, op, data = fields
    require(event in (b"begin", b"end"), place, "event")
    actor = number(process, PROCESS)
    require(actor is not None, place, "process")
    require(op in (b"update", b"view"), place, "op")
    is_begin, is_update = event == b"begin", op == b"update"
    # the begin of an update has one entry, and the end of a view has any number
    require(is_begin == is_update or not data, place, "data")
    entries = entries_of(data)
    require(entries is not None and (not (is_begin and is_update) or len(entries) == 1), place, "data")
    return Event(is_begin, op, actor, entries, place, size)


class Reader:
    """Reads the events of one file, as far as it has come: each with its stamp, or with none."""

    def __init__(self, name, headers=(PLAIN, STAMPED)):
        self.name, self.header = name, None
        self._records, self._count, self._headers = Records(), 0, headers

    @property
    def rest(self):
        """The bytes of a record that has no end yet."""
        return self._records.rest

    @property
    def place(self):
        """The last record that was read, or the first if there is none."""
        return Place(self.name, max(1, self._count))

    def take(self, piece, is_end=False):
        """The events that are whole now."""
        for fields, size in self._records.take(piece, is_end):
            self._count += 1
            require(size <= RECORD + 1, self.place, "toolong")
            if self.header is None:
                require(fields in self._headers, self.place, "header")
                self.header = fields
            else:
                yield self._event(fields, self.place, size)
        require(len(self.rest) <= RECORD, Place(self.name, self._count + 1), "toolong")

    def _event(self, fields, place, size):
        require(len(fields) == len(self.header), place, "fields")
        if self.header == PLAIN:
            return None, event_of(fields, place, size)
        stamp = number(fields[0], STAMP)
        require(stamp is not None, place, "at")
        return stamp, event_of(fields[1:], place, size)


class Waiting:
    """Events with stamps, which wait until no earlier one is to come."""

    def __init__(self):
        self._events, self._stamps, self._taken, self._seen, self._safe = [], set(), -1, -1, -1

    def add(self, stamp, event):
        require(stamp not in self._stamps, event.place, "repeated")
        require(stamp > self._taken, event.place, "late")
        self._stamps.add(stamp)
        self._seen = max(self._seen, stamp)
        heapq.heappush(self._events, (stamp, event))

    def pass_time(self):
        """An event with a stamp up to the greatest that has been seen by now waits no longer."""
        self._safe = self._seen

    def pop_safe(self):
        """The events that no earlier one is to come before, in their order."""
        while self._events and self._events[0][0] <= self._safe:
            self._taken, event = heapq.heappop(self._events)
            self._stamps.discard(self._taken)
            yield event

    def __len__(self):
        return len(self._events)


def window_of(events, left):
    """The text of a window, and of the first view that misses what was left its place and the entry, or nothing.

    `left` has the number and the value of the last update of each component before the window. Each number becomes less by
    that one, and what was left is not listed in a view. A view misses it if it shows neither that nor a later number.
    """
    rows, missed = [], None
    for event in events:
        if event.op == b"view" and not event.is_begin:
            later, right = [], set()
            for component, count, value in event.data:
                was = left.get(component, (0, 0))
                if count > was[0]:
                    later.append(b"%d:%d:%d" % (component, count - was[0], value))
                if count > was[0] or (count, value) == was:
                    right.add(component)
            if missed is None and not right.issuperset(left):
                component = min(left.keys() - right)
                missed = event.place, (component, *left[component])
            rows.append(b"end,%d,view,%s\n" % (event.process, b" ".join(later)))
        elif event.op == b"update" and event.is_begin:
            component, count, value = event.data[0]
            rows.append(b"begin,%d,update,%d:%d:%d\n" % (event.process, component, count - left.get(component, (0, 0))[0], value))
        else:
            rows.append(b"%s,%d,%s,\n" % (b"begin" if event.is_begin else b"end", event.process, event.op))
    return HEADER + b"".join(rows), missed


class Cutter:
    """Takes the events of a recording, and cuts them into windows at moments at which no call is open.

    A window ends at the first such moment from `least` events on. If it would have more than `most`, or more bytes than a history of
    this many events may have, it ends at the last such moment in it. Each window goes to `emit`: its events, and what was left before
    it. With many writers each process may update each component, and its updates end in the order of their numbers.
    """

    def __init__(self, emit, least, most=USUAL, writers="one"):
        self._has_one_writer = writers == "one"
        self._emit, self._least, self._most, self._longest = emit, least, most, most * BYTES_AN_EVENT
        # of each process its open call, in the order of their begins; of each component its process, its last number that began and
        # that ended, and what was left
        self._open, self._writers, self._numbers, self._ended, self._left = {}, {}, {}, {}, {}
        self._events, self._bytes, self._free = [], len(HEADER), 0

    def take(self, event):
        while len(self._events) == self._most or self._bytes + event.size > self._longest:
            self._make_room(event)
        self._obey(event)
        self._events.append(event)
        self._bytes += event.size
        if not self._open:
            self._free = len(self._events)
            if self._free >= self._least:
                self._cut(self._free)

    def _obey(self, event):
        """Refuses an event that breaks a rule of histories."""
        call = self._open.get(event.process)
        if not event.is_begin:
            require(call, event.place, "idle")
            require(call.op == event.op, event.place, "otherop")
            if call.op == b"update":
                component, count, _ = call.data[0]
                require(count == self._ended.get(component, 0) + 1, event.place, "order")
                self._ended[component] = count
            del self._open[event.process]
            return
        require(not call, event.place, "busy")
        if event.op == b"update":
            component, count, _ = event.data[0]
            if self._has_one_writer:
                require(self._writers.get(component, event.process) == event.process, event.place, "writer")
            require(count == self._numbers.get(component, 0) + 1, event.place, "number")
            self._writers[component], self._numbers[component] = event.process, count
        self._open[event.process] = event

    def _make_room(self, event):
        if not self._free:
            word = "toomany" if len(self._events) == self._most else "toolong"
            # the calls are in the order of their begins
            raise Refusal(event.place, word, next(iter(self._open.values()), None))
        self._cut(self._free)

    def _cut(self, count):
        """Ends the window after this many of its events."""
        events, self._events = self._events[:count], self._events[count:]
        self._emit(events, dict(self._left))
        for event in events:
            self._bytes -= event.size
            if event.is_begin and event.op == b"update":
                component, count, value = event.data[0]
                self._left[component] = count, value
        self._free = 0

    def end_round(self):
        """Ends a window here, after which numbers begin at 1 and what is not listed is what was left. No call may be open."""
        for call in self._open.values():
            raise Refusal(call.place, "open", call)
        self.end()
        self._numbers, self._ended, self._left = {}, {}, {}

    def end(self):
        """Ends the last window, in which calls may be open."""
        if self._events:
            self._cut(len(self._events))
