"""What the judge says of a history, as values. They are made of the JSON object of the library."""
from __future__ import annotations

import functools
import html
from dataclasses import asdict, dataclass, field

from . import library


class Refused(ValueError):
    """The text is not a history. `record` is the first record at fault, 0 for the whole text, and `word` says what is wrong."""

    def __init__(self, record: int, word: str, sentences: str) -> None:
        self.record, self.word = record, word
        super().__init__(sentences)


@dataclass(frozen=True)
class Counts:
    events: int
    calls: int
    pending: int
    views: int


@dataclass(frozen=True)
class Entry:
    component: int
    number: int
    value: int


@dataclass(frozen=True)
class Call:
    """A call by its number, with the records of its begin and its end; `end` is None for a pending call. An update has one entry."""

    call: int
    process: int
    op: str
    begin: int
    end: int | None
    entries: tuple[Entry, ...]


@dataclass(frozen=True)
class Step:
    """A call in the printed order. A view has entries, an update has one."""

    call: int
    process: int
    op: str
    entries: tuple[Entry, ...]


@dataclass(frozen=True)
class Difference:
    """A component of which the two views of a read fault show different numbers, 0 for nothing, and the update of the greater one. The
    update is None if the history has none."""

    component: int
    view_number: int
    other_number: int
    update: Call | None


@dataclass(frozen=True)
class Fault:
    """How many faults of a kind there are, and the first of them: the number of its view, the other words of the report by their names,
    and the calls that it concerns, by what they are in it. A read fault has where its views differ, too."""

    kind: str
    count: int
    view: int
    more: dict
    calls: dict[str, Call]
    differs: tuple[Difference, ...] = ()


@dataclass(frozen=True)
class ComponentStats:
    """What a run has shown of a component: the process of its first update, its updates, and the views that list it."""

    component: int
    writer: int
    updates: int
    views: int


@dataclass(frozen=True)
class Stats:
    """What a run has shown, as `snapjudge stats` counts it. It is no verdict. Calls overlap where neither precedes the other."""

    events: int
    calls: int
    pending: int
    views: int
    updates: int
    processes: int
    components: int
    overlap_update: int
    overlap_view: int
    overlap_nothing: int
    unshown: int
    most_open: int
    longest: int
    shows_concurrency: bool
    by_component: tuple[ComponentStats, ...]

    def to_dict(self) -> dict:
        """The counts as JSON has them."""
        return asdict(self) | {"by_component": [asdict(it) for it in self.by_component]}


@dataclass(frozen=True)
class Judged:
    """The verdict on a history: `status` is atomic, regular or irregular. The report and the printed order are made when they are asked for."""

    status: str
    counts: Counts
    monotone: bool
    faults: tuple[Fault, ...]
    text: bytes = field(repr=False)
    limit: int | None = field(default=None, repr=False)
    writers: str = field(default="one", repr=False)

    @property
    def atomic(self) -> bool:
        return self.status == "atomic"

    @property
    def regular(self) -> bool:
        return self.status != "irregular"

    @functools.cached_property
    def report(self) -> str:
        """What `snapjudge check` writes, to the byte."""
        return self._answer("check_limit")

    @functools.cached_property
    def order(self) -> tuple[Step, ...]:
        """The calls in an order that explains the run, if it is atomic."""
        steps = self.report.splitlines()[5:] if self.atomic else ()
        return tuple(_step(*line.split(" ")) for line in steps)

    def to_dict(self) -> dict:
        """What is said here, as JSON can hold it."""
        faults = [asdict(fault) for fault in self.faults]
        verdicts = {"regular": self.regular, "monotone": self.monotone, "atomic": self.atomic}
        return {"status": self.status, **asdict(self.counts), **verdicts, "faults": faults}

    def _answer(self, call: str, *words) -> str:
        return library.answer(call, self.text, *words, events=self.limit, writers=self.writers)[1]

    def _repr_svg_(self) -> str:
        return self._answer("draw", 1)

    def _repr_html_(self) -> str:
        """The page in a frame of its own, so that several pages in one notebook do not meet."""
        page = html.escape(self._answer("draw", 0))
        return f'<iframe srcdoc="{page}" style="border: 0; height: 36em; width: 100%"></iframe>'


def _step(call, process, op, *entries):
    return Step(int(call), int(process[1:]), op, tuple(Entry(*map(int, entry.split(":"))) for entry in entries))


def _call(found):
    return found and Call(**{**found, "entries": tuple(Entry(**entry) for entry in found["entries"])})


def _fault(kind, found):
    """A fault of the object that the library writes."""
    calls = {name: _call(found[name]) for name in ("view", "other", "update") if found.get(name)}
    if kind == "integrity":
        more = {"entry": Entry(**found["entry"])}
    elif kind == "write":
        more = {name: (found[name]["component"], found[name]["number"]) for name in ("misses", "shows")}
        calls |= {name: _call(found[name]["update"]) for name in more if found[name]["update"]}
    elif kind == "read":
        more = {"other": calls["other"].call, "component": found["component"]}
    else:
        more = {name: found[name] for name in ("component", "number", "side")}
    differs = tuple(Difference(**{**it, "update": _call(it["update"])}) for it in found.get("differs", ()))
    return Fault(kind, found["count"], calls["view"].call, more, calls, differs)


def judged_of(status: str, found: dict, text: bytes, limit: int | None, writers: str) -> Judged:
    """The verdict that an object of the library has."""
    counts = Counts(*(found[name] for name in ("events", "calls", "pending", "views")))
    kinds = ("integrity", "proximity", "read", "write")
    faults = tuple(_fault(kind, found[kind]) for kind in kinds if found[kind])
    return Judged(status, counts, found["monotone"], faults, text, limit, writers)


def stats_of(found: dict) -> Stats:
    """The counts of a history, by its object."""
    counts = {name: found[name] for name in Stats.__dataclass_fields__ if name != "by_component"}
    return Stats(**counts, by_component=tuple(ComponentStats(**it) for it in found["by_component"]))
