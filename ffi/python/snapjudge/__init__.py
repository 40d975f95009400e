"""Judges a recorded history of a single-writer board: is it atomic, only regular, or neither?

    judged = check(history)          # Judged: status, counts, faults with their calls, the printed order
    explain(history)                 # the sentences of `snapjudge explain`
    shrink(history)                  # at most four of the calls, with the same fault; with map=True which calls they are
    draw(history, "svg")             # a picture, or a page for a browser
    stats(history)                   # Stats: what the run has shown, such as how many views overlap an update

A history is a text, bytes, a path or an open file. With writers="many" each process may update each component.

Each call hands the history to the library, whose answer is proved. The calls by ctypes, and what makes values of the answers, are not
proved. The calls hold no lock of the interpreter, so threads of one program judge side by side; each needs 128 KiB of stack. Do not
make one in the forked child of a process with threads.

libsnapjudge.so is that which SNAPJUDGE_LIBRARY names, else the one beside this file, else that of ffi/build. It is loaded by the
first call, which raises ImportError if it is not there.
"""
from __future__ import annotations

import json

from .library import EVENTS, MOST, MOST_EVENTS, MOST_FAULTS, STATUSES, WRITERS, NoLimit, TooLittleRoom, answer, answer_into, bytes_of
from .values import Call, ComponentStats, Counts, Difference, Entry, Fault, Judged, Refused, Stats, Step, judged_of, stats_of

__version__ = "1.0.0"
__all__ = ["Refused", "TooLittleRoom", "NoLimit", "Judged", "Counts", "Entry", "Call", "Step", "Fault", "Difference", "Stats",
           "ComponentStats", "check", "explain", "shrink", "draw", "stats", "report", "report_into", "EVENTS", "MOST_EVENTS",
           "MOST_FAULTS", "STATUSES", "WRITERS"]

# The forms of a picture, and its colours, by the numbers that the library has for them.
FORMS = {"page": 0, "svg": 1, "text": 2}
SCHEMES = {("page", "light"): 3, ("page", "dark"): 4, ("svg", "light"): 1, ("svg", "dark"): 5}


def _object(text: bytes, events: int | None, writers: str, call: str, *words) -> tuple[str, dict]:
    """The status of a history, and the object that a call answers. Raises Refused where the text is not a history."""
    status, line = answer(call, text, *words, events=events, writers=writers)
    found = json.loads(line)
    if status == "refused":
        raise Refused(found["refused"]["record"], found["refused"]["fault"], explain(text, events, writers=writers))
    return status, found


def check(history, events: int | None = None, *, writers: str = "one") -> Judged:
    """The verdict on a history of at most this many events, from 1 to 1,048,576, or of 65,536. A component has one writer, or may
    have many, as `writers` says. Raises Refused for a text that is not a history, with the sentences of explain; NoLimit; and MemoryError."""
    text = bytes_of(history)
    status, found = _object(text, events, writers, "json", b"", 0)
    return judged_of(status, found, text, events, writers)


def explain(history, events: int | None = None, drawn: bool = False, whole: bool = False, faults: int = 1, *, writers: str = "one") -> str:
    """What is wrong with a history, in sentences, with each call that a first fault concerns; of an atomic history an order of its
    calls. With `drawn` a picture in characters is below. With `whole` all entries of the views of a fault are listed. With `faults`, from
    1 to 1,000, it tells of each kind the first fault of each of the first so many views that have one; more than one without `drawn`."""
    if not 1 <= faults <= MOST_FAULTS:
        raise ValueError(f"the number of faults is from 1 to {MOST_FAULTS:,}, and not {faults}")
    if faults == 1:
        return answer("explain", bytes_of(history), bool(drawn) + 2 * bool(whole), events=events, writers=writers)[1]
    if drawn:
        raise ValueError("a picture goes with one fault of a kind")
    return answer("explain_faults", bytes_of(history), int(bool(whole)), faults, events=events, writers=writers)[1]


def shrink(history, events: int | None = None, drawn: bool = False, map: bool = False, *, writers: str = "one") -> str:
    """A witness: a history of at most four of the calls, with the same fault; of an atomic history itself. With `drawn` its picture in
    characters instead. With `map` a table instead, of its calls and of those of the history that they are."""
    if drawn and map:
        raise ValueError("a witness is drawn or mapped, and not both")
    return answer("shrink", bytes_of(history), 2 if map else int(bool(drawn)), events=events, writers=writers)[1]


def draw(history, form: str = "page", events: int | None = None, scheme: str | None = None, calls: int | None = None,
         first: int | None = None, around: int | None = None, *, writers: str = "one") -> str:
    """A picture of a history: as a `page` for a browser, as `svg`, or in characters as `text`. Without a scheme a page is light or dark
    as the reader's system is, and `svg` is light. The scheme is `light` or `dark`; `text` takes none. The picture has this number of
    calls, from call `first` on or around call `around`, which are counted from 1. Raises ValueError if the history lacks the call."""
    if form not in FORMS:
        raise ValueError(f"a picture is {', '.join(FORMS)}, and not {form}")
    if scheme is not None and (form, scheme) not in SCHEMES:
        raise ValueError("a text has no colours" if form == "text" else f"the colours of a picture are light or dark, and not {scheme}")
    if not all(number is None or 0 < number <= MOST for number in (calls, first, around)):
        raise ValueError("calls are counted from 1")
    number = FORMS[form] if scheme is None else SCHEMES[form, scheme]
    return answer("draw_calls", bytes_of(history), number, calls or 0, first or 0, around or 0, events=events, writers=writers)[1]


def stats(history, events: int | None = None, *, writers: str = "one") -> Stats:
    """What a history has shown; no verdict. Raises as check does."""
    text = bytes_of(history)
    _, found = _object(text, events, writers, "stats", 1)
    return stats_of(found)


def report(history, events: int | None = None, *, writers: str = "one") -> tuple[str, str]:
    """The status of a history, of STATUSES, and its report, as the program `snapjudge check` gives it."""
    return answer("check_limit", bytes_of(history), events=events, writers=writers)


def report_into(text: bytes, room: bytearray, events: int | None = None, *, writers: str = "one") -> tuple[str, int]:
    """As `report`, with the report at the front of a bytearray, and its length in its place. Raises TooLittleRoom, NoLimit and MemoryError;
    the bytearray is then unchanged."""
    return answer_into("check_limit", text, (), room, events, writers)
