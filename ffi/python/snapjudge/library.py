"""The calls of libsnapjudge.so, by ctypes. What they answer is proved; this file is not."""
from __future__ import annotations

import ctypes
import functools
import os

# The version of the library's calls that this module is for.
VERSION = 1
STATUSES = ("atomic", "regular", "irregular", "refused")
NO_MEMORY, NO_ROOM, NO_LIMIT = 4, 5, 6
# The usual limit of events, and the greatest.
EVENTS, MOST_EVENTS = 65_536, 1_048_576
# The greatest number of faults of a kind that an explanation tells of.
MOST_FAULTS = 1000
# How many processes may write a component, and what each word adds to the limit of events.
WRITERS = {"one": 0, "many": 2**31}
# The greatest number that a call can be handed; the library says which of them it takes.
MOST = 2**32 - 1

_HERE = os.path.dirname(os.path.abspath(__file__))
_PLACES = (os.environ.get("SNAPJUDGE_LIBRARY"), os.path.join(_HERE, "libsnapjudge.so"),
           os.path.join(_HERE, "..", "..", "build", "libsnapjudge.so"))
_TEXT, _NUMBER = (ctypes.c_char_p, ctypes.c_size_t), (ctypes.c_uint32,)
_ROOM = (ctypes.c_void_p, ctypes.c_size_t, ctypes.POINTER(ctypes.c_size_t))
# What each call takes: the text, the limit of events, what else is asked for, and where the answer goes.
_CALLS = {
    "version": (),
    "check": _TEXT + _ROOM,
    "check_limit": _TEXT + _NUMBER + _ROOM,
    "explain": _TEXT + _NUMBER + _NUMBER + _ROOM,
    "explain_faults": _TEXT + _NUMBER + _NUMBER + _NUMBER + _ROOM,
    "json": _TEXT + _NUMBER + _TEXT + _ROOM,
    "shrink": _TEXT + _NUMBER + _NUMBER + _ROOM,
    "draw": _TEXT + _NUMBER + _NUMBER + _ROOM,
    "draw_calls": _TEXT + _NUMBER + 4 * _NUMBER + _ROOM,
    "stats": _TEXT + _NUMBER + _NUMBER + _ROOM,
}


class TooLittleRoom(ValueError):
    """The answer has `length` bytes, and does not fit."""

    def __init__(self, length: int) -> None:
        self.length = length
        super().__init__(f"the answer has {length} bytes")


class NoLimit(ValueError):
    """There is no such limit of events."""

    def __init__(self, events: int) -> None:
        self.events = events
        super().__init__(f"a limit of events is from 1 to {MOST_EVENTS:,}, and not {events}")


@functools.cache
def _library() -> ctypes.CDLL:
    path = next((place for place in _PLACES if place and os.path.exists(place)), None)
    if path is None:
        raise ImportError("libsnapjudge.so is not built: run ffi/build.sh, or name it in SNAPJUDGE_LIBRARY")
    library = ctypes.CDLL(path)
    for name, takes in _CALLS.items():
        call = getattr(library, f"snapjudge_{name}", None)
        if call is None:
            raise ImportError(f"{path} is older: it has no snapjudge_{name}")
        call.restype, call.argtypes = ctypes.c_uint32, takes
    if library.snapjudge_version() != VERSION:
        raise ImportError(f"{path} is of another version")
    return library


def bytes_of(history) -> bytes:
    """The bytes of a history: of a text, of bytes, of the file of a path, or of what an open file has left."""
    if isinstance(history, str):
        return history.encode()
    if isinstance(history, os.PathLike):
        with open(history, "rb") as file:
            return file.read()
    if hasattr(history, "read"):
        return bytes_of(history.read())
    try:
        return bytes(memoryview(history))
    except TypeError:
        raise TypeError(f"a history is a text, bytes, a path or an open file, and no {type(history).__name__}") from None


def answer_into(call: str, text: bytes, words: tuple, room: bytearray, events: int | None = None, writers: str = "one") -> tuple[str, int]:
    """The status of a text, of STATUSES, and the length of what a call answers, which is written to the front of a bytearray.

    A history has at most this many events, or 65,536, and a component has one writer or many. Raises NoLimit, TooLittleRoom and
    MemoryError; the bytearray is then unchanged.
    """
    if writers not in WRITERS:
        raise ValueError(f"the writers of a component are {' or '.join(WRITERS)}, and not {writers}")
    events = EVENTS if events is None else events
    if not 0 <= events < WRITERS["many"]:
        raise NoLimit(events)
    length = ctypes.c_size_t()
    # a bytearray of no bytes has no place of its own
    place = (ctypes.c_char * len(room)).from_buffer(room) if room else ctypes.create_string_buffer(1)
    called = getattr(_library(), f"snapjudge_{call}")
    status = called(text, len(text), events + WRITERS[writers], *words, place, len(room), ctypes.byref(length))
    if status < len(STATUSES):
        return STATUSES[status], length.value
    if status == NO_ROOM:
        raise TooLittleRoom(length.value)
    if status == NO_LIMIT:
        raise NoLimit(events)
    if status == NO_MEMORY:
        raise MemoryError("snapjudge: out of memory")
    raise ValueError(f"snapjudge_{call} takes no such option as {words}")


def answer(call: str, text: bytes, *words, events: int | None = None, writers: str = "one") -> tuple[str, str]:
    """The status of a text, of STATUSES, and what a call answers."""
    size = len(text) + len(text) // 4 + 256
    while True:
        room = bytearray(size)
        try:
            status, length = answer_into(call, text, words, room, events, writers)
            return status, room[:length].decode()
        except TooLittleRoom as needed:
            size = needed.length
