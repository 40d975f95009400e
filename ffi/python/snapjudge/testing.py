"""Histories in tests, with pytest or without.

    from snapjudge.testing import assert_atomic

    def test_board():
        assert_atomic(history)                       # raises NotAtomic, which says why

    def test_threads(recording):                     # a fixture of pytest: what it records is judged when the test ends
        recorder = recording(threads, components, calls)

With `pytest --snapjudge-out DIR` each history that is not atomic stays in DIR, with its page for a browser.
"""
from __future__ import annotations

import pathlib
import re

from . import Judged, check, draw, explain, shrink
from .recorder import Recorder
from .values import Refused


class NotAtomic(AssertionError):
    """A history is not atomic: the sentences on its first faults, and a witness. `judged` is the verdict, which a notebook draws."""

    def __init__(self, judged: Judged, where: str = "") -> None:
        self.judged = judged
        said = explain(judged.text, judged.limit, writers=judged.writers)
        witness = shrink(judged.text, judged.limit, writers=judged.writers)
        super().__init__(f"the history is {said}\na witness, at most four of its calls:\n{witness}{where}")


class NoHistory(AssertionError):
    """A text is not a history, so there is no verdict on it."""


def assert_atomic(history, events: int | None = None, views: int = 1, out=None, name: str = "history", *, writers: str = "one") -> Judged:
    """The verdict on an atomic history. Raises NotAtomic for any other, and NoHistory for a text that is none, or has fewer completed
    views than `views`: it shows nothing. A history that is not atomic is kept as NAME.csv in the folder `out`, with its page."""
    try:
        judged = check(history, events, writers=writers)
    except Refused as refused:
        raise NoHistory(str(refused)) from None
    if not judged.atomic:
        raise NotAtomic(judged, _kept(judged, out, name))
    if judged.counts.views < views:
        raise NoHistory(f"the history has {judged.counts.views} completed views, and {views} are wanted")
    return judged


def _kept(judged, out, name):
    """Keeps a history and its page, where that is asked for, and says where."""
    if out is None:
        return ""
    place = pathlib.Path(out, re.sub(r"[^\w.-]+", "-", name))
    place.parent.mkdir(parents=True, exist_ok=True)
    place.with_name(f"{place.name}.csv").write_bytes(judged.text)
    place.with_name(f"{place.name}.html").write_text(draw(judged.text, events=judged.limit, writers=judged.writers), encoding="utf-8")
    return f"its page is {place}.html\n"


def judge_recorded(recorders, out=None, name: str = "history") -> None:
    """Judges what each of some recorders has recorded."""
    for number, recorder in enumerate(recorders, 1):
        assert_atomic(recorder.text(), events=1 << 20, out=out, name=name if len(recorders) == 1 else f"{name}-{number}")


def pytest_addoption(parser):
    parser.addoption("--snapjudge-out", metavar="DIR", help="keep each history that is not atomic in DIR, with its page")


try:
    import pytest
except ImportError:
    pass
else:

    @pytest.fixture
    def recording(request):
        """Makes recorders, as snapjudge.recorder.Recorder does. What they recorded is judged when the test has passed."""
        made = []

        def make(*args, **words):
            made.append(Recorder(*args, **words))
            return made[-1]

        yield make
        judge_recorded(made, request.config.getoption("--snapjudge-out"), request.node.name)
