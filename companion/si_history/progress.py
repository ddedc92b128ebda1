"""Tells a person at a terminal how far long work has come."""

from __future__ import annotations

import sys
import threading
import time
from collections.abc import Iterator
from contextlib import contextmanager

REPORT_LINES = "lines of the report"
SILENT_SECONDS = 1.0
SECONDS_BETWEEN = 0.5
BAR_WIDTH = 24
WIPE = "\r\x1b[K"


class _Line:
    """A line on standard error that is written again and again, where that is a terminal and nobody wants silence."""

    is_silenced = False

    def __init__(self) -> None:
        self._is_seen = not _Line.is_silenced and sys.stderr is not None and sys.stderr.isatty()
        self._has_shown = False

    @property
    def is_seen(self) -> bool:
        return self._is_seen

    def show(self, words: str) -> None:
        print(f"\rsi-history: {words}", end="", file=sys.stderr, flush=True)
        self._has_shown = True

    def wipe(self) -> None:
        if self._has_shown:
            print(WIPE, end="", file=sys.stderr, flush=True)


@contextmanager
def silenced(is_wanted: bool = True) -> Iterator[None]:
    """Within it, where that is wanted, nothing tells how far work has come."""
    before = _Line.is_silenced
    _Line.is_silenced = before or is_wanted
    try:
        yield
    finally:
        _Line.is_silenced = before


class Progress:
    """A count, or a bar where the whole is known, shown once the work has taken a second.

    Use it as a context, and call `step` as the work goes on; the line is wiped at the end.
    """

    def __init__(self, what: str) -> None:
        self._what = what
        self._line = _Line()
        self._next_time = time.monotonic() + SILENT_SECONDS

    def __enter__(self) -> Progress:
        return self

    def __exit__(self, *_: object) -> None:
        self._line.wipe()

    def step(self, count: int, whole: int | None = None) -> None:
        """Tells that `count` things are done so far, of the `whole` number if that is known."""
        if self._line.is_seen and time.monotonic() >= self._next_time:
            self._line.show(f"{_bar(count, whole)}{count:,} {self._what}")
            self._next_time = time.monotonic() + SECONDS_BETWEEN


def _bar(count: int, whole: int | None) -> str:
    """A bar for so much of a whole."""
    if not whole:
        return ""
    done = min(BAR_WIDTH, BAR_WIDTH * count // whole)
    return f"[{'#' * done}{'.' * (BAR_WIDTH - done)}] "


class Waiting:
    """The seconds that pass while another program works, shown once there is one of them. Use it as a context."""

    def __init__(self, what: str) -> None:
        self._what = what
        self._line = _Line()
        self._is_over = threading.Event()
        self._thread = threading.Thread(target=self._tick, daemon=True)

    def __enter__(self) -> Waiting:
        if self._line.is_seen:
            self._thread.start()
        return self

    def __exit__(self, *_: object) -> None:
        self._is_over.set()
        if self._line.is_seen:
            self._thread.join()
        self._line.wipe()

    def _tick(self) -> None:
        seconds = 0
        while not self._is_over.wait(SILENT_SECONDS):
            seconds += 1
            self._line.show(f"{self._what}, {seconds:,} s")
