"""The mark that ends what a failing command wrote where a history was due.

An empty text is a clean history, and so is the front of one that is cut between two events. So where a command that writes a
history fails, it ends its output by a token that no history has, and the auditor behind the pipe refuses it.
"""

from __future__ import annotations

import fcntl
import os
import signal
import stat
import threading
from collections.abc import Iterator
from contextlib import contextmanager
from types import FrameType
from typing import NoReturn

from si_history.startup import MARK

ENDING = (signal.SIGTERM, signal.SIGHUP)


class Stopped(BaseException):
    """A signal asks the process to end. It is no Exception, so that nothing on the way takes it for a fault."""

    def __init__(self, number: int) -> None:
        super().__init__(number)
        self.number = number


class Output:
    """Standard output as it is before a command writes. It stays open for the mark, whatever becomes of the other handle."""

    def __init__(self) -> None:
        try:
            self._handle: int | None = os.dup(1)
        except OSError:
            self._handle = None
        self._start = _size_so_far(self._handle)

    def close(self) -> None:
        """Gives the handle back, without a mark."""
        if self._handle is not None:
            os.close(self._handle)
        self._handle = None

    def mark(self) -> None:
        """Ends the output by the mark, or where a file has no room for it, has the mark in place of what was written.

        Nobody audits what is on a terminal, so there it is left out.
        """
        if self._handle is None or os.isatty(self._handle):
            return
        try:
            _write_mark(self._handle)
        except OSError:
            self._replace(self._handle)

    def _replace(self, handle: int) -> None:
        if self._start is None:
            return
        try:
            os.ftruncate(handle, self._start)
            os.lseek(handle, self._start, os.SEEK_SET)
            _write_mark(handle)
        except OSError:
            return


def _write_mark(handle: int) -> None:
    """Writes the mark behind what is there: whether that ends with a line or within an event, no history has the token."""
    left = f"{MARK}\n".encode()
    while left:
        left = left[os.write(handle, left) :]


def _size_so_far(handle: int | None) -> int | None:
    """How many bytes a file has before the command writes; None where the output is no file."""
    if handle is None:
        return None
    status = os.fstat(handle)
    if not stat.S_ISREG(status.st_mode):
        return None
    return status.st_size if _appends(handle) else os.lseek(handle, 0, os.SEEK_CUR)


def _appends(handle: int) -> bool:
    return bool(fcntl.fcntl(handle, fcntl.F_GETFL) & os.O_APPEND)


@contextmanager
def stops_met() -> Iterator[None]:
    """Within, a signal that asks the process to end raises Stopped, so that the mark can be written first.

    A signal that the process was started to ignore stays ignored, and one that isn't Python's stays as it is. Outside the main
    thread nothing is changed.
    """
    if threading.current_thread() is not threading.main_thread():
        yield
        return
    ours = [number for number in ENDING if signal.getsignal(number) not in (signal.SIG_IGN, None)]
    before = {number: signal.signal(number, _stop) for number in ours}
    try:
        yield
    finally:
        for number, handler in before.items():
            signal.signal(number, handler)


def _stop(number: int, _frame: FrameType | None) -> NoReturn:
    raise Stopped(number)


def end_by(number: int) -> NoReturn:
    """Ends the process as the signal would have done."""
    signal.signal(number, signal.SIG_DFL)
    os.kill(os.getpid(), number)
    raise SystemExit(128 + number)
