"""Signals that end the process: met as an exception, so that a started server is stopped first."""

from __future__ import annotations

import os
import signal
import threading
from collections.abc import Iterator
from contextlib import contextmanager
from types import FrameType

ENDING = (signal.SIGINT, signal.SIGTERM, signal.SIGHUP)


class Interrupted(BaseException):
    """A signal asks the process to end. It is no Exception, so that nothing on the way takes it for a fault."""


class _Gate:
    """Keeps the first signal that came, and holds it back while something is done that mustn't be left half done."""

    def __init__(self) -> None:
        self.holders = 0
        self.caught: int | None = None

    def catch(self, number: int, _frame: FrameType | None) -> None:
        # The process is ending once a first signal has come: a second one mustn't disturb that.
        if self.caught is None:
            self.caught = number
            self.let_through()

    def let_through(self) -> None:
        if self.caught is not None and self.holders == 0:
            raise Interrupted


_gate = _Gate()


def look() -> None:
    """Raises Interrupted where a signal has come and isn't held back.

    Loops that wait call this: the exception that the signal itself raised may have been lost in a module of C.
    """
    _gate.let_through()


def taken_back() -> None:
    """Takes the signals back from a library that has taken them for itself. Outside the main thread nothing is changed."""
    if threading.current_thread() is threading.main_thread():
        for number in ENDING:
            signal.signal(number, signal.getsignal(number))


@contextmanager
def held() -> Iterator[None]:
    """A signal that comes meanwhile is met at the end of the outermost such context."""
    _gate.holders += 1
    try:
        yield
    finally:
        _gate.holders -= 1
    _gate.let_through()


@contextmanager
def met() -> Iterator[None]:
    """Within, a signal of ENDING raises Interrupted in the main thread. At the end the process ends as the signal asks.

    SIGINT becomes KeyboardInterrupt, as it does everywhere in Python. A signal that the process was started to ignore stays
    ignored. Outside the main thread nothing is changed.
    """
    if threading.current_thread() is not threading.main_thread():
        yield
        return
    _gate.caught = None
    before = {number: signal.signal(number, _gate.catch) for number in ENDING if signal.getsignal(number) != signal.SIG_IGN}
    try:
        yield
    except Interrupted:
        pass
    finally:
        for number, handler in before.items():
            signal.signal(number, handler)
        caught, _gate.caught = _gate.caught, None
    if caught == signal.SIGINT:
        raise KeyboardInterrupt
    if caught is not None:
        os.kill(os.getpid(), caught)
