"""What is done before the other modules load: interrupts and closed devices, which may come at any time, do no harm."""

from __future__ import annotations

import os
import signal
from collections.abc import Iterator
from contextlib import contextmanager, suppress
from types import FrameType

INTERRUPTED = 130
MARK = "!incomplete"
"""Ends an output that isn't whole, as `incomplete` says. No event starts with this sign, and no line of a log does."""


def prepare() -> None:
    """Readies the process. Call it before the other modules are imported."""
    if signal.getsignal(signal.SIGINT) in (signal.default_int_handler, signal.SIG_DFL):
        signal.signal(signal.SIGINT, _end)
    for number in (signal.SIGTERM, signal.SIGHUP):
        if signal.getsignal(number) == signal.SIG_DFL:
            signal.signal(number, _end_by)
    _fill_devices()


@contextmanager
def interrupts_raised() -> Iterator[None]:
    """Within, an interrupt at the keyboard raises KeyboardInterrupt, if it ends a prepared process otherwise."""
    ends = signal.getsignal(signal.SIGINT) is _end
    if ends:
        signal.signal(signal.SIGINT, signal.default_int_handler)
    try:
        yield
    finally:
        if ends:
            signal.signal(signal.SIGINT, _end)


def _end(_number: int, _frame: FrameType | None) -> None:
    """Ends the process at once. Nothing is under way that would have to be undone."""
    _mark()
    os._exit(INTERRUPTED)


def _end_by(number: int, _frame: FrameType | None) -> None:
    """Ends the process at once, as the signal does by itself."""
    _mark()
    signal.signal(number, signal.SIG_DFL)
    os.kill(os.getpid(), number)


def _mark() -> None:
    """Ends an output that may be a history by the mark. Nobody audits what is on a terminal."""
    with suppress(OSError):
        if not os.isatty(1):
            os.write(1, f"{MARK}\n".encode())


def _fill_devices() -> None:
    """Puts /dev/null in the place of closed standard devices, so that no file that is opened comes to stand there."""
    while (descriptor := os.open(os.devnull, os.O_RDWR)) <= 2:
        os.set_inheritable(descriptor, True)
    os.close(descriptor)


def main() -> int:
    """Runs the command line as a prepared process: what the command si-history calls that pip installs."""
    prepare()
    from si_history.cli import main as run_command_line

    return run_command_line()
