"""Runs a program on a file, and measures it.

The system counts the peak memory of a program from that of the process that starts it. So who measures should stay small:
`apart` does in a process of its own what takes much.
"""

from __future__ import annotations

import os
import resource
import subprocess
import sys
import tempfile
import time
import traceback
from collections.abc import Callable, Sequence
from dataclasses import dataclass
from threading import Timer

# No program gets more address space, so that a bad one doesn't take all the memory that there is.
ADDRESSES = 4_000_000_000


@dataclass(frozen=True)
class Run:
    """The seconds that a run took, those in which its threads were busy, its peak memory in megabytes of a million bytes,
    its status (negative where a signal ended it), and what it wrote on standard error."""

    seconds: float
    busy: float
    megabytes: float
    status: int
    said: bytes


def limits(events: int, size: int) -> list[str]:
    """The options that let the program take so many events and bytes."""
    return ["--max-events", str(events), "--max-bytes", str(size)]


def bound(addresses: int) -> None:
    """Bounds the address space of this process to so many bytes."""
    _, hard = resource.getrlimit(resource.RLIMIT_AS)
    least = addresses if hard == resource.RLIM_INFINITY else min(addresses, hard)
    resource.setrlimit(resource.RLIMIT_AS, (least, hard))


def run(words: Sequence[str], text: str, report: str, seconds: float, addresses: int = ADDRESSES) -> Run:
    """Runs a program with a file as its input and another as its output. It is killed after so many seconds, and gets so many
    bytes of address space."""
    with open(text, "rb") as given, open(report, "wb") as taken, tempfile.TemporaryFile() as told:
        began = time.perf_counter()
        started = subprocess.Popen(words, stdin=given, stdout=taken, stderr=told, preexec_fn=lambda: bound(addresses))
        timer = Timer(seconds, started.kill)
        timer.start()
        _, status, used = os.wait4(started.pid, 0)
        took = time.perf_counter() - began
        started.returncode = os.waitstatus_to_exitcode(status)
        timer.cancel()
        timer.join()
        told.seek(0)
        peak = used.ru_maxrss * (1 if sys.platform == "darwin" else 1024)
        return Run(took, used.ru_utime + used.ru_stime, peak / 1e6, started.returncode, told.read(10_000))


def apart(work: Callable[[], None]) -> None:
    """Does the work in a process of its own."""
    child = os.fork()
    if child == 0:
        status = 1
        try:
            work()
            status = 0
        except BaseException:
            traceback.print_exc()
        finally:
            os._exit(status)
    if os.waitpid(child, 0)[1]:
        raise RuntimeError("the work failed, as is said above")
