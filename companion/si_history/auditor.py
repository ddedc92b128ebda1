"""The auditor's program `si_audit`: found, run on a history, and what came of it.

Nothing here takes a run for a good one that gave no report: each other ending has a name, and words for the user.
"""

from __future__ import annotations

import argparse
import enum
import os
import re
import resource
import shutil
import signal
import subprocess
import sys
from collections.abc import Callable, Sequence
from dataclasses import dataclass
from typing import IO

from si_history.errors import BadInput, quoted
from si_history.limits import STANDARD, Limits, add_limit_arguments, limits_of
from si_history.memory import in_words, memory_limit, size_of

PROGRAM = "si_audit"
LEVELS = ("gsi", "si", "ssi", "serializable")
LEAST_VERSION = (0, 2, 0)
"""The first version that has `--explain` and `--check`."""
SECONDS_FOR_VERSION = 60.0
MOST_SAID = 400

MEETS, FALLS_SHORT, BAD_COMMAND_LINE, REFUSED, FAULT = range(5)
"""The statuses of the program."""


class Ending(enum.Enum):
    """How a run of the auditor ended."""

    REPORT = "it made a report"
    REFUSAL = "it refused the history"
    COMMAND_LINE = "it refused its arguments"
    DEVICE = "it could not read or write"
    MEMORY = "memory ran out"
    KILLED = "a signal ended it"
    TIME = "it took too long"
    ODD = "it ended as no auditor does"


@dataclass(frozen=True, slots=True)
class Outcome:
    """What came of a run: `status` is that of the process, less than 0 for a signal, and `said` what it said of a fault.

    `report` is a whole report where the ending is REPORT, and the lines of a refusal where it is REFUSAL. It is empty where
    the caller gave a file for it.
    """

    ending: Ending
    status: int
    report: bytes
    said: str

    @property
    def meets(self) -> bool:
        """Whether the auditor says that the history meets the level that it was asked about."""
        return self.ending is Ending.REPORT and self.status == MEETS

    @property
    def exit_status(self) -> int:
        """The status for a command that ends because of this: 0, 1 and 3 as the auditor's, 2 for an old one, else 4."""
        if self.ending in (Ending.REPORT, Ending.REFUSAL):
            return self.status
        return BAD_COMMAND_LINE if self.ending is Ending.COMMAND_LINE else FAULT

    @property
    def words(self) -> str:
        """What happened, in one line for the user."""
        told = f"the auditor {_VERBS[self.ending]}" if self.ending in _VERBS else f"the auditor {self._end()}"
        return f"{told}: {self.said}" if self.said else told

    def _end(self) -> str:
        if self.status < 0:
            return f"was ended by {_signal_name(-self.status)}{_HINTS.get(-self.status, '')}"
        return f"ended with status {self.status} and no report"


_VERBS = {
    Ending.REPORT: "made its report",
    Ending.REFUSAL: "refused the history",
    Ending.COMMAND_LINE: "refused its arguments, so it is too old or too new",
    Ending.DEVICE: "could not read or write",
    Ending.MEMORY: "ran out of memory",
    Ending.TIME: "took too long and was stopped",
}
_HINTS = {int(signal.SIGKILL): ", as a system does where memory runs out"}


@dataclass(frozen=True, slots=True)
class Auditor:
    """A program that says it is an auditor, of how many bytes of memory it may make use, and how long its histories may be."""

    path: str
    version: str
    memory: int
    limits: Limits = STANDARD

    @classmethod
    def found(cls, path: str | None = None, memory: int | None = None, limits: Limits = STANDARD) -> Auditor:
        """The program at the path, or else the one beside this command, or else the one on the PATH.

        Raises BadInput where there is none, where it is none or too old, and where it can't be started. Without a number of
        bytes it may take three quarters of the machine's memory.
        """
        where = _path_of(path)
        limit = memory_limit() if memory is None else memory
        return cls(where, _version(where, limit), limit, limits)

    def run(
        self, history: bytes | IO[bytes], words: Sequence[str] = (), *, into: IO[bytes] | None = None,
        seconds: float | None = None,
    ) -> Outcome:
        """Audits a history, which is bytes or an open file, with these arguments.

        The report goes to the file `into` where one is given, and to the outcome else. A run that takes longer than
        `seconds` is stopped. Raises BadInput where the program can't be started.
        """
        done = _run(self.path, [*self.limits.words, *words], self.memory, history, into, seconds)
        if done is None:
            return Outcome(Ending.TIME, FAULT, b"", f"more than {seconds:g} seconds")
        status, output, said = done
        ending = _ending(status, output if into is None else _front(into), said)
        if ending is Ending.MEMORY:
            said = f"it may take {in_words(self.memory)}, which --memory changes"
        whole = output if ending in (Ending.REPORT, Ending.REFUSAL) else b""
        return Outcome(ending, status, whole, said)


def add_auditor_arguments(parser: argparse.ArgumentParser) -> None:
    """Adds what a command takes that runs the auditor."""
    parser.add_argument(
        "--auditor", metavar="PROGRAM", help=f"the auditor's program (default: {PROGRAM} beside this command, or on the PATH)"
    )
    parser.add_argument(
        "--memory", metavar="SIZE", type=size_of,
        help="how much memory the auditor may take, as 512M or 8G (default: three quarters of the machine's)",
    )
    add_limit_arguments(parser)


def auditor_of(arguments: argparse.Namespace) -> Auditor:
    """The auditor that the arguments of `add_auditor_arguments` name. Raises BadInput where there is none."""
    return Auditor.found(arguments.auditor, arguments.memory, limits_of(arguments))


def _path_of(path: str | None) -> str:
    """Where the program is."""
    if path is not None:
        if os.path.isdir(path) or not os.path.exists(path):
            raise BadInput(f"there is no auditor {quoted(path)}")
        return os.path.abspath(path)
    beside = os.path.join(os.path.dirname(os.path.realpath(sys.argv[0])), PROGRAM)
    found = beside if os.path.isfile(beside) and os.access(beside, os.X_OK) else shutil.which(PROGRAM)
    if found is None:
        raise BadInput(f"there is no {PROGRAM} beside this command, nor on the PATH: install it, or name it by --auditor")
    return os.path.abspath(found)


def _version(path: str, limit: int) -> str:
    """The version that the program tells. Raises BadInput where it tells none, or an old one."""
    done = _run(path, ["--version"], limit, b"", None, SECONDS_FOR_VERSION)
    told = re.match(rb"si_audit (([0-9]+)\.([0-9]+)\.([0-9]+))( |\n)", done[1]) if done is not None and done[0] == 0 else None
    least = ".".join(map(str, LEAST_VERSION))
    if told is None:
        why = "it does not answer --version" if done is None else f"it tells no version{_because(done)}"
        raise BadInput(f"{quoted(path)} is no auditor, or one that is too old: {why}; {PROGRAM} {least} or later is wanted")
    version = told[1].decode()
    if tuple(map(int, told.groups()[1:4])) < LEAST_VERSION:
        raise BadInput(f"the auditor {quoted(path)} is too old: it is {PROGRAM} {version}, and {least} or later is wanted")
    return version


def _because(done: tuple[int, bytes, str]) -> str:
    status, _, said = done
    ended = f" and is ended by {_signal_name(-status)}" if status < 0 else f" and ends with status {status}" if status else ""
    return f"{ended} ({said})" if said else ended


def _run(
    path: str, words: Sequence[str], limit: int, given: bytes | IO[bytes], into: IO[bytes] | None, seconds: float | None
) -> tuple[int, bytes, str] | None:
    """The status, the output and what was said on standard error; None where it took longer than `seconds`."""
    try:
        done = subprocess.run(
            [path, *words],
            input=given if isinstance(given, bytes) else None,
            stdin=None if isinstance(given, bytes) else given,
            stdout=subprocess.PIPE if into is None else into,
            stderr=subprocess.PIPE,
            preexec_fn=_within(limit),
            timeout=seconds,
        )
    except subprocess.TimeoutExpired:
        return None
    except (OSError, ValueError, subprocess.SubprocessError) as fault:
        why = (fault.strerror if isinstance(fault, OSError) else None) or str(fault)
        raise BadInput(f"the auditor {quoted(path)} can't be started: {why}") from None
    return done.returncode, done.stdout or b"", _one_line(done.stderr)


def _within(limit: int) -> Callable[[], None]:
    """What the new process does before it becomes the program: it gives itself the limit, or keeps a lower one."""
    soft, hard = resource.getrlimit(resource.RLIMIT_AS)
    bounds = [bound for bound in (limit, soft, hard) if bound != resource.RLIM_INFINITY]
    return lambda: resource.setrlimit(resource.RLIMIT_AS, (min(bounds), hard))


def _ending(status: int, output: bytes, said: str) -> Ending:
    """How a run ended, by its status and by what it wrote; of a report in a file the front and the last byte are enough."""
    if status in (MEETS, FALLS_SHORT) and output.startswith(b"events ") and output.endswith(b"\n"):
        return Ending.REPORT
    if status == REFUSED and output.startswith(b"refused: ") and output.endswith(b"\n"):
        return Ending.REFUSAL
    if status == BAD_COMMAND_LINE:
        return Ending.COMMAND_LINE
    if status == FAULT and said == f"{PROGRAM}: no memory" or status == -signal.SIGABRT and "memory allocation" in said:
        return Ending.MEMORY
    if status == FAULT:
        return Ending.DEVICE
    return Ending.KILLED if status < 0 else Ending.ODD


def _front(file: IO[bytes]) -> bytes:
    """The first bytes of a file and its last one."""
    end = file.seek(0, os.SEEK_END)
    file.seek(0)
    front = file.read(min(end, 9))
    file.seek(max(0, end - 1))
    last = file.read(1)
    file.seek(0)
    return front + last


def _one_line(said: bytes) -> str:
    """What a program said, on one line, of printable characters, and cut where it is long."""
    words = " ".join(said.decode("utf-8", "replace").split())
    shown = "".join(sign if sign.isprintable() else "?" for sign in words)
    return shown if len(shown) <= MOST_SAID else shown[:MOST_SAID] + ".."


def _signal_name(number: int) -> str:
    try:
        return f"the signal {signal.Signals(number).name}"
    except ValueError:
        return f"the signal {number}"
