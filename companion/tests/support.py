"""What several tests use."""

from __future__ import annotations

import io
import json
import os
import subprocess
import sys
from collections.abc import Callable
from pathlib import Path
from typing import BinaryIO

from si_history.conversion import Conversion, without_collector
from si_history.history import text_of
from si_history.incomplete import MARK

REPOSITORY = Path(__file__).resolve().parents[2]
COMPANION = REPOSITORY / "companion"

# The auditor's program. `make test` builds it first; without it the tests that run it are left out.
PROGRAM = REPOSITORY / os.environ.get("PROGRAM", "crates/si_audit/out/si_audit")
NO_PROGRAM = f"left out: the program {PROGRAM} is not built"

# How many seconds a slow and busy machine may take for what takes a moment elsewhere. What takes longer hangs.
LONG_SECONDS = 300.0

# What stands on the output of a command that was to write a history, and failed before it wrote any of it.
MARKED = f"{MARK}\n".encode()

Convert = Callable[[BinaryIO], Conversion]


def log_of(lines: list[object]) -> bytes:
    """A log with these lines; a line that is bytes already stands as it is."""
    return b"".join((line if isinstance(line, bytes) else json.dumps(line).encode()) + b"\n" for line in lines)


def converted(convert: Convert, lines: list[object]) -> Conversion:
    """What a conversion makes of these lines."""
    with without_collector():
        return convert(io.BytesIO(log_of(lines)))


def history_line(conversion: Conversion) -> str:
    """The history of a conversion, on one line."""
    return " ".join(text_of(conversion.events).split())


def run_command(*words: str, given: bytes = b"") -> subprocess.CompletedProcess[bytes]:
    """Runs the command line si-history as a process of its own."""
    return subprocess.run(
        [sys.executable, "-m", "si_history", *words],
        input=given,
        capture_output=True,
        env={**os.environ, "PYTHONPATH": str(COMPANION)},
        timeout=LONG_SECONDS,
    )


def audit(text: str, *words: str) -> tuple[int, str]:
    """The status and the report that the auditor's program gives for a history."""
    done = subprocess.run([PROGRAM, *words], input=text.encode(), capture_output=True, timeout=LONG_SECONDS)
    return done.returncode, done.stdout.decode()
