"""What goes wrong with what a user hands in."""

from __future__ import annotations

import json
from collections.abc import Iterator
from contextlib import contextmanager

SHOWN_CHARACTERS = 60


class BadInput(Exception):
    """Input that can't be taken. Its text is the one line that the user sees on standard error.

    `line` is the faulty line of the input, counted from 1, and `source` the input's name, where they are known.
    """

    def __init__(self, reason: str, *, line: int | None = None, source: str | None = None) -> None:
        super().__init__(reason)
        self.reason = reason
        self.line = line
        self.source = source

    def __str__(self) -> str:
        parts = [self.source] if self.source is not None else []
        if self.line is not None:
            parts.append(f"line {self.line}")
        return ": ".join([*parts, self.reason])


class OutputIsInput(BadInput):
    """Standard output is a file that the command reads, so that not even a mark may be written there."""


def quoted(name: str) -> str:
    """A name from the input, fit for a message: in quotes, on one line, in ASCII, and cut where it is long."""
    shown = name if len(name) <= SHOWN_CHARACTERS else name[:SHOWN_CHARACTERS] + "..."
    return json.dumps(shown)


@contextmanager
def in_source(source: str) -> Iterator[None]:
    """Within it, a BadInput that names no input is about this one."""
    try:
        yield
    except BadInput as fault:
        fault.source = fault.source or source
        raise
