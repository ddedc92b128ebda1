"""What a log is, by what it holds: the text of a history, a log of events or of transactions, or a Jepsen history in EDN."""

from __future__ import annotations

import enum
import io
import json
import re
from collections.abc import Callable
from typing import BinaryIO

from si_history import from_events, from_jepsen, from_transactions
from si_history.conversion import Conversion
from si_history.errors import BadInput
from si_history.policy import Policy

BLANKS = b" \t\r\n"
LINES_LOOKED_AT = 2
"""How many lines of JSON are looked at: the first one may tell of the whole log."""
_EVENT = re.compile(rb"[brwca][0-9]")
_MAP_OF_EDN = re.compile(rb"[\[(]?\s*(#[\w.]+\s*)?\{\s*:[a-z]")


class LogKind(enum.Enum):
    """What a log is."""

    HISTORY = "history"
    EVENTS = "events"
    TRANSACTIONS = "transactions"
    JEPSEN = "jepsen"

    @property
    def convert(self) -> Callable[[BinaryIO, Policy], Conversion] | None:
        """What makes a history of it; None where it is one."""
        return _CONVERSIONS.get(self)


_CONVERSIONS: dict[LogKind, Callable[[BinaryIO, Policy], Conversion]] = {
    LogKind.EVENTS: from_events.convert, LogKind.TRANSACTIONS: from_transactions.convert, LogKind.JEPSEN: from_jepsen.convert,
}


def kind_of(content: bytes) -> LogKind | None:
    """What a log is, and None where there is nothing in it. Raises BadInput where it can't be told."""
    text = content.lstrip(BLANKS)
    if not text:
        return None
    if _EVENT.match(text):
        return LogKind.HISTORY
    if _MAP_OF_EDN.match(text):
        return LogKind.JEPSEN
    lines = io.BytesIO(text)
    for _ in range(LINES_LOOKED_AT):
        kind = _kind_of_line(lines.readline())
        if kind is not None:
            return kind
    raise BadInput(
        "its first line is none of a history, nor of a log of events, of transactions or of Jepsen: --as tells what it is"
    )


def _kind_of_line(line: bytes) -> LogKind | None:
    """The kind of log that a line stands in, which is one line's object in JSON, or what is left of one that is cut."""
    try:
        made = json.loads(line)
    except (ValueError, RecursionError):
        return _kind_of_fields(lambda name: b'"%s"' % name.encode() in line) if line.startswith(b"{") else None
    return _kind_of_fields(made.__contains__) if isinstance(made, dict) else None


def _kind_of_fields(has: Callable[[str], bool]) -> LogKind | None:
    return LogKind.TRANSACTIONS if has("ops") else LogKind.EVENTS if has("op") else None
