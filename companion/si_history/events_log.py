"""The log of events: one event a line, in the order in which the store recorded them."""

from __future__ import annotations

from dataclasses import dataclass
from typing import BinaryIO

from si_history.errors import quoted
from si_history.keys import Key
from si_history.log_lines import LogLine, LogTally, log_lines
from si_history.operations import Operation, ReadOperation, WriteOperation
from si_history.policy import STRICT, Policy

# The fields of each kind of event, beside "txn" and "op".
FIELDS = {
    "begin": ("start",),
    "read": ("key", "saw"),
    "range": ("from", "to", "found"),
    "write": ("key",),
    "commit": (),
    "abort": (),
}
# Where versions are named by values, the value takes the writer's place.
VALUE_FIELDS = FIELDS | {"read": ("key", "value"), "write": ("key", "value")}


def _known(fields: dict[str, tuple[str, ...]]) -> tuple[dict[str, set[str]], set[str]]:
    """The fields of each kind of event, and of all of them."""
    known = {kind: {"txn", "op", *names} for kind, names in fields.items()}
    return known, set().union(*known.values())


KNOWN = {False: _known(FIELDS), True: _known(VALUE_FIELDS)}


@dataclass(slots=True)
class BeginRecord:
    """A transaction began. `commits_seen` is how many of the log's commits its snapshot has, where the log tells."""

    commits_seen: int | None


@dataclass(slots=True)
class EndRecord:
    """A transaction ended, with a commit or without."""

    is_commit: bool


@dataclass(slots=True)
class LogEvent:
    """One event of the log: its line, its transaction's name, what was done, and fields beside that mean nothing here."""

    line: int
    transaction: str
    action: Operation | BeginRecord | EndRecord
    others: dict[str, object] | None = None


@dataclass(slots=True)
class EventsLog:
    """A whole log: its events in order, and what is kept over all lines."""

    events: list[LogEvent]
    tally: LogTally

    def first_writes(self) -> dict[tuple[str, Key], int]:
        """The first line of each write by transaction and key."""
        writes: dict[tuple[str, Key], int] = {}
        for event in self.events:
            if isinstance(event.action, WriteOperation):
                writes.setdefault((event.transaction, event.action.key), event.line)
        return writes


def read_events_log(file: BinaryIO, policy: Policy = STRICT) -> EventsLog:
    """Reads a log of events. Raises BadInput at the first line that can't come next."""
    tally = LogTally(limits=policy.limits)
    events: list[LogEvent] = []
    first_lines: dict[str, int] = {}
    ends: dict[str, int] = {}
    commits = 0
    for line in log_lines(file, tally, "events", policy):
        event = _event_of(line)
        tally.count(1, line.number)
        name, action = event.transaction, event.action
        if name in ends:
            line.refuse(f"the transaction {quoted(name)} ended at line {ends[name]}")
        if isinstance(action, BeginRecord):
            _check_begin(line, name, action, first_lines, commits)
        elif isinstance(action, EndRecord):
            ends[name] = line.number
            commits += action.is_commit
        first_lines.setdefault(name, line.number)
        events.append(event)
    return EventsLog(events, tally)


def _event_of(line: LogLine) -> LogEvent:
    """What one line tells."""
    name = line.name(line.get("txn"), '"txn"')
    kind = line.get("op")
    if not isinstance(kind, str) or kind not in FIELDS:
        line.refuse(f'"op" is none of {", ".join(FIELDS)}')
    known, ours = KNOWN[line.tally.by_values]
    others = line.others(known[kind], ours)
    return LogEvent(line.number, name, _action_of(line, kind), others)


def _action_of(line: LogLine, kind: str) -> Operation | BeginRecord | EndRecord:
    """What was done, by the kind of the event."""
    if kind == "read":
        key = line.key(line.get("key"), '"key"')
        if line.tally.by_values:
            return ReadOperation(key, None, line.value(line.get("value"), '"value"'))
        return ReadOperation(key, line.writer(line.get("saw"), '"saw"'))
    if kind == "write":
        key = line.key(line.get("key"), '"key"')
        return WriteOperation(key, line.written(line.get("value"), '"value"') if line.tally.by_values else None)
    if kind == "range":
        return line.range_of(line.get("from"), line.get("to"), line.get("found"), ('"from"', '"to"', '"found"'))
    if kind == "begin":
        return BeginRecord(line.whole_or_null(line.fields.get("start"), '"start"'))
    return EndRecord(kind == "commit")


def _check_begin(line: LogLine, name: str, begin: BeginRecord, first_lines: dict[str, int], commits: int) -> None:
    """Refuses a begin that isn't its transaction's first event, and one that saw what wasn't there."""
    if name in first_lines:
        line.refuse(f"the transaction {quoted(name)} has begun at line {first_lines[name]}")
    if begin.commits_seen is not None and not 0 <= begin.commits_seen <= commits:
        line.refuse(f'"start" is {begin.commits_seen}, and the number of commits before this line is {commits}')
