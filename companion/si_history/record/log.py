"""Writes a recorded run as a log: one event a line, or one transaction a line."""

from __future__ import annotations

import json
from collections.abc import Sequence

from si_history.record.model import NOBODY, Moment, Operation, RangeDone, ReadDone, Recorded, Timeline


def transactions_log(records: Sequence[Recorded], timeline: Timeline) -> str:
    """JSON lines, one transaction a line, by their starts. Starts and commits are numbered from 1 in the store's order."""
    starts = {point.number: time for time, point in enumerate(timeline, 1) if point.moment is Moment.START}
    commits = {point.number: time for time, point in enumerate(timeline, 1) if point.moment is Moment.COMMIT}
    lines = []
    for record in sorted(records, key=lambda one: starts[one.number]):
        lines.append(json.dumps({
            "txn": name(record.number), "start": starts[record.number], "commit": commits.get(record.number),
            "aborted": not record.is_committed, "ops": [_short(operation) for operation in record.operations]}))
    return "".join(f"{line}\n" for line in lines)


def events_log(records: Sequence[Recorded], timeline: Timeline) -> str:
    """JSON lines, one event a line. Commits stand in the store's order, and a begin names how many commits were seen.

    The events stand in the order of their tickets, so a read stands behind the write that it saw. A commit stands behind
    the transaction's own events and behind the commits before it, and no further back: so before the begin of each
    transaction that sees it, whose ticket was taken when all that had happened.
    """
    by_number = {record.number: record for record in records}
    seen, rank, latest = 0, 0, 0
    placed: list[tuple[int, int, dict[str, object]]] = []
    for point in timeline:
        record = by_number[point.number]
        if point.moment is Moment.START:
            placed.append((record.begun, 0, {"txn": name(record.number), "op": "begin", "start": seen}))
            placed += [(operation.ticket, 0, _long(record.number, operation)) for operation in record.operations]
            if not record.is_committed:
                placed.append((record.ended, 0, {"txn": name(record.number), "op": "abort"}))
        else:
            seen, rank, latest = seen + 1, rank + 1, max(latest, record.ended)
            placed.append((latest, rank, {"txn": name(record.number), "op": "commit"}))
    placed.sort(key=lambda one: one[:2])
    return "".join(f"{json.dumps(event)}\n" for _, _, event in placed)


def name(number: int) -> str:
    """A transaction's name in the log."""
    return f"T{number}"


def _writer(number: int) -> str | None:
    return None if number == NOBODY else name(number)


def _found(operation: RangeDone) -> list[list[object]]:
    return [[key, _writer(saw)] for key, saw in operation.found]


def _short(operation: Operation) -> list[object]:
    """An operation, as a line of a transaction has it."""
    match operation:
        case ReadDone():
            return ["r", operation.key, _writer(operation.saw)]
        case RangeDone():
            return ["range", operation.low, operation.high, _found(operation)]
        case _:
            return ["w", operation.key]


def _long(number: int, operation: Operation) -> dict[str, object]:
    """An operation, as a line of its own."""
    match operation:
        case ReadDone():
            return {"txn": name(number), "op": "read", "key": operation.key, "saw": _writer(operation.saw)}
        case RangeDone():
            return {"txn": name(number), "op": "range", "from": operation.low, "to": operation.high, "found": _found(operation)}
        case _:
            return {"txn": name(number), "op": "write", "key": operation.key}
