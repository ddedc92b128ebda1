"""Whether a history, its report and its legend go together, so that no name is told of what it doesn't belong to."""

from __future__ import annotations

from collections.abc import Iterable

from si_history.errors import in_source
from si_history.facts import Facts, mismatch, version_seen
from si_history.files import read_text, source_name
from si_history.history import Event, RangeRead, parse
from si_history.limits import GREATEST
from si_history.naming import Names
from si_history.progress import Progress
from si_history.report import BadRead, Placed, Reason, Report, Started, Unexplained, Version


def read_history(path: str, names: Names) -> Facts:
    """What the history in a file says. Raises BadInput where it is none, or not the one that the names are of."""
    with in_source(source_name(path)), Progress("events of the history") as progress:
        text = read_text(path, GREATEST.bytes)
        names.check_history(text.encode())
        return Facts(parse(text, progress, GREATEST))


def check_report(report: Report, facts: Facts) -> None:
    """Raises BadInput where the report is not that of the history: by its counts, its findings, and their reasons."""
    facts.check(report.counts)
    reads: list[BadRead | Unexplained] = [*report.bad_reads, *report.unexplained]
    for read in reads:
        facts.check_read(read.place, read.transaction, read.key, read.saw)
        _check_reasons(read.reasons, facts)
    for write in report.bad_writes:
        facts.first_write(write.first, write.key)
        facts.first_write(write.second, write.key)
        _check_reasons(write.reasons, facts)
    for snapshot in report.snapshots:
        facts.transaction(snapshot.transaction)
        _check_reasons(snapshot.reasons, facts)
    for path in (report.cycle, report.structure):
        if path is not None:
            for number in path.transactions:
                facts.transaction(number)
            _check_reasons(path.reasons, facts)


def _check_reasons(reasons: Iterable[Reason], facts: Facts) -> None:
    """Raises BadInput where an event that a reason names is another one in the history."""
    for reason in reasons:
        for part in reason.parts:
            if isinstance(part, Started):
                if facts.transaction(part.transaction).start != part.after:
                    raise mismatch(f"transaction {part.transaction} does not start after event {part.after}")
                continue
            for placed in (part.write, part.end) if isinstance(part, Version) else (part,):
                if placed is not None:
                    _check_event(placed, facts.event(placed.place))


def _check_event(placed: Placed, event: Event) -> None:
    """Raises BadInput where the event at a place is another one. A range of a reason lists at most one of its keys."""
    told = placed.event
    if isinstance(told, RangeRead) and isinstance(event, RangeRead):
        is_same = (told.transaction, told.low, told.high) == (event.transaction, event.low, event.high)
        is_same = is_same and all(version_seen(event, key) == saw for key, saw in told.listed)
    else:
        is_same = told == event
    if not is_same:
        raise mismatch(f"event {placed.place} is {event}, and in the report {told}")
