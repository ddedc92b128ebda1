"""A history that grows smaller and stays one: what is left when some of its events are left out.

A history is held as a trace: its events, with each transaction's start as a begin at the place where it started. So an event can be
left out and no snapshot moves. What is left is closed: a read of a version that isn't written any more is left out too.
"""

from __future__ import annotations

from collections.abc import Iterable, Sequence, Set

from si_history.facts import Facts, version_seen
from si_history.history import Begin, Commit, Event, RangeRead, Read, Write

Trace = tuple[Event, ...]


def trace_of(events: Sequence[Event]) -> Trace:
    """A history as a trace."""
    begins: dict[int, list[Event]] = {}
    for transaction in Facts(events).transactions.values():
        begins.setdefault(transaction.start, []).append(Begin(transaction.number))
    trace = list(begins.get(0, ()))
    for place, event in enumerate(events, 1):
        if not isinstance(event, Begin):
            trace.append(event)
        trace += begins.get(place, ())
    return tuple(trace)


def closed(trace: Iterable[Event]) -> Trace:
    """A trace without the reads of versions that nothing before them wrote."""
    written: set[tuple[int, int]] = set()
    kept: list[Event] = []
    for event in trace:
        if isinstance(event, Write):
            written.add((event.transaction, event.key))
        if all(saw == 0 or (saw, key) in written for key, saw in _sightings(event)):
            kept.append(event)
    return tuple(kept)


def events_of(trace: Trace) -> list[Event]:
    """The history that a trace is. A begin stands in it only where some transaction commits before the next event of its own."""
    commits, begun, started, wanted = 0, dict[int, int](), set[int](), set[int]()
    for event in trace:
        number = event.transaction
        if isinstance(event, Begin):
            begun[number] = commits
            continue
        if number not in started and begun.get(number, commits) < commits:
            wanted.add(number)
        started.add(number)
        commits += isinstance(event, Commit)
    return [event for event in trace if not isinstance(event, Begin) or event.transaction in wanted]


def of_transactions(trace: Trace, kept: Set[int]) -> Trace:
    """What these transactions did, as far as it can be told without the others."""
    return closed(event for event in trace if event.transaction in kept)


def of_keys(trace: Trace, keys: Set[int]) -> Trace:
    """What was done with these keys. A read of a range becomes reads of those of them that are in it."""
    return closed(part for event in trace for part in _parts(event, keys))


def _parts(event: Event, keys: Set[int]) -> Iterable[Event]:
    if isinstance(event, Read | Write):
        return (event,) if event.key in keys else ()
    if isinstance(event, RangeRead):
        covered = sorted(key for key in keys if event.low <= key <= event.high)
        return [_read_of(event, key, dict(event.listed)) for key in covered]
    return (event,)


def _read_of(event: RangeRead, key: int, listed: dict[int, int]) -> Event:
    """What a read of a range says of one key. That a key isn't listed stays so."""
    saw = listed.get(key)
    return RangeRead(event.transaction, key, key) if saw is None else Read(event.transaction, key, saw)


def writers_seen(trace: Trace, readers: Set[int], keys: Set[int]) -> set[int]:
    """The transactions whose versions of these keys the readers saw."""
    seen = {version_seen(event, key) for event in trace if event.transaction in readers for key in keys}
    return {number for number in seen if number}


def _sightings(event: Event) -> Iterable[tuple[int, int]]:
    """The keys that an event names as seen, with the versions."""
    if isinstance(event, Read):
        return ((event.key, event.saw),)
    return event.listed if isinstance(event, RangeRead) else ()
