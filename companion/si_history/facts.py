"""What a history says of its transactions: their starts and ends, who wrote which key where, and what a read saw.

This is for telling what a report found, and for drawing it. It judges nothing.
"""

from __future__ import annotations

import enum
from bisect import bisect_left
from collections.abc import Sequence
from dataclasses import dataclass, field

from si_history.errors import BadInput
from si_history.history import Abort, Begin, Commit, Event, RangeRead, Read, Write
from si_history.report import Counts, Edge, EdgeKind


class Fate(enum.Enum):
    """How a transaction ended."""

    COMMITTED = "committed"
    ABORTED = "aborted"
    OPEN = "open"


@dataclass(slots=True)
class Transaction:
    """A transaction of a history. `start` is the number of events recorded when it started, `places` those of its events."""

    number: int
    start: int
    fate: Fate = Fate.OPEN
    places: list[int] = field(default_factory=list)

    @property
    def end(self) -> int | None:
        """The place of its commit or abort."""
        return None if self.fate is Fate.OPEN else self.places[-1]


class Facts:
    """A history by its transactions and keys. Raises BadInput where what is asked for shows that the report is of another."""

    def __init__(self, events: Sequence[Event]) -> None:
        self._events = events
        self.transactions: dict[int, Transaction] = {}
        self._first_writes: dict[tuple[int, int], int] = {}
        for place, event in enumerate(events, 1):
            self._take(place, event)

    def _take(self, place: int, event: Event) -> None:
        number = event.transaction
        transaction = self.transactions.get(number)
        if transaction is None:
            named = event.start if isinstance(event, Begin) else None
            transaction = Transaction(number, place - 1 if named is None else named)
            self.transactions[number] = transaction
        transaction.places.append(place)
        if isinstance(event, Commit):
            transaction.fate = Fate.COMMITTED
        elif isinstance(event, Abort):
            transaction.fate = Fate.ABORTED
        elif isinstance(event, Write):
            self._first_writes.setdefault((number, event.key), place)

    def check(self, counts: Counts) -> None:
        """Raises BadInput where the history hasn't these counts, so that it isn't the one of the report."""
        fates = [transaction.fate for transaction in self.transactions.values()]
        mine = Counts(len(self._events), fates.count(Fate.COMMITTED), fates.count(Fate.ABORTED), fates.count(Fate.OPEN))
        if mine != counts:
            raise mismatch(f"it has {_in_words(mine)}, and the report {_in_words(counts)}")

    @property
    def event_count(self) -> int:
        return len(self._events)

    def event(self, place: int) -> Event:
        if not 1 <= place <= len(self._events):
            raise mismatch(f"it has no event {place}")
        return self._events[place - 1]

    def transaction(self, number: int) -> Transaction:
        found = self.transactions.get(number)
        if found is None:
            raise mismatch(f"it has no transaction {number}")
        return found

    def end(self, number: int) -> int:
        """The place of a transaction's commit or abort."""
        end = self.transaction(number).end
        if end is None:
            raise mismatch(f"transaction {number} has no end there")
        return end

    def commit(self, number: int) -> int:
        """The place of a transaction's commit."""
        if self.transaction(number).fate is not Fate.COMMITTED:
            raise mismatch(f"transaction {number} doesn't commit there")
        return self.end(number)

    def overlap(self, one: int, other: int) -> bool:
        """Whether two committed transactions overlap: each started before the other committed."""
        return self.transaction(one).start < self.commit(other) and self.transaction(other).start < self.commit(one)

    def first_write(self, number: int, key: int) -> int:
        """The place where a transaction first wrote a key."""
        place = self._first_writes.get((number, key))
        if place is None:
            raise mismatch(f"transaction {number} doesn't write key {key}")
        return place

    def touches(self, place: int, key: int) -> bool:
        """Whether the event at a place reads or writes a key."""
        event = self.event(place)
        return event.key == key if isinstance(event, Write) else version_seen(event, key) is not None

    def check_read(self, place: int, number: int, key: int, saw: int) -> None:
        """Raises BadInput where the transaction doesn't read this version of the key at this place."""
        event = self.event(place)
        if event.transaction != number or version_seen(event, key) != saw:
            raise mismatch(f"at event {place} transaction {number} doesn't see version {saw} of key {key}")

    def ends_of(self, edge: Edge) -> tuple[int, int]:
        """The places of the two events that an edge is about: one of its source's, and one of its target's."""
        if edge.kind is EdgeKind.WW:
            return self.first_write(edge.source, edge.key), self.first_write(edge.target, edge.key)
        if edge.kind is EdgeKind.WR:
            least = self.end(edge.source)
            return self.first_write(edge.source, edge.key), self._read(edge.target, edge.key, least, len(self._events))
        return self._read(edge.source, edge.key, 0, self.end(edge.target) - 1), self.first_write(edge.target, edge.key)

    def _read(self, number: int, key: int, least: int, most: int) -> int:
        """Where a transaction first read another's version of a key that was committed at a place from least to most.

        The first version of a key counts as committed at place 0.
        """
        for place in self.transaction(number).places:
            saw = version_seen(self.event(place), key)
            if saw is None or saw == number:
                continue
            if least <= 0 if saw == 0 else self._is_committed_within(saw, least, most):
                return place
        raise mismatch(f"transaction {number} has no read of key {key} that gives its edge")

    def _is_committed_within(self, number: int, least: int, most: int) -> bool:
        writer = self.transaction(number)
        return writer.fate is Fate.COMMITTED and least <= writer.places[-1] <= most


def version_seen(event: Event, key: int) -> int | None:
    """The version of a key that an event saw, if it is a read that covers the key."""
    if isinstance(event, Read):
        return event.saw if event.key == key else None
    if isinstance(event, RangeRead) and event.low <= key <= event.high:
        at = bisect_left(event.listed, (key, 0))
        return event.listed[at][1] if at < len(event.listed) and event.listed[at][0] == key else 0
    return None


def mismatch(reason: str) -> BadInput:
    """What to raise where a history is not the one that a report is of."""
    return BadInput(f"the history is not the one of the report: {reason}")


def _in_words(counts: Counts) -> str:
    return f"{counts.events} events and {counts.committed} committed, {counts.aborted} aborted, {counts.open} open transactions"
