"""A line that explains a finding, with names."""

from __future__ import annotations

from si_history.history import Abort, Commit, Event, RangeRead, Read, Write, event_of
from si_history.naming import Names, tight
from si_history.reasons import NUMBERED
from si_history.report import BOUNDS, Edge, Placed, Reason, Started, Version


def told(reason: Reason, names: Names) -> str:
    """The line that gives the reason, without the two spaces before it. Without a legend it is that of the report."""
    return _Writer(names).line(reason)


def told_remark(remark: str, names: Names) -> str:
    """A line that is no known reason, with names for the events and transactions in it. What else it has stays as it is."""
    writer = _Writer(names)
    return NUMBERED.sub(lambda found: writer.numbered(found[1], found[2], found[3]), remark)


class _Writer:
    def __init__(self, names: Names) -> None:
        self._names = names

    def numbered(self, transaction: str | None, place: str | None, token: str | None) -> str:
        """A transaction, an event with its token, or an event's place alone, each given by its number."""
        if transaction is not None:
            return f"transaction {self._transaction(int(transaction))}"
        where = self._names.event(int(place or 0))
        return where if token is None else f"{where} {self._event(event_of(token, 1))}"

    def line(self, reason: Reason) -> str:
        if reason.head in BOUNDS:
            return f"{self._head(reason)} {': '.join(map(self._part, reason.parts))}"
        return f"{self._head(reason)}: {'; '.join(map(self._part, reason.parts))}"

    def _head(self, reason: Reason) -> str:
        head = reason.head
        if isinstance(head, Edge):
            return f"{self._transaction(head.source)} >{head.kind.value}:{self._key(head.key)}> {self._transaction(head.target)}"
        return str(head.value)

    def _part(self, part: Placed | Version | Started) -> str:
        if isinstance(part, Started):
            return f"transaction {self._transaction(part.transaction)} starts after {self._names.event(part.after)}"
        if isinstance(part, Version):
            return ", ".join(self._placed(each) for each in (part.write, part.end) if each is not None)
        return self._placed(part)

    def _placed(self, placed: Placed) -> str:
        return f"{self._names.event(placed.place)} {self._event(placed.event)}"

    def _event(self, event: Event) -> str:
        """An event in words, with the log's names. Without a legend it is its token, as in the report."""
        if not self._names.has_legend:
            return str(event)
        name = self._transaction(event.transaction)
        match event:
            case Read():
                return f"{name} read {self._key(event.key)} and saw {self._version(event.saw)}"
            case RangeRead():
                sights = "".join(f" and saw {self._version(saw)} of {self._key(key)}" for key, saw in event.listed)
                return f"{name} read {self._key(event.low)} to {self._key(event.high)}{sights}"
            case Write():
                return f"{name} wrote {self._key(event.key)}"
            case Commit():
                return f"{name} committed"
            case Abort():
                return f"{name} aborted"
        return f"{name} began"

    def _version(self, number: int) -> str:
        return f"{self._transaction(number)}'s version" if number else "the initial version"

    def _transaction(self, number: int) -> str:
        return tight(self._names.transaction(number))

    def _key(self, number: int) -> str:
        return tight(self._names.key(number))
