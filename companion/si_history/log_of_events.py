"""A history as a log of events, with names, which `from-events` reads.

Keys that are no numbers are written by their names. Where a range has several of them, a header says in which order they lie.
"""

from __future__ import annotations

import json
from collections.abc import Sequence

from si_history.history import Abort, Begin, Commit, Event, RangeRead, Read, Write
from si_history.legend import Legend


class EventsWriter:
    """Writes events by the names of a legend, or by their numbers without one."""

    def __init__(self, legend: Legend | None) -> None:
        self._legend = legend or Legend()
        self._keys_are_numbers = all(name == str(number) for number, name in self._legend.keys.items())

    def log(self, events: Sequence[Event]) -> str:
        """The log: one event a line. A begin stands where the snapshot was taken."""
        lines = [*self._header(events), *map(self._fields, events)]
        return "".join(f"{json.dumps(line, ensure_ascii=False)}\n" for line in lines)

    def _header(self, events: Sequence[Event]) -> list[dict[str, object]]:
        """The order of the keys, where it matters."""
        if self._keys_are_numbers or not any(isinstance(event, RangeRead) and event.low < event.high for event in events):
            return []
        return [{"key_order": [self._key(number) for number in sorted({key for event in events for key in _keys(event)})]}]

    def _fields(self, event: Event) -> dict[str, object]:
        name = {"txn": self._legend.transaction(event.transaction)}
        match event:
            case Begin():
                return {**name, "op": "begin"}
            case Read():
                return {**name, "op": "read", "key": self._key(event.key), "saw": self._writer(event.saw)}
            case RangeRead():
                found = [[self._key(key), self._writer(saw)] for key, saw in event.listed]
                return {**name, "op": "range", "from": self._key(event.low), "to": self._key(event.high), "found": found}
            case Commit():
                return {**name, "op": "commit"}
            case Abort():
                return {**name, "op": "abort"}
        return {**name, "op": "write", "key": self._key(event.key)}

    def _key(self, number: int) -> int | str:
        return number if self._keys_are_numbers else self._legend.key(number)

    def _writer(self, number: int) -> str | None:
        return self._legend.transaction(number) if number else None


def _keys(event: Event) -> list[int]:
    """The keys that an event names."""
    if isinstance(event, RangeRead):
        return [event.low, event.high, *(key for key, _ in event.listed)]
    return [event.key] if isinstance(event, Read | Write) else []
