"""What a store's log tells of: reads, ranges and writes, in the log's own names."""

from __future__ import annotations

from collections.abc import Iterable
from dataclasses import dataclass

from si_history.keys import Key

# A key that was seen, and the name of the transaction that wrote the version seen: None where no transaction did.
Sighting = tuple[Key, str | None]


@dataclass(slots=True)
class ReadOperation:
    """One key was read. In a log of values `value` is what was seen, by which `writer` is found."""

    key: Key
    writer: str | None
    value: Key = None


@dataclass(slots=True)
class RangeOperation:
    """All keys from `low` to `high`, both included, were read; those that are not in `found` weren't there.

    In a log of values `values` has what was seen of each key, by which `found` is made.
    """

    low: Key
    high: Key
    found: list[Sighting]
    values: list[tuple[Key, Key]] | None = None


@dataclass(slots=True)
class WriteOperation:
    """A key was written. In a log of values `value` is what was written."""

    key: Key
    value: Key = None


Operation = ReadOperation | RangeOperation | WriteOperation


def sightings(operation: Operation) -> Iterable[Sighting]:
    """The keys that an operation names as seen, with the writers of their versions."""
    if isinstance(operation, ReadOperation):
        return ((operation.key, operation.writer),)
    if isinstance(operation, RangeOperation):
        return operation.found
    return ()
