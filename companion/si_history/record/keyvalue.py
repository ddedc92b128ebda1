"""Sessions of stores of keys and values: how a row is a value, and what a transaction does by way of getting and setting."""

from __future__ import annotations

import struct
from abc import ABC, abstractmethod

from si_history.record.model import NOBODY, Row

# Keys sort as their numbers do. A value has the writer, and whether that one deleted the key.
_KEY = struct.Struct(">Q")
_VALUE = struct.Struct(">Q?")

FIRST_VALUE = _VALUE.pack(NOBODY, False)


def packed(key: int) -> bytes:
    """A key, as the store has it."""
    return _KEY.pack(key)


class KeyValueConnection(ABC):
    """One session."""

    @abstractmethod
    def get(self, key: bytes, is_to_be_set: bool) -> bytes | None:
        """The value of a key. Raises Aborted or StoreFault where it fails."""

    @abstractmethod
    def pairs(self, low: bytes, high: bytes) -> list[tuple[bytes, bytes]]:
        """All keys from `low` to `high` with their values, ascending. Raises Aborted or StoreFault where it fails."""

    @abstractmethod
    def set(self, key: bytes, value: bytes) -> None:
        """Gives a key a value. Raises Aborted or StoreFault where it fails."""

    def read(self, key: int) -> Row | None:
        value = self.get(packed(key), is_to_be_set=False)
        return None if value is None else _row(packed(key), value)

    def scan(self, low: int, high: int) -> list[Row]:
        return [_row(key, value) for key, value in self.pairs(packed(low), packed(high))]

    def insert(self, key: int, number: int) -> None:
        self.update(key, number, is_gone=False)

    def update(self, key: int, number: int, is_gone: bool) -> None:
        self.set(packed(key), _VALUE.pack(number, is_gone))

    def put(self, key: int, number: int) -> None:
        self.update(key, number, is_gone=False)

    def bump(self, key: int, number: int) -> int:
        """Not one statement, but a get that says what it is for, and a set."""
        value = self.get(packed(key), is_to_be_set=True)
        self.put(key, number)
        return NOBODY if value is None else _row(packed(key), value).writer


def _row(key: bytes, value: bytes) -> Row:
    writer, is_gone = _VALUE.unpack(value[:_VALUE.size])
    return Row(_KEY.unpack(key)[0], writer, is_gone)
