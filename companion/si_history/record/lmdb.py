"""LMDB: an environment of its own. The begin takes the snapshot, and one transaction that writes may be open.

A second one waits without an end, and one thread would wait for itself. So the recorder refuses it.
"""

from __future__ import annotations

from collections.abc import Sequence
from pathlib import Path
from typing import Any

from si_history.record import drivers
from si_history.record.keyvalue import FIRST_VALUE, KeyValueConnection, packed
from si_history.record.local import MEGABYTE, Choice, Holders, Kind, LocalStore, in_folder
from si_history.record.model import Aborted, StoreFault

TITLE = "LMDB"
ROOM = 64 * MEGABYTE
MOST_READERS = 200
WRITER = 0


class LmdbStore(LocalStore):
    """An environment of LMDB's."""

    def __init__(self, choice: Choice, place: Path) -> None:
        super().__init__()
        self.driver = drivers.load(TITLE, ["lmdb"])
        self.writers = Holders()
        try:
            self.environment = self.driver.open(str(place), map_size=ROOM, sync=False, max_readers=MOST_READERS)
        except self.driver.Error as fault:
            raise StoreFault(f"{TITLE}: {drivers.first_line(fault)}") from None

    def version(self) -> str:
        return ".".join(str(part) for part in self.driver.version())

    def prepare(self, keys: Sequence[int]) -> None:
        with self.environment.begin(write=True) as transaction:
            for key in keys:
                transaction.put(packed(key), FIRST_VALUE)

    def connect(self) -> LmdbConnection:
        return LmdbConnection(self)

    def is_late(self, is_reader: bool) -> bool:
        return False

    def close(self) -> None:
        self.environment.close()


class LmdbConnection(KeyValueConnection):
    """One session."""

    def __init__(self, store: LmdbStore) -> None:
        self._store = store
        self._transaction: Any = None

    def begin(self, number: int, is_reader: bool) -> None:
        if not is_reader and not self._store.writers.is_free(WRITER, self):
            raise Aborted("another transaction that writes is open")
        self._transaction = self._store.environment.begin(write=not is_reader)

    def get(self, key: bytes, is_to_be_set: bool) -> bytes | None:
        value: bytes | None = self._transaction.get(key)
        return value

    def pairs(self, low: bytes, high: bytes) -> list[tuple[bytes, bytes]]:
        found = []
        with self._transaction.cursor() as cursor:
            is_there = cursor.set_range(low)
            while is_there and cursor.key() <= high:
                found.append(cursor.item())
                is_there = cursor.next()
        return found

    def set(self, key: bytes, value: bytes) -> None:
        try:
            self._transaction.put(key, value)
        except self._store.driver.Error as fault:
            raise StoreFault(f"{TITLE}: {drivers.first_line(fault)}") from None

    def commit(self, number: int) -> None:
        try:
            self._transaction.commit()
        except self._store.driver.Error as fault:
            raise StoreFault(f"{TITLE}: {drivers.first_line(fault)}") from None
        self._ended()

    def rollback(self) -> None:
        if self._transaction is not None:
            self._transaction.abort()
        self._ended()

    def close(self) -> None:
        self.rollback()

    def _ended(self) -> None:
        self._transaction = None
        self._store.writers.let_go(self)


KIND = Kind("lmdb", TITLE, {"transactions": "its transactions as they are"}, {}, most_tables=1, has_threads=True,
            opened=in_folder(LmdbStore))
