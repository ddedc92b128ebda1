"""RocksDB's two databases with transactions, optimistic and pessimistic. Nothing waits longer than a millisecond for a lock.

The begin takes the snapshot, by set_snapshot, and each read names it. An iterator reads a range, and is never checked.
"""

from __future__ import annotations

import ctypes
from collections.abc import Sequence
from pathlib import Path

from si_history.record.keyvalue import FIRST_VALUE, KeyValueConnection, packed
from si_history.record.local import Choice, Kind, LocalStore, in_folder
from si_history.record.rocksdb_client import Client, Handle

TITLE = "RocksDB"
OPTIMISTIC, PESSIMISTIC, NO_SNAPSHOT = "optimistic", "pessimistic", "no snapshot"
FOR_UPDATE, KEY_BY_KEY = "get for update", "ranges by key"
LOCK_MILLISECONDS = 1


class RocksdbStore(LocalStore):
    """A database of RocksDB's."""

    def __init__(self, choice: Choice, place: Path) -> None:
        super().__init__()
        self.choice = choice
        self.client = Client()
        self.kind = "optimistictransaction" if choice.level == OPTIMISTIC else "transaction"
        call = self.client.call
        options = call("options_create")
        call("options_set_create_if_missing", options, 1)
        self.write_options = call("writeoptions_create")
        more = [] if choice.level == OPTIMISTIC else [call("transactiondb_options_create")]
        self.database = self.client.tried(f"{self.kind}db_open", options, *more, str(place / "store").encode())
        self.options = call(f"{self.kind}_options_create")
        call(f"{self.kind}_options_set_set_snapshot", self.options, int(choice.level != NO_SNAPSHOT))
        if choice.level != OPTIMISTIC:
            call("transaction_options_set_lock_timeout", self.options, LOCK_MILLISECONDS)

    def version(self) -> str:
        return self.client.version()

    def prepare(self, keys: Sequence[int]) -> None:
        session = self.connect()
        session.begin(0, is_reader=False)
        for key in keys:
            session.set(packed(key), FIRST_VALUE)
        session.commit(0)

    def connect(self) -> RocksdbConnection:
        return RocksdbConnection(self)

    def is_late(self, is_reader: bool) -> bool:
        return self.choice.level == NO_SNAPSHOT

    def close(self) -> None:
        self.client.call(f"{self.kind}db_close", self.database)


class RocksdbConnection(KeyValueConnection):
    """One session."""

    def __init__(self, store: RocksdbStore) -> None:
        self._store = store
        self._client = store.client
        self._transaction: Handle = None
        self._read_options: Handle = None
        self._is_reader = False

    def begin(self, number: int, is_reader: bool) -> None:
        store, call = self._store, self._client.call
        self._is_reader = is_reader
        self._transaction = call(f"{store.kind}_begin", store.database, store.write_options, store.options, None)
        self._read_options = call("readoptions_create")
        if store.choice.level != NO_SNAPSHOT:
            snapshot = call("transaction_get_snapshot", self._transaction)
            call("readoptions_set_snapshot", self._read_options, snapshot)
            call("free", snapshot)

    def get(self, key: bytes, is_to_be_set: bool) -> bytes | None:
        length = ctypes.c_size_t()
        words = [self._transaction, self._read_options, key, len(key), ctypes.byref(length)]
        if is_to_be_set or (FOR_UPDATE in self._store.choice.settings and not self._is_reader):
            value = self._client.tried("transaction_get_for_update", *words, 1)
        else:
            value = self._client.tried("transaction_get", *words)
        return self._client.taken(value, length.value)

    def pairs(self, low: bytes, high: bytes) -> list[tuple[bytes, bytes]]:
        if KEY_BY_KEY in self._store.choice.settings:
            keys = map(packed, range(int.from_bytes(low, "big"), int.from_bytes(high, "big") + 1))
            return [(key, value) for key in keys if (value := self.get(key, is_to_be_set=False)) is not None]
        return self._client.pairs(self._transaction, self._read_options, low, high)

    def set(self, key: bytes, value: bytes) -> None:
        self._client.tried("transaction_put", self._transaction, key, len(key), value, len(value))

    def commit(self, number: int) -> None:
        self._client.tried("transaction_commit", self._transaction)
        self._ended()

    def rollback(self) -> None:
        if self._transaction is not None:
            self._client.tried("transaction_rollback", self._transaction)
            self._ended()

    def close(self) -> None:
        self.rollback()

    def _ended(self) -> None:
        self._client.call("transaction_destroy", self._transaction)
        self._client.call("readoptions_destroy", self._read_options)
        self._transaction = self._read_options = None


KIND = Kind(
    "rocksdb", TITLE,
    {OPTIMISTIC: "OptimisticTransactionDB with set_snapshot", PESSIMISTIC: "TransactionDB with set_snapshot",
     NO_SNAPSHOT: "TransactionDB without set_snapshot, as a control"},
    {FOR_UPDATE: "those that write read each key by GetForUpdate",
     KEY_BY_KEY: "a range is read key by key, and by no iterator"},
    most_tables=1, has_threads=True, opened=in_folder(RocksdbStore))
