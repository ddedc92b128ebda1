"""Berkeley DB: an environment of its own with one tree. Nothing waits for a lock, and locks are of pages.

A transaction's first read of a page takes its snapshot, and not its begin. Pages are small and values are padded, so that few
keys share a page.
"""

from __future__ import annotations

from collections.abc import Callable, Sequence
from pathlib import Path
from typing import Any

from si_history.record import drivers
from si_history.record.keyvalue import FIRST_VALUE, KeyValueConnection, packed
from si_history.record.local import MEGABYTE, Choice, Kind, LocalStore, in_folder
from si_history.record.model import Aborted, StoreFault

TITLE = "Berkeley DB"
SNAPSHOT, LOCKS, COMMITTED, UNCOMMITTED = "snapshot", "locks", "read committed", "read uncommitted"
READERS_ONLY = "readers only"
PAGE, PADDING, CACHE, MOST_LOCKS, MOST_TRANSACTIONS = 512, b"x" * 100, 64 * MEGABYTE, 20_000, 1_000


class BerkeleyStore(LocalStore):
    """An environment of Berkeley DB's."""

    def __init__(self, choice: Choice, place: Path) -> None:
        super().__init__()
        self.choice = choice
        self.driver = drivers.load(TITLE, ["bsddb3.db", "berkeleydb.db"])
        self.environment, self.tree = self._opened(place)

    def _opened(self, place: Path) -> tuple[Any, Any]:
        """The environment and the tree."""
        db = self.driver
        environment = db.DBEnv()
        environment.set_cachesize(0, CACHE)
        for limit in (environment.set_lk_max_locks, environment.set_lk_max_objects, environment.set_lk_max_lockers):
            limit(MOST_LOCKS)
        environment.set_tx_max(MOST_TRANSACTIONS)
        environment.set_flags(db.DB_TXN_NOSYNC, 1)
        environment.open(str(place), db.DB_CREATE | db.DB_INIT_MPOOL | db.DB_INIT_LOCK | db.DB_INIT_LOG | db.DB_INIT_TXN
                         | db.DB_PRIVATE | db.DB_THREAD)
        tree = db.DB(environment)
        tree.set_pagesize(PAGE)
        more = {SNAPSHOT: db.DB_MULTIVERSION, UNCOMMITTED: db.DB_READ_UNCOMMITTED}.get(self.choice.level, 0)
        tree.open("store", None, db.DB_BTREE, db.DB_CREATE | db.DB_AUTO_COMMIT | db.DB_THREAD | more)
        return environment, tree

    def version(self) -> str:
        return ".".join(str(part) for part in self.driver.version())

    def prepare(self, keys: Sequence[int]) -> None:
        for key in keys:
            transaction = self.environment.txn_begin()
            self.tree.put(packed(key), FIRST_VALUE + PADDING, transaction)
            transaction.commit()

    def connect(self) -> BerkeleyConnection:
        return BerkeleyConnection(self)

    def is_late(self, is_reader: bool) -> bool:
        return True

    def flags(self, is_reader: bool) -> int:
        """What a transaction is begun with."""
        db, flags = self.driver, self.driver.DB_TXN_NOWAIT
        if self.choice.level == SNAPSHOT and (is_reader or READERS_ONLY not in self.choice.settings):
            flags |= db.DB_TXN_SNAPSHOT
        return int(flags | {COMMITTED: db.DB_READ_COMMITTED, UNCOMMITTED: db.DB_READ_UNCOMMITTED}.get(self.choice.level, 0))

    def close(self) -> None:
        self.tree.close()
        self.environment.close()


class BerkeleyConnection(KeyValueConnection):
    """One session."""

    def __init__(self, store: BerkeleyStore) -> None:
        self._store = store
        self._transaction: Any = None
        self._is_locking = False

    def begin(self, number: int, is_reader: bool) -> None:
        flags = self._store.flags(is_reader)
        self._transaction = self._store.environment.txn_begin(None, flags)
        self._is_locking = not flags & self._store.driver.DB_TXN_SNAPSHOT

    def get(self, key: bytes, is_to_be_set: bool) -> bytes | None:
        flags = self._store.driver.DB_RMW if is_to_be_set and self._is_locking else 0
        value: bytes | None = self._done(self._store.tree.get, key, txn=self._transaction, flags=flags)
        return value

    def pairs(self, low: bytes, high: bytes) -> list[tuple[bytes, bytes]]:
        found = []
        cursor = self._done(self._store.tree.cursor, self._transaction)
        try:
            pair = self._done(cursor.set_range, low)
            while pair is not None and pair[0] <= high:
                found.append(pair)
                pair = self._done(cursor.next)
        finally:
            cursor.close()
        return found

    def set(self, key: bytes, value: bytes) -> None:
        self._done(self._store.tree.put, key, value + PADDING, self._transaction)

    def commit(self, number: int) -> None:
        transaction, self._transaction = self._transaction, None
        self._done(transaction.commit)

    def rollback(self) -> None:
        if self._transaction is not None:
            self._transaction.abort()
            self._transaction = None

    def close(self) -> None:
        self.rollback()

    def _done(self, call: Callable[..., Any], *words: object, **more: object) -> Any:
        """What a call answers. Raises Aborted or StoreFault where it fails."""
        driver = self._store.driver
        try:
            return call(*words, **more)
        except (driver.DBLockDeadlockError, driver.DBLockNotGrantedError) as fault:
            raise Aborted(f"{TITLE}: {drivers.first_line(fault)}") from None
        except driver.DBError as fault:
            raise StoreFault(f"{TITLE}: {drivers.first_line(fault)}") from None


KIND = Kind(
    "berkeley", TITLE,
    {SNAPSHOT: "DB_MULTIVERSION, and transactions with DB_TXN_SNAPSHOT", LOCKS: "locks of pages, as by default",
     COMMITTED: "DB_READ_COMMITTED, as a control", UNCOMMITTED: "DB_READ_UNCOMMITTED, as a control"},
    {READERS_ONLY: "at the level snapshot those that write have no snapshot but locks, as its manual proposes"},
    most_tables=1, has_threads=False, opened=in_folder(BerkeleyStore))
