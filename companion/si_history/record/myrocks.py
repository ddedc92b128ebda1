"""MyRocks: MariaDB's engine on RocksDB, in a server of its own on a socket.

A transaction's first statement takes its snapshot. The least time that it can be told to wait for a lock is a second, so the
recorder itself refuses a write of a row that another open transaction wrote.
"""

from __future__ import annotations

from collections.abc import Iterator, Sequence
from contextlib import contextmanager
from pathlib import Path
from typing import Any

from si_history.record import drivers, mariadb
from si_history.record.local import Choice, Holders, Kind, LocalStore, Opened
from si_history.record.model import Aborted, StoreFault
from si_history.record.server import INSTALL
from si_history.record.sql import CREATE, FILL, Cell, SqlConnection

TITLE = "MyRocks"
REPEATABLE_READ, READ_COMMITTED = "repeatable read", "read committed"
CONSISTENT = "consistent snapshot"
ENGINE = "ha_rocksdb.so"
# Where tools/install_databases.sh puts the engine, and where Debian's package does.
PLACES = (Path("/usr/local/lib/si-history"), Path("/usr/lib/mysql/plugin"))
SERVING = ("--skip-networking", "--performance-schema=OFF", "--plugin-maturity=alpha", f"--plugin-load-add=rocksdb={ENGINE}",
           "--rocksdb-flush-log-at-trx-commit=0")
# The numbers of errors by which a statement is refused for another transaction's sake.
LOCK_WAIT_TIMEOUT = 1205
ENDING = mariadb.ENDING | {LOCK_WAIT_TIMEOUT}


@contextmanager
def opened(choice: Choice) -> Iterator[Opened]:
    """A store in a server of its own."""
    place = next((place for place in PLACES if (place / ENGINE).is_file()), None)
    if place is None:
        raise StoreFault(f"no {TITLE} was found (there is no {PLACES[0] / ENGINE}): {INSTALL}")
    with mariadb.started(TITLE, [*SERVING, f"--plugin-dir={place}"]) as (server, words):
        yield MyrocksStore(choice, words), server.look


class MyrocksStore(LocalStore):
    """Tables of a server."""

    def __init__(self, choice: Choice, words: dict[str, Any]) -> None:
        super().__init__()
        self.choice = choice
        self.words = words
        self.driver = drivers.load(TITLE, mariadb.DRIVERS)
        self.holders = Holders()

    def version(self) -> str:
        session = MyrocksConnection(self)
        [(version,)] = session.told("SELECT VERSION()")
        session.close()
        return str(version).split("-")[0]

    def prepare(self, keys: Sequence[int]) -> None:
        session = MyrocksConnection(self)
        for table in range(self.choice.tables):
            session.told(f"{CREATE.format(table)} ENGINE=RocksDB")
        for key in keys:
            session.change(FILL.format(key % self.choice.tables), (key,))
        session.close()

    def connect(self) -> MyrocksConnection:
        session = MyrocksConnection(self)
        session.told(f"SET SESSION TRANSACTION ISOLATION LEVEL {self.choice.level.upper()}")
        session.told("SET SESSION rocksdb_lock_wait_timeout = 1")
        return session

    def is_late(self, is_reader: bool) -> bool:
        return not (is_reader and CONSISTENT in self.choice.settings)

    def close(self) -> None:
        """The tables go with the server."""


class MyrocksConnection(SqlConnection):
    """One session."""

    def __init__(self, store: MyrocksStore) -> None:
        super().__init__(store.choice.tables)
        self._store = store
        try:
            self._connection: Any = store.driver.connect(
                **store.words, autocommit=True, connect_timeout=10, client_flag=store.driver.constants.CLIENT.FOUND_ROWS)
            self._cursor = self._connection.cursor()
        except (store.driver.Error, OSError) as fault:
            raise StoreFault(f"no connection to {TITLE}: {drivers.first_line(fault)}") from None

    def begin(self, number: int, is_reader: bool) -> None:
        self.told("START TRANSACTION" if self._store.is_late(is_reader) else "START TRANSACTION WITH CONSISTENT SNAPSHOT")

    def commit(self, number: int) -> None:
        self.told("COMMIT")
        self._store.holders.let_go(self)

    def rollback(self) -> None:
        self.told("ROLLBACK")
        self._store.holders.let_go(self)

    def close(self) -> None:
        try:
            self._connection.close()
        except (self._store.driver.Error, OSError):
            return

    def claim(self, key: int) -> None:
        if not self._store.holders.is_free(key, self):
            raise Aborted("the row is held by another transaction")

    def ask(self, statement: str, values: tuple[int, ...]) -> list[tuple[Cell, ...]]:
        return self.told(statement.replace("?", "%s"), values)

    def change(self, statement: str, values: tuple[int, ...]) -> int:
        self.told(statement.replace("?", "%s"), values)
        return int(self._cursor.rowcount)

    def told(self, statement: str, values: tuple[int, ...] = ()) -> list[tuple[Any, ...]]:
        """Has the server do a statement, and answers its rows. Raises Aborted or StoreFault where it fails."""
        try:
            self._cursor.execute(statement, values)
            return list(self._cursor.fetchall())
        except (self._store.driver.Error, OSError) as fault:
            raise self._meant(fault) from None

    def _meant(self, fault: Exception) -> Exception:
        """What a fault of the driver means."""
        if fault.args and fault.args[0] in ENDING:
            return Aborted(drivers.first_line(fault))
        if not self._connection.open:
            return drivers.broken(TITLE, fault)
        return StoreFault(f"{TITLE}: {drivers.first_line(fault)}")


KIND = Kind(
    "myrocks", TITLE,
    {REPEATABLE_READ: "its REPEATABLE READ", READ_COMMITTED: "its READ COMMITTED, as a control"},
    {CONSISTENT: "those that only read say START TRANSACTION WITH CONSISTENT SNAPSHOT, which takes the snapshot at once"},
    most_tables=4, has_threads=False, opened=opened)
