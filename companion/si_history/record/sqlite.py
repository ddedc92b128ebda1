"""SQLite, by Python's own module: one file, and a connection for each session. No transaction waits for a lock."""

from __future__ import annotations

from collections.abc import Sequence
from pathlib import Path
from typing import Any

from si_history.record import drivers
from si_history.record.local import Choice, Kind, LocalStore, in_folder
from si_history.record.model import Aborted, StoreFault
from si_history.record.sql import CREATE, FILL, Cell, SqlConnection

TITLE = "SQLite"
WAL, DELETE, UNCOMMITTED = "wal", "delete", "read uncommitted"
IMMEDIATE = "immediate"
# While others commit, a new session may have to wait.
CONNECTING_SECONDS = 10.0
# The names of the errors by which a statement is refused for another transaction's sake.
ENDING = ("SQLITE_BUSY", "SQLITE_LOCKED", "SQLITE_CONSTRAINT_PRIMARYKEY")


class SqliteStore(LocalStore):
    """A file of SQLite's."""

    def __init__(self, choice: Choice, place: Path) -> None:
        super().__init__()
        self.driver = drivers.load(TITLE, ["sqlite3"])
        self.choice = choice
        cache = "shared" if choice.level == UNCOMMITTED else "private"
        self.url = f"{(place / 'store').as_uri()}?cache={cache}"

    def version(self) -> str:
        return str(self.driver.sqlite_version)

    def prepare(self, keys: Sequence[int]) -> None:
        session = self.connect()
        session.ask(f"PRAGMA journal_mode = {'DELETE' if self.choice.level == DELETE else 'WAL'}")
        for table in range(self.choice.tables):
            session.ask(CREATE.format(table))
        for key in keys:
            session.ask(FILL.format(key % self.choice.tables), (key,))
        session.close()

    def connect(self) -> SqliteConnection:
        return SqliteConnection(self)

    def is_late(self, is_reader: bool) -> bool:
        return is_reader or IMMEDIATE not in self.choice.settings

    def close(self) -> None:
        """The file closes with its sessions."""


class SqliteConnection(SqlConnection):
    """One session. Python's module keeps each statement prepared."""

    def __init__(self, store: SqliteStore) -> None:
        super().__init__(store.choice.tables)
        self._store = store
        try:
            self._connection: Any = store.driver.connect(
                store.url, uri=True, timeout=CONNECTING_SECONDS, isolation_level=None, check_same_thread=False)
        except store.driver.Error as fault:
            raise _meant(fault) from None
        self.ask("PRAGMA synchronous = OFF")
        if store.choice.level == UNCOMMITTED:
            self.ask("PRAGMA read_uncommitted = 1")
        self.ask("PRAGMA busy_timeout = 0")

    def begin(self, number: int, is_reader: bool) -> None:
        self.ask("BEGIN" if self._store.is_late(is_reader) else "BEGIN IMMEDIATE")

    def commit(self, number: int) -> None:
        self.ask("COMMIT")

    def rollback(self) -> None:
        if self._connection.in_transaction:
            self.ask("ROLLBACK")

    def close(self) -> None:
        self._connection.close()

    def ask(self, statement: str, values: tuple[int, ...] = ()) -> list[tuple[Cell, ...]]:
        try:
            return list(self._connection.execute(statement, values).fetchall())
        except self._store.driver.Error as fault:
            raise _meant(fault) from None

    def change(self, statement: str, values: tuple[int, ...]) -> int:
        try:
            return int(self._connection.execute(statement, values).rowcount)
        except self._store.driver.Error as fault:
            raise _meant(fault) from None


def _meant(fault: Exception) -> Exception:
    """What a fault of the driver means."""
    name = str(getattr(fault, "sqlite_errorname", ""))
    if name.startswith(ENDING):
        return Aborted(f"{name}: {drivers.first_line(fault)}")
    return StoreFault(f"{TITLE}: {drivers.first_line(fault)}")


KIND = Kind(
    "sqlite", TITLE,
    {WAL: "a write-ahead log; the first statement takes the snapshot",
     DELETE: "a rollback journal: locks, and no snapshots",
     UNCOMMITTED: "a control: shared cache, and PRAGMA read_uncommitted"},
    {IMMEDIATE: "transactions that write say BEGIN IMMEDIATE, which takes snapshot and lock at once"},
    most_tables=4, has_threads=True, opened=in_folder(SqliteStore))
