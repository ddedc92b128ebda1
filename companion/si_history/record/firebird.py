"""Firebird, embedded in this process: a database of its own in a file. Both levels of snapshots take them at the begin.

Nothing waits for a lock. What is called table stability in its manual and consistency in its interface is a snapshot with
locks of whole tables, each taken at the table's first use, or by the begin where tables are reserved.
"""

from __future__ import annotations

from collections.abc import Sequence
from pathlib import Path

from si_history.record import signals
from si_history.record.firebird_client import Client, Prepared, Transaction
from si_history.record.local import Choice, Kind, LocalStore, in_folder
from si_history.record.sql import CREATE, FILL, Cell, SqlConnection

TITLE = "Firebird"
SNAPSHOT, STABILITY, COMMITTED = "snapshot", "table stability", "read committed"
RESERVING = "reserving"
# The words of a transaction's parameters, as the header ibase.h has them.
VERSION, CONSISTENCY, CONCURRENCY, PROTECTED, NOWAIT, WRITE, LOCK_READ, LOCK_WRITE, READ_COMMITTED, RECORD_VERSION = (
    3, 1, 2, 4, 7, 9, 10, 11, 15, 17)
LEVELS = {SNAPSHOT: [CONCURRENCY], STABILITY: [CONSISTENCY], COMMITTED: [READ_COMMITTED, RECORD_VERSION]}


class FirebirdStore(LocalStore):
    """A database of Firebird's."""

    def __init__(self, choice: Choice, place: Path) -> None:
        super().__init__()
        self.choice = choice
        self.client = Client(place)
        self.path = place / "store.fdb"
        self.admin = self.client.create(self.path)
        # The engine would meet them itself, with a line in the log of the system's Firebird.
        signals.taken_back()

    def version(self) -> str:
        return self.client.version()

    def prepare(self, keys: Sequence[int]) -> None:
        for table in range(self.choice.tables):
            with self.client.transaction(self.admin, bytes([VERSION, CONCURRENCY, NOWAIT, WRITE])) as transaction:
                transaction.execute(CREATE.format(table))
        with self.client.transaction(self.admin, bytes([VERSION, CONCURRENCY, NOWAIT, WRITE])) as transaction:
            for key in keys:
                transaction.execute(FILL.format(key % self.choice.tables).replace("?", str(key)))

    def connect(self) -> FirebirdConnection:
        return FirebirdConnection(self)

    def is_late(self, is_reader: bool) -> bool:
        return self.choice.level == COMMITTED

    def close(self) -> None:
        self.client.detach(self.admin)

    def parameters(self, is_reader: bool) -> bytes:
        """What a transaction is begun with."""
        words = bytes([VERSION, *LEVELS[self.choice.level], NOWAIT, WRITE])
        if RESERVING in self.choice.settings:
            for table in range(self.choice.tables):
                name = f"KV{table}".encode()
                words += bytes([LOCK_READ if is_reader else LOCK_WRITE, len(name)]) + name + bytes([PROTECTED])
        return words


class FirebirdConnection(SqlConnection):
    """One session."""

    def __init__(self, store: FirebirdStore) -> None:
        super().__init__(store.choice.tables)
        self._store = store
        self._handle = store.client.attach(store.path)
        self._transaction: Transaction | None = None
        self._statements: dict[str, Prepared] = {}

    def begin(self, number: int, is_reader: bool) -> None:
        self._transaction = self._store.client.start(self._handle, self._store.parameters(is_reader))

    def commit(self, number: int) -> None:
        self._running().commit()
        self._transaction = None

    def rollback(self) -> None:
        if self._transaction is not None:
            self._transaction.rollback()
            self._transaction = None

    def close(self) -> None:
        self.rollback()
        self._store.client.detach(self._handle)

    def ask(self, statement: str, values: tuple[int, ...]) -> list[tuple[Cell, ...]]:
        return self._prepared(statement).ask(self._running(), values)

    def change(self, statement: str, values: tuple[int, ...]) -> int:
        return self._prepared(statement).change(self._running(), values)

    def _prepared(self, statement: str) -> Prepared:
        """The statement, prepared once for this session."""
        if statement not in self._statements:
            self._statements[statement] = self._running().prepare(statement)
        return self._statements[statement]

    def _running(self) -> Transaction:
        assert self._transaction is not None
        return self._transaction


KIND = Kind(
    "firebird", TITLE,
    {SNAPSHOT: "its SNAPSHOT (isc_tpb_concurrency)", STABILITY: "its SNAPSHOT TABLE STABILITY (isc_tpb_consistency)",
     COMMITTED: "its READ COMMITTED with record versions, as a control"},
    {RESERVING: "each transaction reserves all tables when it begins, as the clause RESERVING does"},
    most_tables=4, has_threads=False, opened=in_folder(FirebirdStore))
