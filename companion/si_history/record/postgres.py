"""PostgreSQL: how its server is started, how a session talks to it, and how it tells its order of starts and commits."""

from __future__ import annotations

import signal
from collections.abc import Iterator, Sequence
from contextlib import AbstractContextManager, contextmanager, nullcontext
from pathlib import Path
from typing import Any

from si_history.record import drivers
from si_history.record.model import Aborted, Recorded, Row, StoreFault, Timeline
from si_history.record.server import MEGABYTE, Server, program
from si_history.record.snapshots import Snapshot, gaps, timeline

TITLE = "PostgreSQL"
DRIVERS = ("psycopg2", "psycopg")
ACCOUNT = "postgres"
USER = "si_history"
ROOM = 100 * MEGABYTE
PLACES = Path("/usr/lib/postgresql")
SETTINGS = {
    "listen_addresses": "", "max_connections": "50", "fsync": "off", "track_commit_timestamp": "on", "autovacuum": "off",
    "deadlock_timeout": "50ms", "enable_seqscan": "off", "log_min_messages": "fatal",
    "log_min_error_statement": "panic", "dynamic_shared_memory_type": "mmap",
    "shared_buffers": "16MB", "max_wal_size": "32MB", "min_wal_size": "2MB",
}

# The codes of errors by which the server ends a transaction for another's sake.
SERIALIZATION_FAILURE, DEADLOCK, UNIQUE_VIOLATION = "40001", "40P01", "23505"
ENDING = frozenset({SERIALIZATION_FAILURE, DEADLOCK, UNIQUE_VIOLATION})
LOCK_NOT_AVAILABLE, DISK_FULL = "55P03", "53100"


@contextmanager
def started() -> Iterator[tuple[Server, str]]:
    """A server of one's own, with the words that connect to it."""
    driver = drivers.load(TITLE, DRIVERS)
    places = sorted(PLACES.glob("*/bin"), key=_version, reverse=True)
    initdb, postgres = program("initdb", TITLE, places), program("postgres", TITLE, places)
    with Server(TITLE, ACCOUNT, signal.SIGQUIT, ROOM) as server:
        words = f"host={drivers.quoted(str(server.directory))} port=5432 user={USER} dbname=postgres connect_timeout=10"
        server.prepare([initdb, "-D", server.data, "-U", USER, "-A", "trust", "-E", "UTF8", "--no-locale", "--no-sync",
                        "--no-clean", "--wal-segsize=1"])
        options = [word for name, value in SETTINGS.items() for word in ("-c", f"{name}={value}")]

        def is_ready() -> bool:
            try:
                driver.connect(words).close()
            except driver.Error:
                return False
            return True

        server.start([postgres, "-D", server.data, "-k", server.directory, *options], is_ready)
        yield server, words


def _version(place: Path) -> int:
    """The version that a directory of Debian's is of: the 15 of 15/bin."""
    return int(place.parent.name) if place.parent.name.isdigit() else 0


class PostgresStore:
    """A table of a PostgreSQL server, `words` connecting to it, at one isolation level."""

    def __init__(self, words: str, level: str, lock_seconds: float, is_waiting: bool, table: str) -> None:
        self.driver = drivers.load(TITLE, DRIVERS)
        self.words = words
        self.level = level
        self.table = table
        # Where one thread drives all sessions nobody else can end a wait, so it ends at once, as an abort like any other.
        self.lock_seconds = lock_seconds if is_waiting else 0.001
        self.ending = ENDING if is_waiting else ENDING | {LOCK_NOT_AVAILABLE}
        self.snapshots: dict[int, Snapshot] = {}
        self.ids: dict[int, int] = {}

    def connect(self) -> PostgresConnection:
        return PostgresConnection(self)

    def version(self) -> str:
        session = self.connect()
        try:
            [(version,)] = session.ask("SHOW server_version")
        finally:
            session.close()
        return str(version).split()[0]

    def is_late(self, is_reader: bool) -> bool:
        return False

    def ordered(self) -> AbstractContextManager[object]:
        return nullcontext()

    def prepare(self, keys: Sequence[int]) -> None:
        session = self.connect()
        try:
            session.ask(f"CREATE TABLE {self.table} (key bigint PRIMARY KEY, writer bigint NOT NULL, gone boolean NOT NULL,"
                        " previous bigint)")
            for key in keys:
                session.ask(f"INSERT INTO {self.table} VALUES (%s, 0, false, NULL)", (key,))
            session.ask(f"ANALYZE {self.table}")
        finally:
            session.close()

    def remove(self) -> None:
        session = self.connect()
        try:
            session.wait_for(self.lock_seconds + 5)
            session.ask(f"DROP TABLE IF EXISTS {self.table}")
        finally:
            session.close()

    def timeline(self, records: Sequence[Recorded]) -> Timeline:
        committed = {record.number: self.ids[record.number] for record in records if record.is_committed}
        snapshots = {record.number: self.snapshots[record.number] for record in records}
        written = {record.number: record.written for record in records}
        return timeline(gaps(snapshots, committed), self._times(committed), written)

    def _times(self, committed: dict[int, int]) -> dict[int, int | None]:
        """The server's commit times, in microseconds; none where it keeps none."""
        session = self.connect()
        try:
            if session.ask("SHOW track_commit_timestamp") != [("on",)]:
                return {}
            rows = session.ask(
                "SELECT id, (extract(epoch FROM pg_xact_commit_timestamp(id::xid8::xid)) * 1000000)::bigint"
                " FROM unnest(%s::text[]) AS id", ([str(the_id) for the_id in committed.values()],))
        finally:
            session.close()
        times = {int(the_id): None if time is None else int(time) for the_id, time in rows}
        return {number: times[the_id] for number, the_id in committed.items()}


class PostgresConnection:
    """One session. Each call is one statement of the server, but for `begin`, which is two."""

    def __init__(self, store: PostgresStore) -> None:
        self._store = store
        try:
            self._connection: Any = store.driver.connect(store.words)
            self._connection.autocommit = True
            self._cursor = self._connection.cursor()
        except store.driver.Error as fault:
            raise StoreFault(f"no connection to PostgreSQL: {drivers.first_line(fault)}") from None
        self.wait_for(store.lock_seconds)

    def wait_for(self, seconds: float) -> None:
        """Sets how long a statement waits for a lock."""
        self.ask(f"SET lock_timeout = {max(1, round(seconds * 1000))}")

    def begin(self, number: int, is_reader: bool) -> None:
        # BEGIN takes no snapshot: the first statement does. It asks for the snapshot itself, and for the transaction's id,
        # which a transaction that writes nothing would not have, and without which nobody could tell when it committed.
        self.ask(f"BEGIN ISOLATION LEVEL {self._store.level}")
        [(snapshot, the_id)] = self.ask("SELECT pg_current_snapshot()::text, pg_current_xact_id()::text")
        self._store.snapshots[number] = Snapshot.parse(snapshot)
        self._store.ids[number] = int(the_id)

    def read(self, key: int) -> Row | None:
        rows = self._rows("key = %s", (key,))
        return rows[0] if rows else None

    def scan(self, low: int, high: int) -> list[Row]:
        return self._rows("key BETWEEN %s AND %s", (low, high))

    def insert(self, key: int, number: int) -> None:
        self.ask(f"INSERT INTO {self._store.table} VALUES (%s, %s, false, NULL)", (key, number))

    def update(self, key: int, number: int, is_gone: bool) -> None:
        self.ask(f"UPDATE {self._store.table} SET writer = %s, gone = %s WHERE key = %s", (number, is_gone, key))
        if self._cursor.rowcount != 1:
            raise StoreFault(f"an update of key {key} by T{number} found no row, though one had been read")

    def put(self, key: int, number: int) -> None:
        self.ask(f"INSERT INTO {self._store.table} VALUES (%s, %s, false, NULL)"
                 " ON CONFLICT (key) DO UPDATE SET writer = excluded.writer, gone = false", (key, number))

    def bump(self, key: int, number: int) -> int:
        [(previous,)] = self.ask(
            f"INSERT INTO {self._store.table} AS t VALUES (%s, %s, false, 0) ON CONFLICT (key)"
            " DO UPDATE SET previous = t.writer, writer = excluded.writer, gone = false RETURNING previous", (key, number))
        return int(previous)

    def commit(self, number: int) -> None:
        self.ask("COMMIT")
        if self._cursor.statusmessage != "COMMIT":
            raise StoreFault(f"PostgreSQL answered the COMMIT of T{number} with {self._cursor.statusmessage}")

    def rollback(self) -> None:
        self.ask("ROLLBACK")

    def close(self) -> None:
        try:
            self._connection.close()
        except self._store.driver.Error:
            return

    def _rows(self, condition: str, values: tuple[int, ...]) -> list[Row]:
        rows = self.ask(f"SELECT key, writer, gone FROM {self._store.table} WHERE {condition} ORDER BY key", values)
        return [Row(int(key), int(writer), bool(gone)) for key, writer, gone in rows]

    def ask(self, statement: str, values: tuple[object, ...] = ()) -> list[tuple[Any, ...]]:
        """Has the server do a statement, and answers its rows. Raises Aborted or StoreFault where it fails."""
        try:
            self._cursor.execute(statement, values)
            rows: list[tuple[Any, ...]] = self._cursor.fetchall() if self._cursor.description is not None else []
            return rows
        except self._store.driver.Error as fault:
            raise self._meant(fault) from None

    def _meant(self, fault: Exception) -> Exception:
        """What a fault of the driver means."""
        code = getattr(fault, "sqlstate", None) or getattr(fault, "pgcode", None)
        if code in self._store.ending:
            return Aborted(drivers.first_line(fault))
        if code == LOCK_NOT_AVAILABLE:
            return drivers.lock_fault(TITLE, self._store.lock_seconds)
        if code == DISK_FULL:
            return StoreFault("the disk of the PostgreSQL server is full: free some of it, or set TMPDIR to another")
        if self._connection.closed:
            return drivers.broken(TITLE, fault)
        return StoreFault(f"PostgreSQL: {drivers.first_line(fault)}")
