"""MariaDB: how its server is started, how a session talks to it, and how it tells its order of starts and commits."""

from __future__ import annotations

import itertools
import signal
from collections.abc import Iterator, Sequence
from contextlib import AbstractContextManager, contextmanager, nullcontext
from pathlib import Path
from typing import Any

from si_history.record import drivers
from si_history.record.cuts import Place, timeline
from si_history.record.model import NOBODY, Aborted, Recorded, Row, StoreFault, Timeline
from si_history.record.server import MEGABYTE, Server, program

TITLE = "MariaDB"
DRIVERS = ("pymysql",)
ACCOUNT = "mysql"
DATABASE = "si_history"
ROOM = 200 * MEGABYTE
PLACES = (Path("/usr/sbin"), Path("/usr/local/sbin"), Path("/usr/local/bin"))
# Both for making the data and for serving it. Nothing of it has to outlive the server, so nothing waits for the disk.
SETTINGS = ("--no-defaults", "--skip-name-resolve", "--debug-no-sync", "--innodb-log-file-size=8M", "--aria-log-file-size=8M",
            "--innodb-buffer-pool-size=32M")
SERVING = ("--skip-networking", "--log-bin=binlog", "--binlog-format=ROW", "--performance-schema=OFF",
           "--innodb-temp-data-file-path=ibtmp1:4M:autoextend", "--innodb-flush-log-at-trx-commit=0")

# The numbers of errors by which the server ends a transaction for another's sake.
RECORD_CHANGED, DUPLICATE, DEADLOCK = 1020, 1062, 1213
ENDING = frozenset({RECORD_CHANGED, DUPLICATE, DEADLOCK})
LOCK_WAIT_TIMEOUT, UNKNOWN_SETTING = 1205, 1193
DISK_FULL = frozenset({1021, 1114})
# The words of --connect, and the driver's names for them.
WORDS = {"host": "host", "port": "port", "socket": "unix_socket", "user": "user", "password": "password", "database": "database"}


@contextmanager
def started(title: str = TITLE, serving: Sequence[str] = SERVING) -> Iterator[tuple[Server, dict[str, Any]]]:
    """A server of one's own, with the words that connect to it."""
    driver = drivers.load(TITLE, DRIVERS)
    install, mariadbd = program("mariadb-install-db", TITLE, PLACES), program("mariadbd", TITLE, PLACES)
    # Its data is thrown away, so it need not end in peace.
    with Server(title, ACCOUNT, signal.SIGKILL, ROOM) as server:
        socket = server.directory / "socket"
        words = {"unix_socket": str(socket), "user": "root"}
        server.prepare([install, *SETTINGS, f"--datadir={server.data}", "--auth-root-authentication-method=normal",
                        "--skip-test-db"])

        def is_ready() -> bool:
            try:
                connection = driver.connect(**words)
                connection.cursor().execute(f"CREATE DATABASE {DATABASE}")
                connection.close()
            except driver.Error:
                return False
            return True

        server.start([mariadbd, *SETTINGS, *serving, f"--datadir={server.data}", f"--socket={socket}",
                      f"--tmpdir={server.directory}", f"--pid-file={server.directory / 'process'}"], is_ready)
        yield server, words | {"database": DATABASE}


def words_of(text: str) -> dict[str, Any]:
    """The words of --connect, `NAME=VALUE` with blanks between. Raises StoreFault where they are none."""
    words: dict[str, Any] = {}
    for word in text.split():
        name, _, value = word.partition("=")
        if name not in WORDS or not value or (name == "port" and not value.isdigit()):
            raise StoreFault(f"--connect: {word!r} is none of {', '.join(f'{known}=..' for known in WORDS)}")
        words[WORDS[name]] = int(value) if name == "port" else value
    if "database" not in words:
        raise StoreFault("--connect: it names no database; say database=NAME")
    return words


class MariadbStore:
    """A table of a MariaDB server, `words` connecting to it, with innodb_snapshot_isolation on or off."""

    def __init__(self, words: dict[str, Any], snapshot_isolation: str, lock_seconds: float, is_waiting: bool, table: str) -> None:
        self.driver = drivers.load(TITLE, DRIVERS)
        self.words = words
        self.snapshot_isolation = snapshot_isolation
        self.table = table
        # A row for each session: the number of its last transaction. Each transaction writes it last of all, so one that
        # only reads is in the binary log as well, and a snapshot shows which commits it sees.
        self.marks_table = f"{table}_marks"
        # Where one thread drives all sessions nobody else can end a wait, so it ends at once, as an abort like any other.
        self.lock_seconds = max(1, round(lock_seconds)) if is_waiting else 0
        self.ending = ENDING if is_waiting else ENDING | {LOCK_WAIT_TIMEOUT}
        self.take_session = itertools.count(1).__next__
        self.marks: dict[int, dict[int, int]] = {}
        self.sessions: dict[int, int] = {}
        self.places: dict[int, Place] = {}

    def connect(self) -> MariadbConnection:
        connection = MariadbConnection(self, self.take_session())
        connection.ask(f"INSERT INTO {self.marks_table} VALUES (%s, %s)", (connection.session, NOBODY))
        return connection

    def version(self) -> str:
        session = MariadbConnection(self, 0)
        try:
            [(version,)] = session.ask("SELECT VERSION()")
        finally:
            session.close()
        return str(version).split("-")[0]

    def is_late(self, is_reader: bool) -> bool:
        return False

    def ordered(self) -> AbstractContextManager[object]:
        return nullcontext()

    def prepare(self, keys: Sequence[int]) -> None:
        session = MariadbConnection(self, 0)
        try:
            if session.ask("SELECT @@log_bin, @@sql_log_bin") != [(1, 1)]:
                raise StoreFault("the MariaDB server keeps no binary log, which tells the order of commits: "
                                 "start it with --log-bin")
            session.ask(f"CREATE TABLE {self.table} (`key` BIGINT PRIMARY KEY, writer BIGINT NOT NULL, gone BOOLEAN NOT NULL,"
                        " previous BIGINT) ENGINE=InnoDB")
            session.ask(f"CREATE TABLE {self.marks_table} (session BIGINT PRIMARY KEY, number BIGINT NOT NULL) ENGINE=InnoDB")
            for key in keys:
                session.ask(f"INSERT INTO {self.table} VALUES (%s, %s, FALSE, NULL)", (key, NOBODY))
        finally:
            session.close()

    def remove(self) -> None:
        session = MariadbConnection(self, 0)
        try:
            session.ask(f"SET SESSION lock_wait_timeout = {self.lock_seconds + 5}")
            session.ask(f"DROP TABLE IF EXISTS {self.table}, {self.marks_table}")
        finally:
            session.close()

    def timeline(self, records: Sequence[Recorded]) -> Timeline:
        committed = {record.number: self.places[record.number] for record in records if record.is_committed}
        return timeline(committed, self.sessions, {record.number: self.marks[record.number] for record in records})


class MariadbConnection:
    """One session. Each call is one statement of the server, but for `begin` and `commit`, which are two and three."""

    def __init__(self, store: MariadbStore, session: int) -> None:
        self._store = store
        self.session = session
        try:
            self._connection: Any = store.driver.connect(
                **store.words, autocommit=True, connect_timeout=10, client_flag=store.driver.constants.CLIENT.FOUND_ROWS)
            self._cursor = self._connection.cursor()
        except (store.driver.Error, OSError) as fault:
            raise StoreFault(f"no connection to MariaDB: {drivers.first_line(fault)}") from None
        self.ask("SET SESSION TRANSACTION ISOLATION LEVEL REPEATABLE READ")
        self.ask(f"SET SESSION innodb_snapshot_isolation = {store.snapshot_isolation}")
        self.ask(f"SET SESSION innodb_lock_wait_timeout = {store.lock_seconds}")

    def begin(self, number: int, is_reader: bool) -> None:
        # The server takes the snapshot here, under the lock that commits take, and not with the first read. What it sees
        # of the marks is what it sees of the commits. The status variable binlog_snapshot_position would tell as much; but
        # the server keeps one for all sessions, and while others ask it tells one session the position of another.
        self.ask("START TRANSACTION WITH CONSISTENT SNAPSHOT")
        marks = self.ask(f"SELECT session, number FROM {self._store.marks_table}")
        self._store.marks[number] = {int(session): int(last) for session, last in marks}
        self._store.sessions[number] = self.session

    def read(self, key: int) -> Row | None:
        rows = self._rows("`key` = %s", (key,))
        return rows[0] if rows else None

    def scan(self, low: int, high: int) -> list[Row]:
        return self._rows("`key` BETWEEN %s AND %s", (low, high))

    def insert(self, key: int, number: int) -> None:
        self.ask(f"INSERT INTO {self._store.table} VALUES (%s, %s, FALSE, NULL)", (key, number))

    def update(self, key: int, number: int, is_gone: bool) -> None:
        self.ask(f"UPDATE {self._store.table} SET writer = %s, gone = %s WHERE `key` = %s", (number, is_gone, key))
        if self._cursor.rowcount != 1:
            raise StoreFault(f"an update of key {key} by T{number} found no row, though one had been read")

    def put(self, key: int, number: int) -> None:
        self.ask(f"INSERT INTO {self._store.table} VALUES (%s, %s, FALSE, NULL)"
                 " ON DUPLICATE KEY UPDATE writer = VALUES(writer), gone = FALSE", (key, number))

    def bump(self, key: int, number: int) -> int:
        self.ask(f"INSERT INTO {self._store.table} VALUES (%s, %s, FALSE, {NOBODY}) ON DUPLICATE KEY"
                 " UPDATE previous = writer, writer = VALUES(writer), gone = FALSE", (key, number))
        [(previous,)] = self.ask(f"SELECT previous FROM {self._store.table} WHERE `key` = %s", (key,))
        return int(previous)

    def commit(self, number: int) -> None:
        self.ask(f"UPDATE {self._store.marks_table} SET number = %s WHERE session = %s", (number, self.session))
        self.ask("COMMIT")
        [(gtid,)] = self.ask("SELECT @@last_gtid")
        self._store.places[number] = Place.parse(str(gtid))

    def rollback(self) -> None:
        self.ask("ROLLBACK")

    def close(self) -> None:
        try:
            self._connection.close()
        except (self._store.driver.Error, OSError):
            return

    def _rows(self, condition: str, values: tuple[int, ...]) -> list[Row]:
        rows = self.ask(f"SELECT `key`, writer, gone FROM {self._store.table} WHERE {condition} ORDER BY `key`", values)
        return [Row(int(key), int(writer), bool(gone)) for key, writer, gone in rows]

    def ask(self, statement: str, values: tuple[object, ...] = ()) -> list[tuple[Any, ...]]:
        """Has the server do a statement, and answers its rows. Raises Aborted or StoreFault where it fails."""
        try:
            self._cursor.execute(statement, values)
            return list(self._cursor.fetchall())
        except (self._store.driver.Error, OSError) as fault:
            raise self._meant(fault) from None

    def _meant(self, fault: Exception) -> Exception:
        """What a fault of the driver means."""
        code = fault.args[0] if fault.args else None
        if code in self._store.ending:
            return Aborted(drivers.first_line(fault))
        if code == LOCK_WAIT_TIMEOUT:
            return drivers.lock_fault(TITLE, self._store.lock_seconds)
        if code in DISK_FULL:
            return StoreFault("the disk of the MariaDB server is full: free some of it, or set TMPDIR to another")
        if code == UNKNOWN_SETTING:
            return StoreFault("this server has no setting innodb_snapshot_isolation: "
                              "MariaDB 10.6.18, 10.11.8 or a later one has it")
        if not self._connection.open:
            return drivers.broken(TITLE, fault)
        return StoreFault(f"MariaDB: {drivers.first_line(fault)}")
