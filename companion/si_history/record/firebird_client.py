"""Firebird's own client library, by ctypes: Debian has no Python driver for it. Only whole numbers go in and out."""

from __future__ import annotations

import ctypes
import os
import re
from collections.abc import Iterator
from contextlib import contextmanager
from pathlib import Path

from si_history.record.model import Aborted, StoreFault
from si_history.record.server import INSTALL

TITLE = "Firebird"
LIBRARY = "libfbclient.so.2"
USER = "SYSDBA"
DIALECT = 3
MOST_COLUMNS = 8
NULLABLE_INT64, INT64_BYTES = 581, 8
CLOSE_CURSOR, NO_MORE_ROWS = 1, 100
RECORDS, INSERTED, UPDATED = 23, 14, 15

# The errors by which a statement is refused for another transaction's sake.
ENDING = {335544345: "lock conflict", 335544336: "deadlock", 335544451: "update conflict", 335544665: "unique key violation",
          335544349: "duplicate key", 335544510: "lock timeout"}

Handle = ctypes.c_uint
Status = ctypes.c_ssize_t * 20


class _Variable(ctypes.Structure):
    """XSQLVAR."""

    _fields_ = [("type", ctypes.c_short), ("scale", ctypes.c_short), ("subtype", ctypes.c_short), ("length", ctypes.c_short),
                ("data", ctypes.c_void_p), ("indicator", ctypes.c_void_p),
                *((name, kind) for place in range(4) for name, kind in (
                    (f"name_length_{place}", ctypes.c_short), (f"name_{place}", ctypes.c_char * 32)))]


class _Area(ctypes.Structure):
    """XSQLDA, with room for MOST_COLUMNS variables."""

    _fields_ = [("version", ctypes.c_short), ("id", ctypes.c_char * 8), ("bytes", ctypes.c_int), ("most", ctypes.c_short),
                ("count", ctypes.c_short), ("variables", _Variable * MOST_COLUMNS)]


class _Block(ctypes.Structure):
    """ISC_TEB: the database and the parameters that a transaction begins with."""

    _fields_ = [("database", ctypes.POINTER(Handle)), ("length", ctypes.c_int), ("words", ctypes.c_char_p)]


class Numbers:
    """A row of whole numbers that the library reads or fills in."""

    def __init__(self, count: int) -> None:
        self.values = (ctypes.c_int64 * MOST_COLUMNS)()
        self.indicators = (ctypes.c_short * MOST_COLUMNS)()
        self.area = _Area(version=1, most=MOST_COLUMNS, count=count)
        for place in range(count):
            variable = self.area.variables[place]
            variable.type, variable.length, variable.scale = NULLABLE_INT64, INT64_BYTES, 0
            variable.data = ctypes.addressof(self.values) + 8 * place
            variable.indicator = ctypes.addressof(self.indicators) + 2 * place


class Client:
    """The library, with a folder for its locks. It lets one process open a database."""

    def __init__(self, place: Path) -> None:
        os.environ.update(FIREBIRD_LOCK=str(place), FIREBIRD_TMP=str(place), ISC_USER=USER)
        try:
            self._library = ctypes.CDLL(LIBRARY)
        except OSError:
            raise StoreFault(f"no {TITLE} was found (there is no library {LIBRARY}): {INSTALL}") from None

    def version(self) -> str:
        """The version of the library, which comes with the engine of the same version."""
        buffer = ctypes.create_string_buffer(256)
        self._library.isc_get_client_version(buffer)
        told = buffer.value.decode(errors="replace")
        found = re.fullmatch(r".*V[0-9]+\.[0-9]+\.([0-9]+)\.[0-9]+ Firebird ([0-9]+\.[0-9]+)", told)
        return f"{found[2]}.{found[1]}" if found else told

    def call(self, name: str, *arguments: object) -> int:
        """Calls a function of the library. Raises Aborted or StoreFault where it fails."""
        status = Status()
        answer = int(getattr(self._library, name)(status, *arguments))
        if answer != NO_MORE_ROWS and status[0] == 1 and status[1]:
            raise self._meant(status)
        return answer

    def create(self, path: Path) -> Handle:
        """Makes a database, and opens it."""
        database, none = Handle(0), Handle(0)
        sql = f"CREATE DATABASE '{path}' USER '{USER}' PAGE_SIZE 8192".encode()
        self.call("isc_dsql_execute_immediate", ctypes.byref(database), ctypes.byref(none), len(sql), sql, DIALECT, None)
        return database

    def attach(self, path: Path) -> Handle:
        """Opens a database."""
        database, name, user = Handle(0), str(path).encode(), USER.encode()
        words = bytes([1, 28, len(user)]) + user
        self.call("isc_attach_database", len(name), name, ctypes.byref(database), len(words), words)
        return database

    def detach(self, database: Handle) -> None:
        """Closes a database."""
        self.call("isc_detach_database", ctypes.byref(database))

    def start(self, database: Handle, words: bytes) -> Transaction:
        """Begins a transaction with parameters."""
        return Transaction(self, database, words)

    @contextmanager
    def transaction(self, database: Handle, words: bytes) -> Iterator[Transaction]:
        """A transaction that commits at the end of the context."""
        transaction = self.start(database, words)
        yield transaction
        transaction.commit()

    def _meant(self, status: ctypes.Array[ctypes.c_ssize_t]) -> Exception:
        """What a fault of the library means."""
        codes = [status[place + 1] for place in range(18) if status[place] == 1]
        ending = [ENDING[code] for code in codes if code in ENDING]
        if ending:
            return Aborted(", ".join(dict.fromkeys(ending)))
        buffer, words = ctypes.create_string_buffer(512), []
        pointer = ctypes.pointer(ctypes.cast(status, ctypes.POINTER(ctypes.c_ssize_t)))
        while self._library.fb_interpret(buffer, len(buffer), pointer):
            words.append(buffer.value.decode(errors="replace").replace("\n", " "))
        return StoreFault(f"{TITLE}: {'; '.join(words)}")


class Transaction:
    """A transaction of the library's."""

    def __init__(self, client: Client, database: Handle, words: bytes) -> None:
        self.client, self.database, self.handle = client, database, Handle(0)
        block = _Block(ctypes.pointer(database), len(words), words)
        client.call("isc_start_multiple", ctypes.byref(self.handle), 1, ctypes.byref(block))

    def execute(self, statement: str) -> None:
        """Does a statement that isn't used again."""
        sql = statement.encode()
        self.client.call("isc_dsql_execute_immediate", ctypes.byref(self.database), ctypes.byref(self.handle), len(sql), sql,
                         DIALECT, None)

    def prepare(self, statement: str) -> Prepared:
        """Prepares a statement, which later transactions of the same database may do, too."""
        return Prepared(self, statement)

    def commit(self) -> None:
        self.client.call("isc_commit_transaction", ctypes.byref(self.handle))

    def rollback(self) -> None:
        self.client.call("isc_rollback_transaction", ctypes.byref(self.handle))


class Prepared:
    """A statement that is prepared. Its values and its columns are whole numbers."""

    def __init__(self, transaction: Transaction, statement: str) -> None:
        self._client, self._handle = transaction.client, Handle(0)
        sql, described = statement.encode(), Numbers(0)
        self._client.call("isc_dsql_allocate_statement", ctypes.byref(transaction.database), ctypes.byref(self._handle))
        self._client.call("isc_dsql_prepare", ctypes.byref(transaction.handle), ctypes.byref(self._handle), len(sql), sql,
                          DIALECT, ctypes.byref(described.area))
        self._values, self._columns = Numbers(statement.count("?")), Numbers(described.area.count)

    def ask(self, transaction: Transaction, values: tuple[int, ...]) -> list[tuple[int | None, ...]]:
        """Does a query, and answers its rows."""
        self._execute(transaction, values)
        columns, found = self._columns, []
        try:
            while self._client.call("isc_dsql_fetch", ctypes.byref(self._handle), 1, ctypes.byref(columns.area)) == 0:
                found.append(tuple(None if columns.indicators[place] < 0 else columns.values[place]
                                   for place in range(columns.area.count)))
        finally:
            self._client.call("isc_dsql_free_statement", ctypes.byref(self._handle), CLOSE_CURSOR)
        return found

    def change(self, transaction: Transaction, values: tuple[int, ...]) -> int:
        """Does a statement that changes rows, and answers how many."""
        self._execute(transaction, values)
        wanted, answer = bytes([RECORDS]), ctypes.create_string_buffer(64)
        self._client.call("isc_dsql_sql_info", ctypes.byref(self._handle), len(wanted), wanted, len(answer), answer)
        return _changed(answer.raw)

    def _execute(self, transaction: Transaction, values: tuple[int, ...]) -> None:
        self._values.values[:len(values)] = list(values)
        self._client.call("isc_dsql_execute", ctypes.byref(transaction.handle), ctypes.byref(self._handle), 1,
                          ctypes.byref(self._values.area))


def _changed(answer: bytes) -> int:
    """How many rows were inserted or updated, as the library tells it: items of a kind, a length and a number."""
    place, count = 3, 0
    while answer[0] == RECORDS and answer[place] in range(13, 17):
        length = int.from_bytes(answer[place + 1:place + 3], "little")
        if answer[place] in (INSERTED, UPDATED):
            count += int.from_bytes(answer[place + 3:place + 3 + length], "little")
        place += 3 + length
    return count
