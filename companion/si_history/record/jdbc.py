"""Stores in Java, in a Java machine within this process, by JDBC: what H2, HSQLDB and Derby share."""

from __future__ import annotations

from abc import abstractmethod
from collections.abc import Sequence
from pathlib import Path
from typing import Any

from si_history.record import drivers
from si_history.record.local import Choice, LocalStore
from si_history.record.model import Aborted, StoreFault
from si_history.record.server import INSTALL
from si_history.record.sql import CREATE, FILL, Cell, SqlConnection

JARS = Path("/usr/share/java")
BRIDGE = "org.jpype.jar"
# A setting of all three: a control that prepares each statement anew.
FRESH = "fresh statements"
FRESH_TOLD = "each statement is prepared anew; else each session keeps its statements prepared"


class JdbcStore(LocalStore):
    """A database of one of the three. Its name, jar and driver are the class's."""

    title: str
    jar: str
    driver: str

    def __init__(self, choice: Choice, place: Path) -> None:
        super().__init__()
        self.choice = choice
        self.place = place
        self._start()
        self.manager = self.java.JClass("java.sql.DriverManager")
        self.fault = self.java.JClass("java.sql.SQLException")
        self.java.JClass(self.driver)()
        self.admin = JdbcConnection(self, is_transactional=False)

    def _start(self) -> None:
        """Starts the Java machine. Raises StoreFault where there is none, or no jar."""
        if not (JARS / self.jar).is_file():
            raise StoreFault(f"no {self.title} was found (there is no {JARS / self.jar}): {INSTALL}")
        self.java = drivers.load(self.title, ["jpype"])
        if self.java.isJVMStarted():
            return
        # -Xrs leaves the signals to Python, and without the data on performance nothing is written outside the folder.
        options = ["-Xrs", "-Xmx512m", "-XX:-UsePerfData", f"-Djava.io.tmpdir={self.place}", *self.options()]
        try:
            self.java.startJVM(*options, classpath=[str(JARS / self.jar), str(JARS / BRIDGE)], convertStrings=True)
        except Exception as fault:
            raise StoreFault(f"{self.title}: no Java machine started ({drivers.first_line(fault)}): {INSTALL}") from None

    def options(self) -> list[str]:
        """More options for the Java machine."""
        return []

    @abstractmethod
    def url(self) -> str:
        """The words that connect to the database."""

    @abstractmethod
    def set_up(self, session: JdbcConnection) -> None:
        """Sets a session's level."""

    @abstractmethod
    def is_refusal(self, state: str, code: int) -> bool:
        """Whether an error with this SQLSTATE and code ends the transaction for another's sake."""

    def claim(self, key: int, session: JdbcConnection) -> None:
        """Raises Aborted where a write of the key would wait without an end."""

    def let_go(self, session: JdbcConnection) -> None:
        """A session's transaction has ended."""

    def version(self) -> str:
        return self.admin.told_version()

    def is_late(self, is_reader: bool) -> bool:
        return True

    def prepare(self, keys: Sequence[int]) -> None:
        for table in range(self.choice.tables):
            self.admin.execute(CREATE.format(table))
        for key in keys:
            self.admin.change(FILL.format(key % self.choice.tables), (key,))

    def connect(self) -> JdbcConnection:
        session = JdbcConnection(self, is_transactional=True)
        self.set_up(session)
        return session

    def close(self) -> None:
        self.admin.execute("SHUTDOWN")


class JdbcConnection(SqlConnection):
    """One session. A transaction begins with its first statement, so no begin is sent."""

    def __init__(self, store: JdbcStore, is_transactional: bool) -> None:
        super().__init__(store.choice.tables)
        self._store = store
        self._statements: dict[str, Any] = {}
        try:
            self.connection = store.manager.getConnection(store.url(), "sa", "")
            self.connection.setAutoCommit(not is_transactional)
        except store.fault as fault:
            raise self._meant(fault) from None

    def begin(self, number: int, is_reader: bool) -> None:
        """Nothing is sent."""

    def commit(self, number: int) -> None:
        try:
            self.connection.commit()
        except self._store.fault as fault:
            raise self._meant(fault) from None
        self._store.let_go(self)

    def rollback(self) -> None:
        try:
            self.connection.rollback()
        except self._store.fault as fault:
            raise self._meant(fault) from None
        self._store.let_go(self)

    def close(self) -> None:
        try:
            if not self.connection.getAutoCommit():
                self.connection.rollback()
            self.connection.close()
        except self._store.fault:
            return

    def told_version(self) -> str:
        """The version that the driver tells of the database."""
        return str(self.connection.getMetaData().getDatabaseProductVersion()).split()[0]

    def execute(self, statement: str) -> None:
        """Has the store do a statement that isn't used again."""
        try:
            self.connection.createStatement().execute(statement)
        except self._store.fault as fault:
            raise self._meant(fault) from None

    def ask(self, statement: str, values: tuple[int, ...] = ()) -> list[tuple[Cell, ...]]:
        columns = range(1, statement[:statement.index(" FROM ")].count(",") + 2)
        found: list[tuple[Cell, ...]] = []
        try:
            rows = self._prepared(statement, values).executeQuery()
            while rows.next():
                found.append(tuple(int(rows.getLong(column)) for column in columns))
            rows.close()
        except self._store.fault as fault:
            raise self._meant(fault) from None
        return found

    def change(self, statement: str, values: tuple[int, ...]) -> int:
        try:
            return int(self._prepared(statement, values).executeUpdate())
        except self._store.fault as fault:
            raise self._meant(fault) from None

    def claim(self, key: int) -> None:
        self._store.claim(key, self)

    def _prepared(self, statement: str, values: tuple[int, ...]) -> Any:
        """The statement, prepared once for this session, with its values."""
        if statement not in self._statements or FRESH in self._store.choice.settings:
            self._statements[statement] = self.connection.prepareStatement(statement)
        prepared = self._statements[statement]
        for place, value in enumerate(values, 1):
            prepared.setLong(place, value)
        return prepared

    def _meant(self, fault: Any) -> Exception:
        """What a fault of the driver means."""
        state, code, words = str(fault.getSQLState()), int(fault.getErrorCode()), str(fault.getMessage()).split("\n")[0]
        told = f"{self._store.title}: {state} {words[:drivers.LONGEST_LINE]}"
        return Aborted(told) if self._store.is_refusal(state, code) else StoreFault(told)
