"""HSQLDB with multiversion concurrency control: a database of its own in a file, within a Java machine of this process.

At the two higher levels it never waits: a conflict is told at once. At READ COMMITTED a write of a row that another open
transaction wrote waits without an end, so the recorder refuses it itself.
"""

from __future__ import annotations

from pathlib import Path

from si_history.record.jdbc import FRESH, FRESH_TOLD, JdbcConnection, JdbcStore
from si_history.record.local import Choice, Holders, Kind, in_folder
from si_history.record.model import Aborted

READ_COMMITTED = "read committed"
# The numbers that JDBC has for the levels.
LEVELS = {"serializable": 8, "repeatable read": 4, READ_COMMITTED: 2}
# The SQLSTATEs of errors by which a statement is refused for another transaction's sake begin with one of these.
ENDING = ("40", "23505")


class HsqldbStore(JdbcStore):
    """A database of HSQLDB's."""

    title = "HSQLDB"
    jar = "hsqldb.jar"
    driver = "org.hsqldb.jdbc.JDBCDriver"

    def __init__(self, choice: Choice, place: Path) -> None:
        super().__init__(choice, place)
        self._holders = Holders()
        self.admin.execute("SET DATABASE TRANSACTION CONTROL MVCC")

    def options(self) -> list[str]:
        return ["-Dhsqldb.reconfig_logging=false"]

    def url(self) -> str:
        return f"jdbc:hsqldb:file:{self.place / 'store'}"

    def set_up(self, session: JdbcConnection) -> None:
        session.connection.setTransactionIsolation(LEVELS[self.choice.level])
        session.commit(0)

    def is_refusal(self, state: str, code: int) -> bool:
        return state.startswith(ENDING)

    def claim(self, key: int, session: JdbcConnection) -> None:
        if self.choice.level == READ_COMMITTED and not self._holders.is_free(key, session):
            raise Aborted("the row is held by another transaction")

    def let_go(self, session: JdbcConnection) -> None:
        self._holders.let_go(session)


KIND = Kind(
    "hsqldb", HsqldbStore.title,
    {"serializable": "its SERIALIZABLE with TRANSACTION CONTROL MVCC", "repeatable read": "its REPEATABLE READ",
     READ_COMMITTED: "its READ COMMITTED, as a control"},
    {FRESH: FRESH_TOLD},
    most_tables=4, has_threads=False, opened=in_folder(HsqldbStore))
