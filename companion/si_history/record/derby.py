"""Derby: a database of its own in memory, within a Java machine of this process. It locks, and nothing waits for a lock."""

from __future__ import annotations

from si_history.record.jdbc import FRESH, FRESH_TOLD, JdbcConnection, JdbcStore
from si_history.record.local import Kind, in_folder

# The numbers that JDBC has for the levels.
LEVELS = {"serializable": 8, "repeatable read": 4, "read committed": 2}
# The SQLSTATEs of errors by which a statement is refused for another transaction's sake begin with one of these.
ENDING = ("40", "23505")


class DerbyStore(JdbcStore):
    """A database of Derby's."""

    title = "Derby"
    jar = "derby.jar"
    driver = "org.apache.derby.jdbc.EmbeddedDriver"

    def options(self) -> list[str]:
        return [f"-Dderby.stream.error.file={self.place / 'derby.log'}", "-Dderby.locks.waitTimeout=0",
                "-Dderby.locks.deadlockTimeout=0"]

    def url(self) -> str:
        return "jdbc:derby:memory:store;create=true"

    def set_up(self, session: JdbcConnection) -> None:
        session.connection.setTransactionIsolation(LEVELS[self.choice.level])

    def is_refusal(self, state: str, code: int) -> bool:
        return state.startswith(ENDING)

    def close(self) -> None:
        """The database goes with the process."""
        self.admin.close()


KIND = Kind(
    "derby", DerbyStore.title,
    {"serializable": "its SERIALIZABLE, by locks", "repeatable read": "its REPEATABLE READ, by locks",
     "read committed": "its READ COMMITTED, as a control"},
    {FRESH: FRESH_TOLD},
    most_tables=4, has_threads=False, opened=in_folder(DerbyStore))
