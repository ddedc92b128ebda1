"""H2: a database of its own in a file, within a Java machine of this process. A lock is waited for one millisecond."""

from __future__ import annotations

from si_history.record.jdbc import FRESH, FRESH_TOLD, JdbcConnection, JdbcStore
from si_history.record.local import Kind, in_folder

# The codes of errors by which a statement is refused for another transaction's sake.
LOCK_TIMEOUT, CONCURRENT_UPDATE, DEADLOCK, DUPLICATE = 50200, 90131, 40001, 23505
ENDING = frozenset({LOCK_TIMEOUT, CONCURRENT_UPDATE, DEADLOCK, DUPLICATE})
NO_REUSE = "no reuse"


class H2Store(JdbcStore):
    """A database of H2's."""

    title = "H2"
    jar = "h2.jar"
    driver = "org.h2.Driver"

    def url(self) -> str:
        reuse = ";OPTIMIZE_REUSE_RESULTS=FALSE" if NO_REUSE in self.choice.settings else ""
        return f"jdbc:h2:{self.place / 'store'}{reuse}"

    def set_up(self, session: JdbcConnection) -> None:
        session.execute("SET LOCK_TIMEOUT 1")
        session.execute(f"SET SESSION CHARACTERISTICS AS TRANSACTION ISOLATION LEVEL {self.choice.level.upper()}")
        session.commit(0)

    def is_refusal(self, state: str, code: int) -> bool:
        return code in ENDING


KIND = Kind(
    "h2", H2Store.title,
    {"snapshot": "its SNAPSHOT", "repeatable read": "its REPEATABLE READ", "serializable": "its SERIALIZABLE",
     "read committed": "its READ COMMITTED, as a control"},
    {NO_REUSE: "a control: OPTIMIZE_REUSE_RESULTS=FALSE", FRESH: FRESH_TOLD},
    most_tables=4, has_threads=True, opened=in_folder(H2Store))
