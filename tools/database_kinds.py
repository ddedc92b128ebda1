"""What `make databases` records: stores with their settings, and what is expected of the runs of each."""
import dataclasses
import enum
import re


class Share(enum.Enum):
    """Of how many runs something is expected."""

    ALL = "all"
    SOME = "some"
    NONE = "none"
    NOT_ALL = "not all"
    ANY = "any"

    def holds(self, count: int, runs: int) -> bool:
        """Whether so many of all runs are as many as expected."""
        return {Share.ALL: count == runs, Share.SOME: count > 0, Share.NONE: count == 0, Share.NOT_ALL: count < runs,
                Share.ANY: True}[self]


@dataclasses.dataclass(frozen=True)
class Kind:
    """A store with a setting: its words for the recorder, and of how many of its runs what is expected.

    `finding` is the name of a finding that one run at least has. What is expected of some runs only is asked for where there
    are FEWEST_RUNS of them.
    """

    store: str
    command: str
    setting: str
    words: tuple[str, ...]
    kept: Share
    serializable: Share = Share.ANY
    finding: str = ""

    @property
    def folder(self) -> str:
        """What the folder of its runs is called."""
        return re.sub("[^a-z0-9]+", "_", f"{self.command} {self.setting}".lower())


FEWEST_RUNS = 20
ALL, SOME, NONE, NOT_ALL, ANY = Share


def level(name: str, *more: str) -> tuple[str, ...]:
    """The recorder's words for a level, and for settings besides."""
    return ("--level", name, *(word for setting in more for word in ("--setting", setting)))


BEGINS = ("--notes", "begins")
ONE_THREAD = ("--interleave", "--workload", "general")
TWO_TABLES = ("--tables", "2")

KINDS = (
    Kind("PostgreSQL", "postgres", "repeatable read", ("--level", "repeatable read", *ONE_THREAD), ALL, NOT_ALL),
    Kind("PostgreSQL", "postgres", "serializable", ("--level", "serializable", *ONE_THREAD), ALL, ALL),
    Kind("MariaDB", "mariadb", "innodb_snapshot_isolation=OFF",
         ("--snapshot-isolation", "off", *ONE_THREAD), NONE, NONE, "bad write"),
    Kind("MariaDB", "mariadb", "innodb_snapshot_isolation=ON", ("--snapshot-isolation", "on", *ONE_THREAD), ALL, NOT_ALL),
    Kind("SQLite", "sqlite", "write-ahead log", level("wal"), ALL, ALL),
    Kind("SQLite", "sqlite", "write-ahead log, BEGIN IMMEDIATE", level("wal", "immediate"), ALL, ALL),
    Kind("SQLite", "sqlite", "rollback journal", level("delete"), ALL, ALL),
    Kind("SQLite", "sqlite", "control: read_uncommitted", level("read uncommitted"), NONE, ANY),
    Kind("SQLite", "sqlite", "control: starts noted at BEGIN", (*level("wal"), *BEGINS), NONE, ALL),
    Kind("LMDB", "lmdb", "as it is", (), ALL, ALL),
    Kind("Berkeley DB", "berkeley", "DB_TXN_SNAPSHOT", level("snapshot"), ALL, NOT_ALL),
    Kind("Berkeley DB", "berkeley", "DB_TXN_SNAPSHOT, readers only", level("snapshot", "readers only"), ANY, ALL),
    Kind("Berkeley DB", "berkeley", "locks", level("locks"), ANY, ALL),
    Kind("Berkeley DB", "berkeley", "control: DB_READ_COMMITTED", level("read committed"), NONE, NOT_ALL),
    Kind("Berkeley DB", "berkeley", "control: starts noted at txn_begin", (*level("snapshot"), *BEGINS), NONE, NOT_ALL),
    Kind("H2", "h2", "SNAPSHOT", level("snapshot"), NOT_ALL, NOT_ALL, "stale read"),
    Kind("H2", "h2", "REPEATABLE READ", level("repeatable read"), NOT_ALL, NOT_ALL, "stale read"),
    Kind("H2", "h2", "SERIALIZABLE", level("serializable"), NOT_ALL, NOT_ALL, "stale read"),
    Kind("H2", "h2", "SNAPSHOT, OPTIMIZE_REUSE_RESULTS=FALSE", level("snapshot", "no reuse"), ALL, NOT_ALL),
    Kind("H2", "h2", "SNAPSHOT, statements prepared anew", level("snapshot", "fresh statements"), ALL, NOT_ALL),
    Kind("H2", "h2", "SNAPSHOT, OPTIMIZE_REUSE_RESULTS=FALSE, two tables",
         (*level("snapshot", "no reuse"), *TWO_TABLES), ALL, NOT_ALL),
    Kind("H2", "h2", "REPEATABLE READ, OPTIMIZE_REUSE_RESULTS=FALSE, two tables",
         (*level("repeatable read", "no reuse"), *TWO_TABLES), NONE, NOT_ALL, "future read"),
    Kind("H2", "h2", "REPEATABLE READ, OPTIMIZE_REUSE_RESULTS=FALSE", level("repeatable read", "no reuse"), ALL, NOT_ALL),
    Kind("H2", "h2", "control: READ COMMITTED", level("read committed"), NONE, NOT_ALL),
    Kind("HSQLDB", "hsqldb", "MVCC, SERIALIZABLE", level("serializable"), ALL, NOT_ALL),
    Kind("HSQLDB", "hsqldb", "MVCC, SERIALIZABLE, two tables", (*level("serializable"), *TWO_TABLES), ALL, NOT_ALL),
    Kind("HSQLDB", "hsqldb", "MVCC, REPEATABLE READ", level("repeatable read"), ALL, NOT_ALL),
    Kind("HSQLDB", "hsqldb", "control: MVCC, READ COMMITTED", level("read committed"), NONE, NOT_ALL),
    Kind("Firebird", "firebird", "SNAPSHOT", level("snapshot"), ALL, NOT_ALL),
    Kind("Firebird", "firebird", "SNAPSHOT TABLE STABILITY", level("table stability"), ALL, NOT_ALL),
    Kind("Firebird", "firebird", "SNAPSHOT TABLE STABILITY, RESERVING", level("table stability", "reserving"), ALL, ALL),
    Kind("Firebird", "firebird", "control: READ COMMITTED", level("read committed"), NONE, NOT_ALL),
    Kind("Derby", "derby", "SERIALIZABLE", level("serializable"), ANY, ALL),
    Kind("Derby", "derby", "control: READ COMMITTED", level("read committed"), NONE, NOT_ALL),
    Kind("RocksDB", "rocksdb", "optimistic", level("optimistic"), ALL, NOT_ALL),
    Kind("RocksDB", "rocksdb", "optimistic, GetForUpdate", level("optimistic", "get for update"), ALL, NOT_ALL),
    Kind("RocksDB", "rocksdb", "optimistic, GetForUpdate, ranges by key",
         level("optimistic", "get for update", "ranges by key"), ALL, ALL),
    Kind("RocksDB", "rocksdb", "pessimistic", level("pessimistic"), ALL, NOT_ALL),
    Kind("RocksDB", "rocksdb", "pessimistic, GetForUpdate, ranges by key",
         level("pessimistic", "get for update", "ranges by key"), ALL, ALL),
    Kind("RocksDB", "rocksdb", "control: no set_snapshot", level("no snapshot"), NONE, NOT_ALL),
    Kind("MyRocks", "myrocks", "REPEATABLE READ", level("repeatable read"), ALL, NOT_ALL),
    Kind("MyRocks", "myrocks", "control: READ COMMITTED", level("read committed"), NONE, NOT_ALL),
)
