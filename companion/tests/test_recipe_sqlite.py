"""The recipe for SQLite in docs/RECORDING.md: a table with one counter tells snapshots and commits."""

from __future__ import annotations

import random
import sqlite3
import tempfile
import unittest
from pathlib import Path

from si_history.from_transactions import convert
from si_history.history import text_of
from tests.random_store import Line
from tests.support import NO_PROGRAM, PROGRAM, audit, converted

SESSIONS = 4
STEPS = 3_000
KEYS = 8
LEAST_SEEN = 50


class Session:
    """A connection, and the transaction that runs on it, with the line of the log that it becomes."""

    def __init__(self, path: Path) -> None:
        self.connection = sqlite3.connect(path, isolation_level=None, timeout=0.0)
        self.line: Line | None = None
        self.operations: list[list[object]] = []

    def ask(self, statement: str, *values: object) -> object:
        """The first value of the answer, or None."""
        row = self.connection.execute(statement, values).fetchone()
        return None if row is None else row[0]

    def begin(self, name: str) -> None:
        self.connection.execute("BEGIN")
        self.operations = []
        self.line = {"txn": name, "start": self.ask("SELECT n FROM clock"), "ops": self.operations}

    def read(self, key: int) -> None:
        self.operations.append(["r", key, self.ask("SELECT value FROM kept WHERE key = ?", key)])

    def write(self, key: int, value: int) -> None:
        self.ask("INSERT INTO kept VALUES (?, ?) ON CONFLICT (key) DO UPDATE SET value = excluded.value", key, value)
        self.operations.append(["w", key, value])

    def end(self) -> Line:
        """Commits. One that wrote counts first; one that didn't takes its start for its commit."""
        assert self.line is not None
        wrote = any(operation[0] == "w" for operation in self.operations)
        made = self.line | {"commit": self.ask("UPDATE clock SET n = n + 1 RETURNING n") if wrote else self.line["start"]}
        self.connection.execute("COMMIT")
        self.line = None
        return made

    def give_up(self) -> Line:
        """Rolls back."""
        assert self.line is not None
        made = self.line | {"commit": None, "aborted": True}
        self.connection.execute("ROLLBACK")
        self.line = None
        return made


def recorded(directory: str) -> list[Line]:
    """The log of a random run."""
    path, r = Path(directory) / "store", random.Random(11)
    sessions = [Session(path) for _ in range(SESSIONS)]
    for statement in (
        "PRAGMA journal_mode = WAL", "CREATE TABLE clock (n)", "INSERT INTO clock VALUES (0)",
        "CREATE TABLE kept (key PRIMARY KEY, value)",
    ):
        sessions[0].ask(statement)
    lines: list[Line] = [{"values": "unique"}]
    for step in range(STEPS):
        session = r.choice(sessions)
        try:
            if session.line is None:
                session.begin(f"T{step}")
            elif r.random() < 0.2:
                lines.append(session.end())
            elif r.random() < 0.4:
                session.write(r.randrange(KEYS), step)
            else:
                session.read(r.randrange(KEYS))
        except sqlite3.OperationalError:
            lines.append(session.give_up())
    lines += [session.give_up() for session in sessions if session.line is not None]
    for session in sessions:
        session.connection.close()
    return lines


@unittest.skipUnless(PROGRAM.exists(), NO_PROGRAM)
class SqliteTest(unittest.TestCase):
    def test_a_record_of_sqlite_has_no_finding(self) -> None:
        with tempfile.TemporaryDirectory() as directory:
            lines = recorded(directory)
        wrote = [line for line in lines[1:] if not line.get("aborted") and line["commit"] != line["start"]]
        self.assertGreaterEqual(min(len(wrote), sum(bool(line.get("aborted")) for line in lines)), LEAST_SEEN)
        made = converted(convert, list(lines))
        status, report = audit(text_of(made.events))
        self.assertEqual((status, report.splitlines()[1]), (0, "isolation kept"))
        # A start that is one commit too early, as a clock that is read elsewhere may tell, shows at once.
        for line in lines[1:]:
            if isinstance(line["start"], int) and line in wrote:
                line["start"] -= 1
        self.assertIn("isolation broken", audit(text_of(converted(convert, list(lines)).events))[1])


if __name__ == "__main__":
    unittest.main()
