"""Sessions of stores that speak SQL: the statements of a transaction, the same for all of them.

The keys are spread over one table or more, key k to table k modulo their number. A row has the key, its last writer, whether
that one deleted it, and the writer before it, which an update in one statement notes so that it can be asked for.
"""

from __future__ import annotations

from abc import ABC, abstractmethod

from si_history.record.model import NOBODY, Row

# A number of a row, or none.
Cell = int | None

CREATE = "CREATE TABLE kv{0} (id BIGINT NOT NULL PRIMARY KEY, writer BIGINT NOT NULL, gone INTEGER NOT NULL, prev BIGINT)"
FILL = f"INSERT INTO kv{{0}} VALUES (?, {NOBODY}, 0, NULL)"


class SqlConnection(ABC):
    """One session. The same statement is always of the same text, so that a driver may keep it prepared."""

    def __init__(self, tables: int) -> None:
        self._tables = tables

    @abstractmethod
    def ask(self, statement: str, values: tuple[int, ...]) -> list[tuple[Cell, ...]]:
        """Has the store answer a query. Raises Aborted or StoreFault where it fails."""

    @abstractmethod
    def change(self, statement: str, values: tuple[int, ...]) -> int:
        """Has the store change rows, and answers how many. Raises Aborted or StoreFault where it fails."""

    def claim(self, key: int) -> None:
        """Raises Aborted where a write of the key would wait without an end. Is called before each write."""

    def read(self, key: int) -> Row | None:
        rows = self.ask(f"SELECT id, writer, gone FROM {self._table(key)} WHERE id = ?", (key,))
        return _row(rows[0]) if rows else None

    def scan(self, low: int, high: int) -> list[Row]:
        selects = [f"SELECT id, writer, gone FROM kv{table} WHERE id BETWEEN ? AND ?" for table in range(self._tables)]
        return sorted(_row(cells) for cells in self.ask(" UNION ALL ".join(selects), (low, high) * self._tables))

    def insert(self, key: int, number: int) -> None:
        self.claim(key)
        self.change(f"INSERT INTO {self._table(key)} VALUES (?, ?, 0, NULL)", (key, number))

    def update(self, key: int, number: int, is_gone: bool) -> None:
        self.claim(key)
        changed = self.change(f"UPDATE {self._table(key)} SET writer = ?, gone = ? WHERE id = ?", (number, int(is_gone), key))
        # A row that a transaction saw is missing only where it saw one that nobody committed.
        if changed == 0:
            self.insert(key, number)

    def put(self, key: int, number: int) -> None:
        self.update(key, number, is_gone=False)

    def bump(self, key: int, number: int) -> int:
        table = self._table(key)
        self.claim(key)
        if self.change(f"UPDATE {table} SET prev = writer, writer = ?, gone = 0 WHERE id = ?", (number, key)) == 0:
            self.insert(key, number)
            return NOBODY
        [(previous,)] = self.ask(f"SELECT prev FROM {table} WHERE id = ?", (key,))
        return previous or NOBODY

    def _table(self, key: int) -> str:
        return f"kv{key % self._tables}"


def _row(cells: tuple[Cell, ...]) -> Row:
    key, writer, gone = cells
    return Row(key or 0, writer or NOBODY, bool(gone))
