"""A simulated store under snapshot isolation that writes each event as it is recorded, so that a history may be of any length.

Of each key the store knows the first version, the two newest ones, and those before them that an open transaction may still
have to see.
"""

from __future__ import annotations

from array import array
from collections.abc import Callable, Iterator
from dataclasses import dataclass, field
from typing import NamedTuple

TOKENS_AT_ONCE = 10_000
Write = Callable[[str], object]


class Version(NamedTuple):
    """A version of a key: the place of its commit, who wrote it, and the place of the first write. Version 0 has only zeros."""

    commit: int
    writer: int
    write: int

    def told(self, key: int, end: str = "c") -> str:
        """The version as reasons tell it."""
        written = f"event {self.write} w{self.writer}[{key}]"
        return f"{written}, event {self.commit} {end}{self.writer}" if self.commit else written


@dataclass(slots=True)
class Transaction:
    """An open transaction: how many events were recorded before its first one, and its keys with the place of the first write."""

    number: int
    start: int
    written: dict[int, int] = field(default_factory=dict)


class Versions:
    """The versions of the keys from 0 up, by their commits."""

    def __init__(self, keys: int) -> None:
        nothing = bytes(4 * keys)
        self.commits, self.writers, self._writes = (array("I", nothing) for _ in range(3))
        self._earlier, self._first = (tuple(array("I", nothing) for _ in range(3)) for _ in range(2))
        self._older: dict[int, list[Version]] = {}

    def newest(self, key: int) -> Version:
        return Version(self.commits[key], self.writers[key], self._writes[key])

    def earlier(self, key: int) -> Version:
        """The version before the newest one."""
        return Version(*(column[key] for column in self._earlier))

    def first(self, key: int) -> Version:
        """The version that came after version 0."""
        return Version(*(column[key] for column in self._first))

    def due(self, start: int, key: int) -> int:
        """Who wrote the version that a snapshot has which was taken at this start."""
        if self.commits[key] <= start:
            return self.writers[key]
        before = [*self._older.get(key, ()), self.earlier(key)]
        return next((it.writer for it in reversed(before) if it.commit <= start), 0)

    def add(self, key: int, version: Version, oldest: int) -> None:
        """Adds the newest version of a key. No open transaction started before `oldest`."""
        newest, earlier = self.newest(key), self.earlier(key)
        if not newest.commit:
            for column, number in zip(self._first, version):
                column[key] = number
        if oldest >= newest.commit:
            self._older.pop(key, None)
        else:
            self._older.setdefault(key, []).append(earlier)
        for column, number in zip(self._earlier, newest):
            column[key] = number
        self.commits[key], self.writers[key], self._writes[key] = version


class Store:
    """The store: its events go to `write`, a line each, and its open transactions stand in `opened`."""

    def __init__(self, keys: int, write: Write) -> None:
        self.keys = keys
        self.versions = Versions(keys)
        self.place = 0
        self.opened: dict[int, Transaction] = {}
        self.started = self.committed = self.aborted = 0
        self._write = write
        self._tokens: list[str] = []

    def record(self, token: str) -> int:
        """Records an event, and answers its place."""
        self._tokens.append(token)
        self.place += 1
        if len(self._tokens) == TOKENS_AT_ONCE:
            self.flush()
        return self.place

    def flush(self) -> None:
        """Writes what isn't written yet."""
        self._write("".join(f"{token}\n" for token in self._tokens))
        self._tokens.clear()

    def start(self) -> Transaction:
        """Starts a transaction, whose first event has to be recorded at once."""
        self.started += 1
        txn = self.opened[self.started] = Transaction(self.started, self.place)
        return txn

    def due(self, txn: Transaction, key: int) -> int:
        """The version of the key that the transaction is to see."""
        return txn.number if key in txn.written else self.versions.due(txn.start, key)

    def read(self, txn: Transaction, key: int) -> int:
        return self.record(f"r{txn.number}[{key}:{self.due(txn, key)}]")

    def read_range(self, txn: Transaction, low: int, high: int, other: dict[int, int] | None = None) -> int:
        """Reads all keys from low to high, and sees of some keys other versions than those that are due."""
        seen = dict(zip(range(low, high + 1), self.versions.writers[low : high + 1]))
        late = any(commit > txn.start for commit in self.versions.commits[low : high + 1])
        seen |= {key: self.due(txn, key) for key in (seen if late else seen.keys() & txn.written.keys())}
        seen |= other or {}
        listed = ",".join(f"{key}:{writer}" for key, writer in seen.items() if writer)
        return self.record(f"r{txn.number}[{low}..{high}{';' if listed else ''}{listed}]")

    def write(self, txn: Transaction, key: int) -> None:
        place = self.record(f"w{txn.number}[{key}]")
        txn.written.setdefault(key, place)

    def end(self, txn: Transaction) -> int:
        """Commits, or aborts where another writer of one of the transaction's keys committed since it started."""
        commits, start = self.versions.commits, txn.start
        for key in txn.written:
            if commits[key] > start:
                return self.abort(txn)
        return self.commit(txn)

    def commit(self, txn: Transaction) -> int:
        """Commits whatever others did, and answers the place."""
        place = self.record(f"c{txn.number}")
        del self.opened[txn.number]
        self.committed += 1
        oldest = min((it.start for it in self.opened.values()), default=place)
        for key, write in txn.written.items():
            self.versions.add(key, Version(place, txn.number, write), oldest)
        return place

    def abort(self, txn: Transaction) -> int:
        place = self.record(f"a{txn.number}")
        del self.opened[txn.number]
        self.aborted += 1
        return place

    def leave(self, txn: Transaction) -> None:
        """Forgets a transaction, which never ends."""
        del self.opened[txn.number]

    def counts(self) -> Iterator[str]:
        """The first line of the report."""
        still_open = self.started - self.committed - self.aborted
        yield f"events {self.place} committed {self.committed} aborted {self.aborted} open {still_open}"
