"""A small multiversion store, run by sessions that take turns, which logs what each transaction did.

    python3 store.py [--forget-check] >run.jsonl

It keeps snapshot isolation: a transaction reads the newest versions that had committed when it started, and of two that
overlap and write one key the first to commit wins. With --forget-check the store forgets the second rule.
"""

from __future__ import annotations

import json
import random
import sys
from dataclasses import dataclass, field

SESSIONS = 3
TRANSACTIONS = 12
ACCOUNTS = [f"acct/{number}" for number in range(1, 9)]


@dataclass
class Version:
    """A value of a key, with the time of its commit and the name of the transaction that wrote it."""

    commit: int
    writer: str | None
    value: int


class Store:
    """Keeps all versions of all keys, oldest first. Its clock counts commits."""

    def __init__(self, checks_writes: bool) -> None:
        self.clock = 0
        self.checks_writes = checks_writes
        self.versions = {key: [Version(0, None, 100)] for key in ACCOUNTS}

    def begin(self, name: str) -> Transaction:
        return Transaction(self, name, self.clock)


@dataclass
class Transaction:
    """What a transaction read and wrote, in its own order. `start` is its snapshot: it has all commits up to that time."""

    store: Store
    name: str
    start: int
    writes: dict[str, int] = field(default_factory=dict)
    operations: list[list[str | None]] = field(default_factory=list)

    def read(self, key: str) -> int:
        if key in self.writes:
            self.operations.append(["r", key, self.name])
            return self.writes[key]
        seen = [version for version in self.store.versions[key] if version.commit <= self.start][-1]
        self.operations.append(["r", key, seen.writer])
        return seen.value

    def write(self, key: str, value: int) -> None:
        self.operations.append(["w", key])
        self.writes[key] = value

    def commit(self) -> None:
        """Commits, or aborts where another transaction committed one of its keys after it started. Then it writes the log."""
        if self.store.checks_writes and any(self.store.versions[key][-1].commit > self.start for key in self.writes):
            return self.log(None)
        self.store.clock += 1
        for key, value in self.writes.items():
            self.store.versions[key].append(Version(self.store.clock, self.name, value))
        self.log(self.store.clock)

    def log(self, commit: int | None) -> None:
        print(json.dumps({
            "txn": self.name, "start": self.start, "commit": commit, "aborted": commit is None, "ops": self.operations,
        }))


def transfer(transaction: Transaction, chance: random.Random) -> None:
    """Moves money from one account to another."""
    source, target = chance.sample(ACCOUNTS, 2)
    amount = chance.randint(1, 9)
    transaction.write(source, transaction.read(source) - amount)
    transaction.write(target, transaction.read(target) + amount)


def run(store: Store, chance: random.Random) -> None:
    """Begins, works and commits in turns, so that up to SESSIONS transactions overlap."""
    going: list[Transaction] = []
    begun = 0
    while begun < TRANSACTIONS or going:
        if begun < TRANSACTIONS and (len(going) < SESSIONS and chance.random() < 0.5 or not going):
            begun += 1
            going.append(store.begin(f"T{begun}"))
            transfer(going[-1], chance)
        else:
            going.pop(chance.randrange(len(going))).commit()


if __name__ == "__main__":
    run(Store(checks_writes="--forget-check" not in sys.argv), random.Random(2))
