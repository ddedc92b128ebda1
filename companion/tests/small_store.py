"""A small store in memory that keeps snapshot isolation, by its rules as they are worded: the recorder is tried on it."""

from __future__ import annotations

import threading
from collections.abc import Sequence
from contextlib import AbstractContextManager, nullcontext

from si_history.record.local import timeline
from si_history.record.model import NOBODY, Aborted, Moment, Point, Recorded, Row, Timeline


class SmallStore:
    """Keeps all rows of all commits. One lock is held around each commit and each snapshot.

    Where it is late the first statement takes the snapshot, and the lock is the one that the driver holds.
    """

    def __init__(self, late: bool = False) -> None:
        self.lock = threading.RLock()
        self.late = late
        self.commits: list[dict[int, Row]] = []
        self.points: Timeline = []

    def version(self) -> str:
        return "1"

    def is_late(self, is_reader: bool) -> bool:
        return self.late

    def ordered(self) -> AbstractContextManager[object]:
        return self.lock if self.late else nullcontext()

    def prepare(self, keys: Sequence[int]) -> None:
        self.commits.append({key: Row(key, NOBODY, False) for key in keys})

    def connect(self) -> SmallConnection:
        return SmallConnection(self)

    def timeline(self, records: Sequence[Recorded]) -> Timeline:
        return timeline(records) if self.late else self.points

    def remove(self) -> None:
        self.commits.clear()


class SmallConnection:
    """One session. The first committer wins: a commit that writes what was committed since the snapshot is refused."""

    def __init__(self, store: SmallStore) -> None:
        self.store = store
        self.start: int | None = None
        self.own: dict[int, Row] = {}

    def begin(self, number: int, is_reader: bool) -> None:
        self.start, self.own = None, {}
        if not self.store.late:
            with self.store.lock:
                self.start = len(self.store.commits)
                self.store.points.append(Point(Moment.START, number))

    def rows(self) -> dict[int, Row]:
        if self.start is None:
            self.start = len(self.store.commits)
        seen: dict[int, Row] = {}
        for commit in self.store.commits[:self.start]:
            seen.update(commit)
        return seen | self.own

    def read(self, key: int) -> Row | None:
        return self.rows().get(key)

    def scan(self, low: int, high: int) -> list[Row]:
        return sorted(row for key, row in self.rows().items() if low <= key <= high)

    def insert(self, key: int, number: int) -> None:
        assert key not in self.rows()
        self.own[key] = Row(key, number, False)

    def update(self, key: int, number: int, is_gone: bool) -> None:
        assert key in self.rows()
        self.own[key] = Row(key, number, is_gone)

    def put(self, key: int, number: int) -> None:
        self.rows()
        self.own[key] = Row(key, number, False)

    def bump(self, key: int, number: int) -> int:
        row = self.read(key)
        self.put(key, number)
        return row.writer if row else NOBODY

    def commit(self, number: int) -> None:
        with self.store.lock:
            if any(key in commit for commit in self.store.commits[self.start:] for key in self.own):
                raise Aborted("the first committer wins")
            self.store.commits.append(self.own)
            self.store.points.append(Point(Moment.COMMIT, number))

    def rollback(self) -> None:
        self.own = {}

    def close(self) -> None:
        self.own = {}
