"""What a recorded run is made of: what each transaction did, and in which order the store started and committed them."""

from __future__ import annotations

import enum
from collections.abc import Sequence
from contextlib import AbstractContextManager
from dataclasses import dataclass, field
from typing import NamedTuple, Protocol

from si_history.errors import BadInput

# The writer of a row that stood there before the run: no transaction, so version 0.
NOBODY = 0


class StoreFault(BadInput):
    """The run can't go on: the server, the driver or the disk failed, or the record would not be the store's."""


class Aborted(Exception):
    """The store ended the transaction by its own rules: a conflict, a deadlock, a row that is there already."""


class Row(NamedTuple):
    """A row of the recorded table. It tells which transaction wrote it last, and whether that one deleted the key."""

    key: int
    writer: int
    is_gone: bool


@dataclass(frozen=True, slots=True)
class ReadDone:
    """A key was read; `saw` is the writer of the version that the store gave, or NOBODY."""

    ticket: int
    key: int
    saw: int


@dataclass(frozen=True, slots=True)
class RangeDone:
    """All keys from `low` to `high` were read; `found` has those of them that a transaction of the run wrote, ascending."""

    ticket: int
    low: int
    high: int
    found: tuple[tuple[int, int], ...]


@dataclass(frozen=True, slots=True)
class WriteDone:
    """A key was written, inserted or deleted."""

    ticket: int
    key: int


Operation = ReadDone | RangeDone | WriteDone


@dataclass(slots=True)
class Recorded:
    """One transaction, as the session that ran it saw it.

    Tickets count up over all sessions. `begun` was taken after the store had given the snapshot, or right before the
    statement that takes it, the ticket of a read after its answer, that of a write before it was sent, and `ended` before the
    commit was sent. So what one session read of another's write has the later ticket. Tickets tell the order of starts and
    commits only where one is taken at a time; else that order is the store's.
    """

    number: int
    begun: int
    operations: list[Operation] = field(default_factory=list)
    ended: int = 0
    is_committed: bool = False

    @property
    def written(self) -> set[int]:
        """The keys that it wrote."""
        return {operation.key for operation in self.operations if isinstance(operation, WriteDone)}


class Moment(enum.Enum):
    """What happened to a transaction at a point of the store's order."""

    START = "start"
    COMMIT = "commit"


class Point(NamedTuple):
    """A transaction's start, which is when its snapshot was taken, or its commit, which is when later snapshots see it."""

    moment: Moment
    number: int


# The store's own order of all starts and commits of a run.
Timeline = list[Point]


class Connection(Protocol):
    """One session of a store. Each call is one statement or a few; it raises Aborted or StoreFault where it fails."""

    def begin(self, number: int, is_reader: bool) -> None:
        """Begins transaction `number`, which writes nothing where `is_reader`."""

    def read(self, key: int) -> Row | None:
        """Reads one key's row."""

    def scan(self, low: int, high: int) -> list[Row]:
        """Reads all rows from `low` to `high`, ascending."""

    def insert(self, key: int, number: int) -> None:
        """Inserts a row, which transaction `number` wrote."""

    def update(self, key: int, number: int, is_gone: bool) -> None:
        """Writes a row that is there already, by transaction `number`."""

    def put(self, key: int, number: int) -> None:
        """Writes a row, by transaction `number`, whether it is there already or not."""

    def bump(self, key: int, number: int) -> int:
        """Reads and writes a key in one statement, and answers the writer of the version that it read."""

    def commit(self, number: int) -> None:
        """Commits transaction `number`, and notes its place in the store's own terms."""

    def rollback(self) -> None:
        """Ends the transaction with nothing done. Does no harm where the store ended it already."""

    def close(self) -> None:
        """Ends the session."""


class Store(Protocol):
    """A store with what one run needs in it. A refusal of the store, of any statement, is Aborted."""

    def version(self) -> str:
        """The version of the store."""

    def prepare(self, keys: Sequence[int]) -> None:
        """Makes the tables, with a row of NOBODY for each of the keys."""

    def connect(self) -> Connection:
        """Opens a session."""

    def is_late(self, is_reader: bool) -> bool:
        """Whether a transaction's first statement takes its snapshot, and not its begin."""

    def ordered(self) -> AbstractContextManager[object]:
        """Held while a snapshot is taken or a commit is done, and the ticket for it is taken."""

    def timeline(self, records: Sequence[Recorded]) -> Timeline:
        """The store's order of starts and commits. Raises StoreFault where what the store told is no such order."""

    def remove(self) -> None:
        """Takes the tables away again."""
