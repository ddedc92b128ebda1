"""The report of a history, as typed data: what `si_audit` writes, and docs/FORMAT.md explains line by line.

The verdicts are the report's. `reasons` are the lines below a line that explain it; only an explained report has such.
`remarks` are those of these lines that aren't known here.
"""

from __future__ import annotations

import enum
from collections.abc import Mapping
from dataclasses import dataclass, field
from typing import NamedTuple

from si_history.history import Event


class EdgeKind(enum.Enum):
    """What an edge from T to U by a key says: T must stand before U, because .."""

    WW = "ww"
    """.. both wrote the key, and T's version is before U's."""
    WR = "wr"
    """.. U saw T's version, or a later one."""
    RW = "rw"
    """.. T saw a version that is before U's."""


class Edge(NamedTuple):
    """One edge: the source must stand before the target in a serial order, because of the key."""

    source: int
    kind: EdgeKind
    target: int
    key: int


class ReadName(enum.Enum):
    """What is wrong with a bad read: the first of these that fits."""

    OWN_WRITE_MISSED = "own write missed"
    ABORTED_READ = "aborted read"
    UNCOMMITTED_READ = "uncommitted read"
    FUTURE_READ = "future read"
    PHANTOM = "phantom"
    STALE_READ = "stale read"


class Role(enum.Enum):
    """What a line of reasons is about that begins with neither a name of a bad read nor a step."""

    SAW = "saw"
    DUE = "due"
    LOST_UPDATE = "lost update"
    WRITE_CONFLICT = "write conflict"
    BOTH_WRITE = "both write and overlap"
    """What earlier auditors call both of them."""
    IN_NO_SNAPSHOT = "in no snapshot"
    """A read of what no snapshot has."""
    NOT_WITHOUT = "not without"
    """A commit that the snapshot has to have, and the event that asks for it."""
    NOT_WITH = "not with"
    """A commit that the snapshot must not have, and the read that excludes it."""
    NOT_AFTER = "not after"
    """The first read or write, before which the snapshot was taken."""


BOUNDS = (Role.NOT_WITHOUT, Role.NOT_WITH, Role.NOT_AFTER)
"""The roles of lines that name an event before their colon, or have none."""


@dataclass(frozen=True, slots=True)
class Placed:
    """An event at its place. A range read lists no key but the one that the reason is about."""

    place: int
    event: Event


@dataclass(frozen=True, slots=True)
class Version:
    """Where a transaction first wrote a key, and where it committed or aborted, if it did."""

    write: Placed
    end: Placed | None


@dataclass(frozen=True, slots=True)
class Started:
    """After how many events a transaction started."""

    transaction: int
    after: int


@dataclass(frozen=True, slots=True)
class Reason:
    """One line that explains the line above it."""

    head: ReadName | Role | Edge
    parts: tuple[Placed | Version | Started, ...]


@dataclass(frozen=True, slots=True)
class Counts:
    """How many events the history has, and how many transactions of each fate."""

    events: int
    committed: int
    aborted: int
    open: int


@dataclass(slots=True)
class Verdict:
    """One of the three answers yes or no: isolation kept, ssi pass, serializable."""

    holds: bool


@dataclass(slots=True)
class BadRead:
    """At `place` the transaction read the key and saw version `saw`, where `due` was due. Version 0 is the first one."""

    place: int
    transaction: int
    key: int
    saw: int
    due: int
    reasons: list[Reason] = field(default_factory=list, kw_only=True)
    remarks: list[str] = field(default_factory=list, kw_only=True)


@dataclass(slots=True)
class BadWrite:
    """Two committed transactions that overlap wrote the key; `first` committed first."""

    key: int
    first: int
    second: int
    reasons: list[Reason] = field(default_factory=list, kw_only=True)
    remarks: list[str] = field(default_factory=list, kw_only=True)


@dataclass(slots=True)
class Unexplained:
    """At `place` the transaction read the key and saw version `saw`, which no serial order explains."""

    place: int
    transaction: int
    key: int
    saw: int
    reasons: list[Reason] = field(default_factory=list, kw_only=True)
    remarks: list[str] = field(default_factory=list, kw_only=True)


@dataclass(slots=True)
class Pivot:
    """Overlapping transactions with an rw edge to the pivot, with one from it, and those of the latter that commit first."""

    transaction: int
    sources: tuple[int, ...]
    targets: tuple[int, ...]
    firsts: tuple[int, ...]


@dataclass(slots=True)
class Order:
    """The committed transactions in an order that keeps every edge."""

    transactions: tuple[int, ...]


@dataclass(slots=True)
class Cycle:
    """Edges of which each starts where the one before ends; the last ends where the first starts."""

    steps: tuple[Edge, ...]
    reasons: list[Reason] = field(default_factory=list, kw_only=True)
    remarks: list[str] = field(default_factory=list, kw_only=True)

    @property
    def transactions(self) -> tuple[int, ...]:
        return tuple(step.source for step in self.steps)


@dataclass(slots=True)
class Structure:
    """A dangerous structure: an rw edge to a pivot, and one from it to the transaction that commits first."""

    steps: tuple[Edge, Edge]
    reasons: list[Reason] = field(default_factory=list, kw_only=True)
    remarks: list[str] = field(default_factory=list, kw_only=True)

    @property
    def transactions(self) -> tuple[int, int, int]:
        return self.steps[0].source, self.steps[1].source, self.steps[1].target


@dataclass(slots=True)
class Snapshot:
    """Which snapshots fit a transaction that its start doesn't fit: those after so many events, from first to last, or none.

    None is taken behind its first read or write.
    """

    transaction: int
    fitting: tuple[int, int] | None
    reasons: list[Reason] = field(default_factory=list, kw_only=True)
    remarks: list[str] = field(default_factory=list, kw_only=True)


@dataclass(slots=True)
class Report:
    """A whole report but for its edges, which can be millions: `report_text.edges_in` gives them one by one."""

    counts: Counts
    isolation: Verdict
    bad_reads: list[BadRead]
    bad_writes: list[BadWrite]
    unexplained: list[Unexplained]
    edge_count: int
    """How many lines of edges the report has."""
    pivots: list[Pivot]
    ssi: Verdict
    structure: Structure | None
    serializable: Verdict
    outcome: Order | Cycle
    snapshots: list[Snapshot] = field(default_factory=list)
    left_out: Mapping[tuple[str, str], int] = field(default_factory=dict)
    """How many findings were read and not kept, by the first word of their lines and by their names."""

    def count_left_out(self, head: str) -> int:
        """How many findings were not kept whose lines begin with this word."""
        return sum(count for (word, _), count in self.left_out.items() if word == head)

    @property
    def tells_snapshots(self) -> bool:
        """Whether the report tells which snapshots would fit. A brief one doesn't, nor that of an earlier auditor; where isolation
        was kept each start fits."""
        return self.isolation.holds or bool(self.snapshots) or self.count_left_out("snapshot") > 0

    @property
    def torn_count(self) -> int:
        """How many transactions no snapshot fits."""
        return sum(it.fitting is None for it in self.snapshots) + self.left_out.get(("snapshot", "none"), 0)

    def meets(self, level: str) -> bool:
        """Whether the report says that the history meets a level, which is `gsi`, `si`, `ssi` or `serializable`."""
        if level == "gsi":
            return self.tells_snapshots and not self.torn_count
        if level == "serializable":
            return self.isolation.holds and self.serializable.holds
        return self.isolation.holds if level == "si" else self.ssi.holds

    @property
    def cycle(self) -> Cycle | None:
        return self.outcome if isinstance(self.outcome, Cycle) else None

    @property
    def steps(self) -> tuple[Edge, ...]:
        """The edges for a picture to show: those of the cycle, and where there is none those of the dangerous structure."""
        if self.cycle is not None:
            return self.cycle.steps
        return self.structure.steps if self.structure is not None else ()


Explained = BadRead | BadWrite | Unexplained | Snapshot | Structure | Cycle
"""What a line says, where the lines below it may explain it."""
