"""All that a report tells of a history, and the lines that tell it."""

from collections.abc import Iterable, Iterator
from dataclasses import dataclass
from typing import NamedTuple

KINDS = ("ww", "wr", "rw")
WW, WR, RW = range(3)
# The levels that a history can be held against, as --check names them.
LEVELS = (SERIALIZABLE, SSI, SI, GSI) = ("serializable", "ssi", "si", "gsi")


class BadRead(NamedTuple):
    place: int
    key: int
    txn: int
    saw: int
    due: int

    @property
    def line(self) -> str:
        return f"bad-read {self.place} {self.txn} {self.key} saw {self.saw} due {self.due}"


class BadWrite(NamedTuple):
    key: int
    first: int
    second: int

    @property
    def line(self) -> str:
        return f"bad-write {self.key} {self.first} {self.second}"


class Unexplained(NamedTuple):
    place: int
    key: int
    txn: int
    saw: int

    @property
    def line(self) -> str:
        return f"unexplained {self.place} {self.txn} {self.key} {self.saw}"


class Edge(NamedTuple):
    """An edge. Its kind is its place in KINDS."""

    source: int
    target: int
    kind: int
    key: int

    @property
    def line(self) -> str:
        return f"edge {self.source} {KINDS[self.kind]} {self.target} {self.key}"

    @property
    def arrow(self) -> str:
        """What stands between the two transactions where edges are told one after another."""
        return f">{KINDS[self.kind]}:{self.key}>"


class Pivot(NamedTuple):
    txn: int
    ins: list[int]
    outs: list[int]
    firsts: list[int]


class Snapshot(NamedTuple):
    """A transaction that its start doesn't fit, and the least and the greatest number before it acts that fits it, if one
    does."""

    txn: int
    fitting: tuple[int, int] | None

    @property
    def line(self) -> str:
        return f"snapshot {self.txn} {'none' if self.fitting is None else f'from {self.fitting[0]} to {self.fitting[1]}'}"


class Counts(NamedTuple):
    events: int
    committed: int
    aborted: int
    open: int


@dataclass(frozen=True)
class Account:
    """What is found in a history. Lists of findings are in the order of their lines, and each finding's fields stand in
    the order by which its list is sorted. The verdict is an order of transactions, or the edges of the printed cycle."""

    counts: Counts
    bad_reads: list[BadRead]
    bad_writes: list[BadWrite]
    unexplained: list[Unexplained]
    snapshots: list[Snapshot]
    edges: list[Edge]
    pivots: list[Pivot]
    is_serializable: bool
    order: list[int] | None
    cycle: list[Edge]

    @property
    def is_kept(self) -> bool:
        """Whether isolation was kept."""
        return not self.bad_reads and not self.bad_writes

    @property
    def passes(self) -> bool:
        """Whether the test of serializable snapshot isolation is passed."""
        return self.is_kept and not any(it.firsts for it in self.pivots)

    def status(self, level: str = SERIALIZABLE) -> int:
        """The program's status where it is told to check this level."""
        met = {SERIALIZABLE: self.is_kept and self.is_serializable, SSI: self.passes, SI: self.is_kept}
        met[GSI] = all(it.fitting is not None for it in self.snapshots)
        return 0 if met[level] else 1

    def lines(self, brief: bool = False) -> Iterator[str]:
        """The lines of the report. A brief one has none of edges and pivots, and only the explained one tells of snapshots."""
        yield from self.head()
        yield from (it.line for it in self.bad_reads)
        yield from (it.line for it in self.bad_writes)
        yield from (it.line for it in self.unexplained)
        if not brief:
            yield from (it.line for it in self.edges)
            yield from map(pivot_line, self.pivots)
        yield self.ssi_line
        yield self.serializable_line
        yield last_line(self)

    def head(self) -> Iterator[str]:
        """The first two lines."""
        counts = self.counts
        yield f"events {counts.events} committed {counts.committed} aborted {counts.aborted} open {counts.open}"
        yield f"isolation {'kept' if self.is_kept else 'broken'}"

    @property
    def ssi_line(self) -> str:
        return f"ssi {'pass' if self.passes else 'fail'}"

    @property
    def serializable_line(self) -> str:
        return f"serializable {'yes' if self.is_serializable else 'no'}"

    def report(self, brief: bool = False) -> bytes:
        """The report, byte for byte."""
        return bytes_of(self.lines(brief))


def bytes_of(lines: Iterable[str]) -> bytes:
    """The lines, each with its end."""
    return "".join(f"{line}\n" for line in lines).encode()


def pivot_line(pivot: Pivot) -> str:
    words = ["pivot", pivot.txn, "in", *pivot.ins, "out", *pivot.outs]
    words += ["first", *pivot.firsts] if pivot.firsts else []
    return " ".join(map(str, words))


def last_line(account: Account) -> str:
    """The line of the order, or that of the cycle."""
    if account.order is not None:
        return " ".join(map(str, ["order", *account.order]))
    steps = "".join(f" {it.arrow} {it.target}" for it in account.cycle)
    return f"cycle {account.cycle[0].source}{steps}"
