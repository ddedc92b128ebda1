"""Which starts would fit the transactions of a history, for which each number before a transaction acts is tried; and which
events say why none does."""

from collections import defaultdict
from collections.abc import Iterator
from dataclasses import dataclass, field
from typing import NamedTuple

from oracle.account import Snapshot
from oracle.events import Form
from oracle.tables import Tables


class Read(NamedTuple):
    """A read, of one of the keys that it covers."""

    place: int
    key: int
    saw: int


class Asked(NamedTuple):
    """A commit that a snapshot must have, or must not have, and the event that says so, with the key by which it does."""

    commit: int
    place: int
    key: int


@dataclass
class Deeds:
    """What a transaction did: its events, its reads of written keys, and its writes, each with its key."""

    places: list[int] = field(default_factory=list)
    acts: list[int] = field(default_factory=list)
    reads: list[Read] = field(default_factory=list)
    writes: list[tuple[int, int]] = field(default_factory=list)

    @property
    def before(self) -> int:
        """Its first read or write, or its first event where it has neither. A snapshot is taken before it."""
        return min(self.acts or self.places)


def deeds_of(tables: Tables) -> dict[int, Deeds]:
    """What each transaction did."""
    all_deeds: defaultdict[int, Deeds] = defaultdict(Deeds)
    for place, event in tables.at:
        deeds = all_deeds[event.txn]
        deeds.places.append(place)
        if event.form in (Form.READ, Form.RANGE, Form.WRITE):
            deeds.acts.append(place)
            deeds.reads += [Read(place, key, saw) for key, saw in tables.covered(event)]
        if event.form is Form.WRITE and event.key is not None:
            deeds.writes.append((place, event.key))
    return all_deeds


def fits(tables: Tables, txn: int, deeds: Deeds, start: int) -> bool:
    """Whether the transaction, were this its start, would have no bad read, and be the second of no bad write."""
    if any(it.saw != tables.due(txn, it.place, it.key, start) for it in deeds.reads):
        return False
    end = tables.commits.get(txn)
    return end is None or not any(start < commit < end for _, key in deeds.writes for commit in tables.places[key])


def snapshots(tables: Tables) -> Iterator[Snapshot]:
    """A line for each transaction that its start doesn't fit."""
    for txn, deeds in sorted(deeds_of(tables).items()):
        if not fits(tables, txn, deeds, tables.starts[txn]):
            fitting = [it for it in range(deeds.before) if fits(tables, txn, deeds, it)]
            yield Snapshot(txn, (fitting[0], fitting[-1]) if fitting else None)


def seen_commit(tables: Tables, read: Read) -> int:
    """Where the version was committed that a read saw; that of version 0 was before all events."""
    return tables.commits[read.saw] if read.saw else 0


def never_due(tables: Tables, txn: int, deeds: Deeds) -> Read | None:
    """The first read of what no snapshot has: of a key that the transaction wrote before and of another version, or of a
    version whose transaction didn't commit."""
    for it in deeds.reads:
        is_own = tables.is_own(txn, it.place, it.key)
        if (is_own and it.saw != txn) or not (is_own or it.saw == 0 or it.saw in tables.commits):
            return it
    return None


def others_reads(tables: Tables, txn: int, deeds: Deeds) -> list[Read]:
    """The reads of keys that the transaction had not yet written."""
    return [it for it in deeds.reads if not tables.is_own(txn, it.place, it.key)]


def asked_for(tables: Tables, txn: int, deeds: Deeds) -> Asked:
    """The latest commit that the transaction's snapshot has to have. Its first read of that version asks for it; or, where
    there is none, its first write of a key that was committed there too."""
    reads = [Asked(seen_commit(tables, it), it.place, it.key) for it in others_reads(tables, txn, deeds) if it.saw]
    end = tables.commits.get(txn, 0)
    writes = [Asked(commit, *it) for it in deeds.writes for commit in tables.places[it[1]] if commit < end]
    latest = max(it.commit for it in reads + writes)
    return next(it for it in reads + writes if it.commit == latest)


def excluded(tables: Tables, txn: int, deeds: Deeds) -> Asked | None:
    """The first commit before the transaction acts that its snapshot must not have, and its first read that excludes it."""
    found = [
        Asked(commit, it.place, it.key)
        for it in others_reads(tables, txn, deeds)
        for commit in tables.places[it.key]
        if seen_commit(tables, it) < commit < deeds.before
    ]
    return min(found, default=None)
