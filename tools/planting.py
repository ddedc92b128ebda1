"""Anomalies that are planted in a simulated store's history, and what an explained report says of them.

Each is a few events one after another, of transactions of their own, on a key that has a version.
"""

from __future__ import annotations

from collections.abc import Callable, Iterator
from dataclasses import dataclass, field
from typing import NamedTuple

from long_store import Store, Transaction, Version

MOST_EVENTS = 6
"""How many events an anomaly takes at most."""

NAMES = ("own write missed", "aborted read", "uncommitted read", "future read", "phantom", "stale read", "lost update")
"""The names of bad reads and bad writes, in the order of the line that counts them."""


@dataclass(slots=True)
class Found:
    """The findings, each by its order in the report, its line, and the reasons below it."""

    findings: list[tuple[tuple[int, ...], str, list[str]]] = field(default_factory=list)
    names: list[str] = field(default_factory=list)
    """The names of the bad reads and the bad writes."""
    snapshots: list[tuple[int, str, list[str]]] = field(default_factory=list)
    """The lines of transactions that their starts don't fit, each by its transaction, with the reasons below it."""
    breaks_isolation: bool = False
    has_no_order: bool = False
    """Whether a read is unexplained, or there is a cycle."""
    fails_ssi: bool = False

    def lines(self, store: Store, explained: bool) -> Iterator[str]:
        """The lines of the report up to its line `ssi`."""
        yield from store.counts()
        yield f"isolation {'broken' if self.breaks_isolation else 'kept'}"
        if explained and self.breaks_isolation:
            yield f"  {', '.join(f'{count} {name}' for name in NAMES if (count := self.names.count(name)))}"
        for _, line, reasons in sorted(self.findings):
            yield line
            yield from reasons if explained else ()
        for _, line, reasons in sorted(self.snapshots) if explained else ():
            yield line
            yield from reasons

    def read(self, name: str, key: int, reader: Reader, saw: Version, due: Version, saw_end: str = "c") -> None:
        """A bad read under its name. It is unexplained where the reader wrote the key, or the version was never committed."""
        txn, reasons = reader.txn.number, []
        self.names.append(name)
        reasons.append(f"  {name}: event {reader.place} {reader.token}; transaction {txn} starts after event {reader.txn.start}")
        reasons += [f"  saw: {saw.told(key, saw_end)}"] * (saw.writer != 0)
        reasons += [f"  due: {due.told(key)}"] * (due.writer != 0)
        line = f"bad-read {reader.place} {txn} {key} saw {saw.writer} due {due.writer}"
        self.findings.append(((0, reader.place, key), line, reasons))
        self.breaks_isolation = self.fails_ssi = True
        if key in reader.txn.written or saw_end != "c":
            self.findings.append(((2, reader.place, key), f"unexplained {reader.place} {txn} {key} {saw.writer}", reasons))
            self.has_no_order = True
            self.torn(txn, f"in no snapshot: event {reader.place} {reader.token}")

    def writes(self, key: int, first: Version, second: Version, reader: Reader) -> None:
        """A lost update: the writer of the second version starts before the first was committed, and read one before that."""
        order = key, first.writer, second.writer
        self.names.append("lost update")
        reason = f"  lost update: transaction {second.writer} starts after event {reader.txn.start}; event {reader.place} {reader.token}"
        reason += f"; {first.told(key)}; {second.told(key)}"
        self.findings.append(((1, *order), f"bad-write {' '.join(map(str, order))}", [reason]))
        self.breaks_isolation = self.has_no_order = self.fails_ssi = True
        # The second writer acts by its read, and the first version is committed behind that.
        asks = f"not without event {first.commit} c{first.writer}: event {second.write} w{second.writer}[{key}]"
        self.torn(second.writer, asks, f"not after event {reader.place} {reader.token}")

    def fits(self, txn: int, least: int, greatest: int) -> None:
        """The snapshots from one place to another fit a transaction, and its start doesn't."""
        self.snapshots.append((txn, f"snapshot {txn} from {least} to {greatest}", []))

    def torn(self, txn: int, *reasons: str) -> None:
        """No snapshot fits a transaction."""
        self.snapshots.append((txn, f"snapshot {txn} none", [f"  {it}" for it in reasons]))

    def old(self, reader: Reader, saw: Version, after: Version) -> None:
        """A reader saw a version, and so not the one after that; of the other keys of its range it saw the newest versions."""
        txn, beside = reader.txn.number, reader.beside
        least = max(saw.commit, beside.commit)
        if least < after.commit:
            self.fits(txn, least, after.commit - 1)
        else:
            asks = f"not without event {least} c{beside.writer}: event {reader.place} {beside.token}"
            self.torn(txn, asks, f"not with event {after.commit} c{after.writer}: event {reader.place} {reader.token}")


class Beside(NamedTuple):
    """The latest commit of what a range saw of other keys: its place, who committed, and the range with the pair of the first
    such key."""

    commit: int = 0
    writer: int = 0
    token: str = ""


@dataclass(slots=True)
class Reader:
    """Who read, where, and the event, of which a range has no pair but that of the key in question."""

    txn: Transaction
    place: int
    token: str
    beside: Beside = Beside()


def read_version(store: Store, txn: Transaction, key: int, version: Version) -> Reader:
    """A transaction reads a key, and sees this version."""
    token = f"r{txn.number}[{key}:{version.writer}]"
    return Reader(txn, store.record(token), token)


def read_in_range(store: Store, txn: Transaction, key: int, version: Version, reach: int) -> Reader:
    """A transaction reads a range around a key, and sees this version of that key."""
    low, high = max(0, key - reach), min(store.keys - 1, key + reach)
    commits, writers = store.versions.commits, store.versions.writers
    latest = max((it for it in range(low, high + 1) if it != key), key=commits.__getitem__)
    beside = Beside(commits[latest], writers[latest], f"r{txn.number}[{low}..{high};{latest}:{writers[latest]}]")
    place = store.read_range(txn, low, high, {key: version.writer})
    pair = f";{key}:{version.writer}" if version.writer else ""
    return Reader(txn, place, f"r{txn.number}[{low}..{high}{pair}]", beside)


def stale_read(store: Store, key: int, found: Found) -> None:
    """A transaction sees the version before the one that is due."""
    due, saw = store.versions.newest(key), store.versions.earlier(key)
    reader = read_version(store, store.start(), key, saw)
    store.commit(reader.txn)
    found.read("stale read", key, reader, saw, due)
    found.old(reader, saw, due)


def stale_in_range(store: Store, key: int, found: Found) -> None:
    """A range read lists a key at a version before the one that is due; a key without an earlier version is a phantom."""
    due, saw = store.versions.newest(key), store.versions.earlier(key)
    reader = read_in_range(store, store.start(), key, saw, 20)
    store.commit(reader.txn)
    found.read("stale read" if saw.writer else "phantom", key, reader, saw, due)
    found.old(reader, saw, due)


def phantom(store: Store, key: int, found: Found) -> None:
    """A range read misses a key that has a version."""
    due, nothing = store.versions.newest(key), Version(0, 0, 0)
    reader = read_in_range(store, store.start(), key, nothing, 2)
    store.commit(reader.txn)
    found.read("phantom", key, reader, nothing, due)
    found.old(reader, nothing, store.versions.first(key))


def future_read(store: Store, key: int, found: Found) -> None:
    """A transaction sees a version that was committed after it started."""
    due, reading = store.versions.newest(key), store.start()
    store.record(f"b{reading.number}")
    writing = store.start()
    store.write(writing, key)
    store.commit(writing)
    saw = store.versions.newest(key)
    reader = read_version(store, reading, key, saw)
    store.commit(reading)
    found.read("future read", key, reader, saw, due)
    # It acts right behind the commit.
    found.fits(reading.number, saw.commit, saw.commit)


def aborted_read(store: Store, key: int, found: Found) -> None:
    """A transaction sees the version of one that then aborts."""
    due, writing = store.versions.newest(key), store.start()
    store.write(writing, key)
    reader = read_version(store, store.start(), key, Version(0, writing.number, 0))
    saw = Version(store.abort(writing), writing.number, writing.written[key])
    store.commit(reader.txn)
    found.read("aborted read", key, reader, saw, due, "a")


def uncommitted_read(store: Store, key: int, found: Found) -> None:
    """A transaction sees the version of one that never ends."""
    due, writing = store.versions.newest(key), store.start()
    store.write(writing, key)
    saw = Version(0, writing.number, writing.written[key])
    reader = read_version(store, store.start(), key, saw)
    store.leave(writing)
    store.commit(reader.txn)
    found.read("uncommitted read", key, reader, saw, due, "")


def own_write_missed(store: Store, key: int, found: Found) -> None:
    """A transaction writes a key, and then sees the version that was there before."""
    saw, txn = store.versions.newest(key), store.start()
    store.write(txn, key)
    reader = read_version(store, txn, key, saw)
    store.commit(txn)
    found.read("own write missed", key, reader, saw, store.versions.newest(key))


def lost_update(store: Store, key: int, found: Found) -> None:
    """Two transactions read a key and write it, and both commit."""
    one = store.start()
    reader = read_version(store, one, key, store.versions.newest(key))
    other = store.start()
    store.read(other, key)
    store.write(other, key)
    store.commit(other)
    store.write(one, key)
    store.commit(one)
    found.writes(key, store.versions.earlier(key), store.versions.newest(key), reader)


def write_skew(store: Store, key: int, found: Found) -> None:
    """Two transactions each read the key that the other one writes, and both commit: isolation is kept, and no order is there."""
    beside = (key + 1) % store.keys
    one = store.start()
    store.read(one, key)
    other = store.start()
    store.read(other, beside)
    store.write(one, beside)
    store.write(other, key)
    store.commit(one)
    store.commit(other)
    found.has_no_order = found.fails_ssi = True


Plant = Callable[[Store, int, Found], None]
PLANTS: dict[str, Plant] = {
    it.__name__.replace("_", "-"): it
    for it in (
        stale_read, stale_in_range, phantom, future_read, aborted_read, uncommitted_read, own_write_missed, lost_update, write_skew,
    )
}
