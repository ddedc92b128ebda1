"""An account of a small history by trying: every place, every key, every set and every order of the transactions.

There is no table here, no sort of findings by parts and no search in a graph. It takes time that is exponential in the
number of committed transactions, so it serves for about six of them.
"""

from collections.abc import Iterator
from dataclasses import dataclass
from itertools import combinations, permutations

from oracle.account import RW, WR, WW, Account, BadRead, BadWrite, Counts, Edge, Pivot, Snapshot, Unexplained
from oracle.events import MAX_KEY, Event, Form


@dataclass(frozen=True)
class Read:
    """A key that a read covers, and the version that it saw."""

    place: int
    txn: int
    key: int
    saw: int


class History:
    """The events of a text by their places, and what the definitions ask of them."""

    def __init__(self, events: list[Event]) -> None:
        self.at = dict(enumerate(events, 1))
        self.txns = sorted({it.txn for it in events})
        self.committed = [it for it in self.txns if self.end(it, Form.COMMIT) is not None]
        self.aborted = [it for it in self.txns if self.end(it, Form.ABORT) is not None]
        named = {key for it in events for key in it.keys()}
        # The keys that a report could name, and some that it must not.
        beside = {it + 1 for it in named if it < MAX_KEY} | {it - 1 for it in named if it > 0}
        self.keys = sorted(named | beside)

    def end(self, txn: int, form: Form) -> int | None:
        """The place of the transaction's commit or abort, where it has one."""
        return next((place for place, it in self.at.items() if it.txn == txn and it.form is form), None)

    def commit(self, txn: int) -> int:
        """The place of a committed transaction's commit."""
        place = self.end(txn, Form.COMMIT)
        assert place is not None
        return place

    def start(self, txn: int) -> int:
        """How many events had been recorded when the transaction started."""
        first = next(place for place, it in self.at.items() if it.txn == txn)
        named = self.at[first].start
        return first - 1 if named is None else named

    def wrote(self, txn: int, key: int, before: int | None = None) -> bool:
        """Whether the transaction wrote the key, or wrote it before a place."""
        return any(
            it.form is Form.WRITE and (it.txn, it.key) == (txn, key) and (before is None or place < before)
            for place, it in self.at.items()
        )

    def overlap(self, left: int, right: int) -> bool:
        """Whether two committed transactions overlap."""
        return self.start(left) < self.commit(right) and self.start(right) < self.commit(left)

    def due(self, txn: int, place: int, key: int, start: int | None = None) -> int:
        """The version of the key that is due to a read by the transaction at a place, from its own start or from another one."""
        if self.wrote(txn, key, place):
            return txn
        start = self.start(txn) if start is None else start
        seen = [it for it in self.committed if self.wrote(it, key) and self.commit(it) <= start]
        return max(seen, key=self.commit, default=0)

    def acts(self, txn: int) -> int:
        """The place of the transaction's first read or write, or of its first event where it has neither."""
        own = [place for place, it in self.at.items() if it.txn == txn]
        return next((it for it in own if self.at[it].form in (Form.READ, Form.RANGE, Form.WRITE)), own[0])

    def fits(self, txn: int, start: int) -> bool:
        """Whether a start fits the transaction: each read saw what is due from it, and, if the transaction committed, no
        other writer of one of its keys committed behind it and before the transaction."""
        if any(it.saw != self.due(txn, it.place, it.key, start) for it in self.reads() if it.txn == txn):
            return False
        others = [it for it in self.committed if it != txn and any(self.wrote(it, key) and self.wrote(txn, key) for key in self.keys)]
        return txn not in self.committed or not any(start < self.commit(it) < self.commit(txn) for it in others)

    def fitting(self, txn: int) -> list[int]:
        """All numbers before the transaction acts that fit it."""
        return [it for it in range(self.acts(txn)) if self.fits(txn, it)]

    def reads(self) -> Iterator[Read]:
        """Each key that each read covers."""
        for place, event in self.at.items():
            for key in self.keys:
                saw = event.sees(key)
                if saw is not None:
                    yield Read(place, event.txn, key, saw)

    def is_earlier(self, left: int, right: int) -> bool:
        """Whether version `left` of a key comes before that of `right`, a committed writer of it."""
        return left == 0 or self.commit(left) < self.commit(right)

    def bad_reads(self) -> list[BadRead]:
        dues = [(it, self.due(it.txn, it.place, it.key)) for it in self.reads()]
        return sorted(BadRead(it.place, it.key, it.txn, it.saw, due) for it, due in dues if it.saw != due)

    def bad_writes(self) -> list[BadWrite]:
        found = [
            BadWrite(key, first, second)
            for key in self.keys
            for first in self.committed
            for second in self.committed
            if self.wrote(first, key) and self.wrote(second, key)
            if self.start(second) < self.commit(first) < self.commit(second)
        ]
        return sorted(found)

    def unexplained(self) -> list[Unexplained]:
        found = [
            Unexplained(it.place, it.key, it.txn, it.saw)
            for it in self.reads()
            if it.txn in self.committed
            if (self.wrote(it.txn, it.key, it.place) and it.saw != it.txn)
            or it.saw not in (0, it.txn, *self.committed)
        ]
        return sorted(found)

    def snapshots(self) -> Iterator[Snapshot]:
        for txn in self.txns:
            if not self.fits(txn, self.start(txn)):
                fitting = self.fitting(txn)
                yield Snapshot(txn, (min(fitting), max(fitting)) if fitting else None)

    def edges(self) -> list[Edge]:
        found: set[Edge] = set()
        for key in self.keys:
            writers = [it for it in self.committed if self.wrote(it, key)]
            found |= {Edge(t, u, WW, key) for t in writers for u in writers if t != u and self.is_earlier(t, u)}
            for it in self.reads():
                if it.key == key and it.txn in self.committed and it.saw != it.txn:
                    found.update(self.edges_of(it, writers))
        return sorted(found)

    def edges_of(self, read: Read, writers: list[int]) -> Iterator[Edge]:
        """The edges of one read of a version that isn't the reader's own."""
        if read.saw != 0 and read.saw not in self.committed:
            return
        for it in writers:
            if it != read.txn and read.saw != 0 and (it == read.saw or self.is_earlier(it, read.saw)):
                yield Edge(it, read.txn, WR, read.key)
            if it not in (read.txn, read.saw) and self.is_earlier(read.saw, it):
                yield Edge(read.txn, it, RW, read.key)

    def replays(self, order: tuple[int, ...]) -> bool:
        """Whether the order replays the history."""
        last: dict[int, int] = {}
        for txn in order:
            for event in (it for it in self.at.values() if it.txn == txn):
                seen = [(key, event.sees(key)) for key in self.keys]
                if any(saw is not None and saw != last.get(key, 0) for key, saw in seen):
                    return False
                if event.form is Form.WRITE and event.key is not None:
                    before = last.get(event.key, 0)
                    if before != txn and not self.is_earlier(before, txn):
                        return False
                    last[event.key] = txn
        return True

    def pivots(self, edges: list[Edge]) -> Iterator[Pivot]:
        near = {(it.source, it.target) for it in edges if it.kind == RW and self.overlap(it.source, it.target)}
        for txn in self.committed:
            ins = [it for it in self.committed if (it, txn) in near]
            outs = [it for it in self.committed if (txn, it) in near]
            if ins and outs:
                early = [it for it in outs if self.commit(it) < self.commit(txn)]
                yield Pivot(txn, ins, outs, [it for it in early if self.is_first(it, ins)])

    def is_first(self, txn: int, ins: list[int]) -> bool:
        """Whether the transaction is one of these, or commits before one of them."""
        return any(txn == it or self.commit(txn) < self.commit(it) for it in ins)


def cycle_among(members: list[int], edges: list[Edge]) -> list[Edge]:
    """The edges of the printed cycle, where no order keeps every edge."""
    joined = {(it.source, it.target) for it in edges}
    stuck: set[int] = set()
    for size in range(1, len(members) + 1):
        for some in combinations(members, size):
            if all(any((t, u) in joined for t in some) for u in some):
                stuck |= set(some)
    previous = {u: min(t for t in stuck if (t, u) in joined) for u in stuck}
    # As many steps as the set has members lead to the cycle.
    txn = min(stuck)
    for _ in stuck:
        txn = previous[txn]
    back = [txn]
    while previous[back[-1]] != txn:
        back.append(previous[back[-1]])
    round_trip = back[::-1]
    least = round_trip.index(min(round_trip))
    steps = round_trip[least:] + round_trip[: least + 1]
    return [next(it for it in edges if it[:2] == step) for step in zip(steps, steps[1:])]


def account_of(events: list[Event]) -> Account:
    """All that is found in a history."""
    history = History(events)
    edges = history.edges()
    orders = list(permutations(history.committed))
    kept = [it for it in orders if all(it.index(edge.source) < it.index(edge.target) for edge in edges)]
    ended = len(history.committed), len(history.aborted)
    return Account(
        counts=Counts(len(events), *ended, len(history.txns) - sum(ended)),
        bad_reads=history.bad_reads(),
        bad_writes=history.bad_writes(),
        unexplained=history.unexplained(),
        snapshots=list(history.snapshots()),
        edges=edges,
        pivots=list(history.pivots(edges)),
        is_serializable=any(history.replays(it) for it in orders),
        order=list(min(kept)) if kept else None,
        cycle=[] if kept else cycle_among(history.committed, edges),
    )
