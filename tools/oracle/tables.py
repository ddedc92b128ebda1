"""What a history's events say, in tables: who wrote what and when, starts, ends, and the versions of each key."""

from bisect import bisect_left, bisect_right
from collections import defaultdict
from collections.abc import Iterator

from oracle.events import Event, Form


class Tables:
    """The tables of a history.

    `starts` has each transaction that has an event, `commits` and `aborts` those that ended so, with the place. `writes`
    has for each written key its writers, committed or not, with the place of the first write. `versions` has for each
    written key its committed writers in the order of their commits.
    """

    def __init__(self, events: list[Event]) -> None:
        self.at = list(enumerate(events, 1))
        self.starts: dict[int, int] = {}
        self.commits: dict[int, int] = {}
        self.aborts: dict[int, int] = {}
        self.writes: defaultdict[int, dict[int, int]] = defaultdict(dict)
        for place, event in self.at:
            self.starts.setdefault(event.txn, place - 1 if event.start is None else event.start)
            if event.form is Form.COMMIT:
                self.commits[event.txn] = place
            elif event.form is Form.ABORT:
                self.aborts[event.txn] = place
            elif event.form is Form.WRITE and event.key is not None:
                self.writes[event.key].setdefault(event.txn, place)
        self.keys = sorted(self.writes)
        self.committed = sorted(self.commits)
        self.versions = {
            key: sorted((it for it in writers if it in self.commits), key=self.commits.__getitem__)
            for key, writers in self.writes.items()
        }
        self.places = {key: [self.commits[it] for it in versions] for key, versions in self.versions.items()}

    def is_own(self, txn: int, place: int, key: int) -> bool:
        """Whether the transaction wrote the written key before the place."""
        first = self.writes[key].get(txn)
        return first is not None and first < place

    def due(self, txn: int, place: int, key: int, start: int | None = None) -> int:
        """The version of a written key that is due to a read by the transaction at a place, from its start or from another."""
        if self.is_own(txn, place, key):
            return txn
        seen = bisect_right(self.places[key], self.starts[txn] if start is None else start)
        return self.versions[key][seen - 1] if seen else 0

    def overlap(self, left: int, right: int) -> bool:
        """Whether two committed transactions overlap."""
        return self.starts[left] < self.commits[right] and self.starts[right] < self.commits[left]

    def covered(self, event: Event) -> Iterator[tuple[int, int]]:
        """The written keys that an event read, each with the version that it saw. No finding is of any other key."""
        if event.key is not None and event.saw is not None and event.key in self.writes:
            yield event.key, event.saw
        if event.lo is not None and event.hi is not None:
            for key in self.keys[bisect_left(self.keys, event.lo) : bisect_right(self.keys, event.hi)]:
                yield key, event.listed.get(key, 0)
