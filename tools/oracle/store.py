"""A store that errs now and then, so that its histories have findings of every kind."""

from bisect import bisect_left, bisect_right, insort
from collections import defaultdict
from collections.abc import Iterable, Iterator
from dataclasses import dataclass
from random import Random

from histories import Store

from oracle.events import MAX_KEY, MAX_TXN

# From this number on the program keeps transactions otherwise than below it.
GREAT_TXN = 2**20


@dataclass(frozen=True)
class Habits:
    """How often a store does what: each number is a probability. With `validates` a transaction also aborts where a key
    that it read was written since it started, so that without errors the history is serializable."""

    validates: bool = False
    begins: float = 0.2
    named: float = 0.1
    wrong_reads: float = 0.0
    late_commits: float = 0.0
    aborts: float = 0.05
    left_open: float = 0.03


HABITS = (
    Habits(),
    Habits(validates=True),
    Habits(validates=True, begins=0, named=0, aborts=0, left_open=0),
    Habits(begins=0.5, named=0.5),
    Habits(wrong_reads=0.01, late_commits=0.02),
    Habits(wrong_reads=0.2, late_commits=0.5, aborts=0.2, left_open=0.2),
)


class ErringStore(Store):
    """A store with given transaction numbers, that keeps its habits."""

    def __init__(self, rng: Random, habits: Habits, ids: Iterable[int]) -> None:
        super().__init__()
        self.rng, self.habits, self.ids = rng, habits, iter(ids)
        self.known: list[int] = []
        self.writers: defaultdict[int, list[int]] = defaultdict(list)
        self.read_by: defaultdict[int, set[int]] = defaultdict(set)

    def chance(self, share: float) -> bool:
        return self.rng.random() < share

    def start(self) -> int:
        """Starts a transaction, with a begin event where the habits say so."""
        txn = next(self.ids)
        self.started[txn] = None
        self.written[txn] = set()
        if self.chance(self.habits.named):
            start = max(0, len(self.events) - self.rng.choice((0, 1, 5, 50)))
            self.events.append(f"b{txn}@{start}")
            self.started[txn] = start
        elif self.chance(self.habits.begins):
            self.record(txn, f"b{txn}")
        return txn

    def due(self, txn: int, key: int) -> int:
        """The version that a read sees: mostly the one that is due."""
        self.read_by[txn].add(key)
        if self.chance(self.habits.wrong_reads):
            return self.rng.choice([0, *self.writers[key]])
        return super().due(txn, key)

    def keys_within(self, lo: int, hi: int) -> list[int]:
        return self.known[bisect_left(self.known, lo) : bisect_right(self.known, hi)]

    def write(self, txn: int, key: int) -> None:
        super().write(txn, key)
        if not self.writers[key]:
            insort(self.known, key)
        self.writers[key].append(txn)

    def must_abort(self, txn: int) -> bool:
        is_stale = self.habits.validates and any(self.is_newer(txn, key) for key in self.read_by[txn])
        is_late = super().must_abort(txn) or is_stale
        return (is_late and not self.chance(self.habits.late_commits)) or self.chance(self.habits.aborts)

    def end(self, txn: int) -> None:
        """Ends the transaction, or leaves it open."""
        if not self.chance(self.habits.left_open):
            super().end(txn)


def ids(rng: Random, count: int) -> Iterator[int]:
    """Some ways to number transactions. None of the numbers comes twice."""
    way = rng.randrange(7)
    if way == 0:
        yield from range(1, count + 1)
    elif way == 1:
        yield from range(count, 0, -1)
    elif way == 2:
        yield from rng.sample(range(1, count + 1), count)
    elif way == 3:
        # On both sides of the first great number.
        yield from range(GREAT_TXN - count // 8, GREAT_TXN - count // 8 + count)
    elif way == 4:
        yield from rng.sample(range(1, MAX_TXN + 1), count)
    elif way == 5:
        # Far apart, and alike in their lowest 18 bits.
        yield from rng.sample(range(2**18, MAX_TXN + 1, 2**18), count)
    else:
        # Mostly ascending, and some are exchanged with others near.
        near = [it + rng.choice((0, 0, 0, 7)) for it in range(count)]
        yield from (it + 1 for it in sorted(range(count), key=lambda it: near[it]))


def keys(rng: Random, count: int) -> list[int]:
    """Some ways to choose keys, ascending."""
    way = rng.randrange(5)
    if way == 0:
        return list(range(count))
    if way == 1:
        return list(range(MAX_KEY - count + 1, MAX_KEY + 1))
    if way == 2:
        return [1_000_000 + 3 * it for it in range(count)]
    if way == 3:
        return sorted(rng.sample(range(4 * count), count))
    return sorted({rng.randrange(MAX_KEY + 1) for _ in range(count)})
