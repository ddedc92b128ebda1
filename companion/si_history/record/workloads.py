"""What the transactions of a run do: made from a seed alone, the same for every store."""

from __future__ import annotations

import enum
import random
from collections.abc import Callable, Iterable
from dataclasses import dataclass

# One transaction in four of a workload with writers reads only.
READERS = 0.25
# In the general workload one reader in two rolls back, as pools of connections do, and one writer in 25.
READERS_GIVING_UP, WRITERS_GIVING_UP = 0.5, 0.04
WIDEST_RANGE = 8
# No transaction has more events: two keys are read and written, and it begins and ends.
MOST_EVENTS = 6


@dataclass(frozen=True, slots=True)
class Look:
    """Reads a key."""

    key: int


@dataclass(frozen=True, slots=True)
class Scan:
    """Reads all keys from `low` to `high`, both included."""

    low: int
    high: int


@dataclass(frozen=True, slots=True)
class Put:
    """Writes a key."""

    key: int


@dataclass(frozen=True, slots=True)
class Flip:
    """Deletes a key that the transaction saw, or inserts one that it saw missing."""

    key: int


@dataclass(frozen=True, slots=True)
class Bump:
    """Reads and writes a key in one statement."""

    key: int


@dataclass(frozen=True, slots=True)
class GiveUp:
    """Rolls back. It is the last step of a plan that has it."""


Step = Look | Scan | Put | Flip | Bump | GiveUp
Plan = tuple[Step, ...]


class Workload(enum.Enum):
    """The kinds of transactions that a run has."""

    COUNTERS = "counters"
    SKEW = "skew"
    RANGES = "ranges"
    BLIND = "blind"
    MIX = "mix"
    TRANSFERS = "transfers"
    STATEMENTS = "statements"
    WALKS = "walks"
    READERS = "readers"
    GENERAL = "general"


class Rows(enum.Enum):
    """Which keys have a row before the run. The others are inserted by transactions."""

    EVEN = "even"
    ALL = "all"
    NONE = "none"


def rows_at_first(keys: Iterable[int], rows: Rows = Rows.EVEN) -> list[int]:
    """Those of the keys that have a row before the run."""
    return [key for key in keys if rows is Rows.ALL or (rows is Rows.EVEN and key % 2 == 0)]


def plan(workload: Workload, keys: int, dice: random.Random) -> Plan:
    """What one transaction does, on keys from 0 to `keys` - 1, of which there are two at least."""
    if workload is Workload.GENERAL:
        return _general(keys, dice)
    if workload is Workload.MIX:
        workload = dice.choice(_MIXED)
    return _PLANS[workload](keys, dice)


def is_reader(steps: Plan) -> bool:
    """Whether a transaction writes nothing."""
    return not any(isinstance(step, Put | Flip | Bump) for step in steps)


def _general(keys: int, dice: random.Random) -> Plan:
    """A transaction of any kind, most often one that only reads; some roll back."""
    steps = _PLANS[dice.choice(_GENERAL)](keys, dice)
    chance = READERS_GIVING_UP if is_reader(steps) else WRITERS_GIVING_UP
    return (*steps, GiveUp()) if dice.random() < chance else steps


def _counters(keys: int, dice: random.Random) -> Plan:
    """Read, modify, write: of one counter or two. Some only read, and so see whether an update was lost."""
    if dice.random() < READERS:
        return _looks(keys, dice)
    steps: list[Step] = []
    for key in _some_keys(keys, 2, dice):
        steps += (Look(key), Put(key))
    return tuple(steps)


def _skew(keys: int, dice: random.Random) -> Plan:
    """Reads both keys of a pair and writes one of them. Two of these at once are write skew."""
    low = 2 * dice.randrange(keys // 2)
    return (Look(low), Look(low + 1), Put(low + dice.randrange(2)))


def _ranges(keys: int, dice: random.Random) -> Plan:
    """Reads a range, and inserts or deletes keys within it. Some only read two ranges."""
    scan = _some_range(keys, dice)
    if dice.random() < READERS:
        return (scan, _some_range(keys, dice))
    within = range(scan.low, scan.high + 1)
    chosen = dice.sample(within, min(len(within), dice.randint(1, 2)))
    return (scan, *(Flip(key) for key in chosen))


def _blind(keys: int, dice: random.Random) -> Plan:
    """Writes keys that it didn't read. Some only read."""
    if dice.random() < READERS:
        return _looks(keys, dice)
    return tuple(Put(key) for key in _some_keys(keys, 3, dice))


def _transfers(keys: int, dice: random.Random) -> Plan:
    """Reads two accounts and writes both. Some read a range of accounts, as a sum over them does."""
    if dice.random() < READERS:
        return (_some_range(keys, dice), _some_range(keys, dice))
    one, other = dice.sample(range(keys), 2)
    return (Look(one), Look(other), Put(one), Put(other))


def _statements(keys: int, dice: random.Random) -> Plan:
    """Read, modify, write in one statement, of one key or two. Some only read."""
    if dice.random() < READERS:
        return _looks(keys, dice)
    return tuple(Bump(key) for key in _some_keys(keys, 2, dice))


def _walks(keys: int, dice: random.Random) -> Plan:
    """Reads three keys or ranges one after another, and then writes a key."""
    return (*_walk(keys, 3, dice), Put(dice.randrange(keys)))


def _readers(keys: int, dice: random.Random) -> Plan:
    """Reads from two to four keys or ranges one after another, and nothing else."""
    return _walk(keys, dice.randint(2, 4), dice)


def _walk(keys: int, length: int, dice: random.Random) -> Plan:
    """Reads one after another, one in four of a range."""
    def step() -> Step:
        return _some_range(keys, dice) if dice.random() < 0.25 else Look(dice.randrange(keys))

    return tuple(step() for _ in range(length))


def _looks(keys: int, dice: random.Random) -> Plan:
    """Reads some keys, or a range."""
    if dice.random() < 0.5:
        return (_some_range(keys, dice),)
    return tuple(Look(key) for key in _some_keys(keys, 3, dice))


def _some_keys(keys: int, most: int, dice: random.Random) -> list[int]:
    """From one to `most` different keys."""
    return dice.sample(range(keys), min(keys, dice.randint(1, most)))


def _some_range(keys: int, dice: random.Random) -> Scan:
    """A range of from two to WIDEST_RANGE keys."""
    width = dice.randint(2, min(keys, WIDEST_RANGE))
    low = dice.randint(0, keys - width)
    return Scan(low, low + width - 1)


_PLANS: dict[Workload, Callable[[int, random.Random], Plan]] = {
    Workload.COUNTERS: _counters,
    Workload.SKEW: _skew,
    Workload.RANGES: _ranges,
    Workload.BLIND: _blind,
    Workload.TRANSFERS: _transfers,
    Workload.STATEMENTS: _statements,
    Workload.WALKS: _walks,
    Workload.READERS: _readers,
}
_MIXED = [Workload.COUNTERS, Workload.SKEW, Workload.RANGES, Workload.BLIND]
# Most transactions of most applications only read.
_GENERAL = [*_MIXED, Workload.TRANSFERS, Workload.STATEMENTS, Workload.WALKS, *[Workload.READERS] * 5]
