"""Random runs of a store, told three times: as a history, as a log of events, and as a log of transactions.

The store mostly keeps snapshot isolation, and sometimes not: a read may see any version that is written, a transaction
may commit though it should not, and may end or stay open at any time. A store with one bug alone does nothing else wrong.
"""

from __future__ import annotations

import enum
import random
from dataclasses import dataclass, field

from si_history.history import Abort, Begin, Commit, Event, RangeRead, Read, Write

KEY_SETS = ([1, 2], [0, 1, 2, 3], [3, 4, 10, 11, 12, 100, 2**64 - 1])
MOST_TRANSACTIONS = 7
MOST_STEPS = 40
HONEST_READS = 0.8
HONEST_READS_BESIDE_A_BUG = 0.3
HONEST_ENDS = 0.8

Line = dict[str, object]


class Bug(enum.Enum):
    """What is wrong with a store, by what the auditor calls it where it shows."""

    NONE = "none"
    STALE = "stale read"
    FUTURE = "future read"
    ABORTED = "aborted read"
    UNCOMMITTED = "uncommitted read"
    OWN_WRITE = "own write missed"
    PHANTOM = "phantom"
    LOST_UPDATE = "bad-write"


@dataclass
class Run:
    """One run: its events, numbered transactions in the order of their first events, and where each started."""

    random: random.Random
    keys: list[int]
    events: list[Event] = field(default_factory=list)
    starts: dict[int, int] = field(default_factory=dict)
    open: list[int] = field(default_factory=list)
    commits: dict[int, int] = field(default_factory=dict)
    writers: dict[int, list[int]] = field(default_factory=dict)
    bug: Bug | None = None
    has_ranges: bool = True

    def record(self, event: Event) -> None:
        """Adds an event at the end."""
        if event.transaction not in self.starts:
            is_named = isinstance(event, Begin) and event.start is not None
            self.starts[event.transaction] = event.start if is_named else len(self.events)
            self.open.append(event.transaction)
        self.events.append(event)
        if isinstance(event, Write):
            self.writers.setdefault(event.key, []).append(event.transaction)
        if isinstance(event, Commit | Abort):
            self.open.remove(event.transaction)
        if isinstance(event, Commit):
            self.commits[event.transaction] = len(self.events)

    def due(self, transaction: int, key: int) -> int:
        """The version of a key that snapshot isolation gives to a transaction now."""
        writers = self.writers.get(key, [])
        if transaction in writers:
            return transaction
        start = self.starts.get(transaction, len(self.events))
        seen = [writer for writer in writers if writer in self.commits and self.commits[writer] <= start]
        return max(seen, key=self.commits.__getitem__, default=0)

    def version(self, transaction: int, key: int) -> int:
        """The version that a read sees: mostly the one that is due, and else any that is written."""
        due = self.due(transaction, key)
        if self.random.random() < (HONEST_READS if self.bug is None else HONEST_READS_BESIDE_A_BUG):
            return due
        if self.bug is None:
            return self.random.choice([0, *self.writers.get(key, [])])
        wrong = [version for version in (0, *self.writers.get(key, [])) if self.name_of(transaction, version, due) is self.bug]
        return self.random.choice(wrong or [due])

    def name_of(self, transaction: int, version: int, due: int) -> Bug:
        """What it is called that a transaction sees a version now, where another one may be due."""
        if version == due:
            return Bug.NONE
        if due == transaction:
            return Bug.OWN_WRITE
        if version == 0 or self.commits.get(version, len(self.events) + 1) <= self.starts.get(transaction, len(self.events)):
            return Bug.STALE
        if version in self.commits:
            return Bug.FUTURE
        return Bug.UNCOMMITTED if version in self.open else Bug.ABORTED

    def is_late(self, transaction: int) -> bool:
        """Whether another transaction wrote one of its keys and committed after it started."""
        return any(
            transaction in writers and any(self.commits.get(u, 0) > self.starts[transaction] for u in writers if u != transaction)
            for writers in self.writers.values()
        )


def random_run(seed: str, bug: Bug | None = None, has_ranges: bool = True) -> Run:
    """A run that the seed decides, of a store with all bugs or with this one; then each transaction ends, if it may."""
    r = random.Random(seed)
    run = Run(r, r.choice(KEY_SETS), bug=bug, has_ranges=has_ranges)
    for _ in range(r.randint(1, MOST_STEPS) if bug is None else MOST_STEPS):
        is_new = len(run.starts) < MOST_TRANSACTIONS and (not run.open or r.random() < 0.2)
        if not is_new and not run.open:
            break
        transaction = len(run.starts) + 1 if is_new else r.choice(run.open)
        if is_new and r.random() < 0.7:
            run.record(Begin(transaction, r.randint(0, len(run.events)) if r.random() < 0.4 else None))
        else:
            run.record(_next_event(run, transaction))
    for transaction in list(run.open) if bug not in (None, Bug.UNCOMMITTED) else ():
        run.record(Abort(transaction))
    return run


def _next_event(run: Run, transaction: int) -> Event:
    """What a transaction does next."""
    r, key, chance = run.random, run.random.choice(run.keys), run.random.random()
    if chance < (0.1 if run.bug is Bug.PHANTOM else 0.35):
        return Read(transaction, key, run.version(transaction, key))
    if chance < 0.45 and run.has_ranges:
        low, high = sorted((key, r.choice(run.keys)))
        seen = [(k, run.version(transaction, k)) for k in run.keys if low <= k <= high]
        if run.bug is Bug.PHANTOM:
            seen = [pair for pair in seen if pair[1] == transaction or r.random() < HONEST_READS_BESIDE_A_BUG]
        return RangeRead(transaction, low, high, tuple(pair for pair in seen if pair[1] or r.random() < 0.2))
    if chance < 0.78:
        return Write(transaction, key)
    if transaction not in run.starts:
        return Commit(transaction)
    if run.is_late(transaction) and (run.bug not in (None, Bug.LOST_UPDATE) or r.random() < (HONEST_ENDS if run.bug is None else 0.3)):
        return Abort(transaction)
    return Abort(transaction) if r.random() < 0.1 else Commit(transaction)


@dataclass
class Names:
    """Names for the numbers of a run: of transactions at random, of keys at random in the same order."""

    transactions: dict[int, str]
    keys: dict[int, str]

    def writer(self, version: int) -> str | None:
        """How a log names a version."""
        return self.transactions[version] if version else None

    def found(self, event: RangeRead) -> list[list[str | None]]:
        """How a log tells what a range read found."""
        return [[self.keys[key], self.writer(saw)] for key, saw in event.listed]


def random_names(run: Run) -> Names:
    """Names of a run's transactions and keys."""
    r = run.random
    words = r.sample(range(16**8), len(run.starts))
    keys = sorted(r.sample([f"{table}/{n}" for table in ("acct", "cust", "\u00fcber") for n in range(20)], len(run.keys)))
    return Names({t: f"{word:08x}" for t, word in zip(run.starts, words)}, dict(zip(sorted(run.keys), keys)))


def events_log(run: Run, names: Names) -> list[Line]:
    """The run as a log of events."""
    lines: list[Line] = []
    for event in run.events:
        line: Line = {"txn": names.transactions[event.transaction]}
        match event:
            case Begin(start=None):
                line |= {"op": "begin"}
            case Begin(start=start):
                line |= {"op": "begin", "start": sum(place <= start for place in run.commits.values())}
            case Read(key=key, saw=saw):
                line |= {"op": "read", "key": names.keys[key], "saw": names.writer(saw)}
            case RangeRead(low=low, high=high):
                line |= {"op": "range", "from": names.keys[low], "to": names.keys[high], "found": names.found(event)}
            case Write(key=key):
                line |= {"op": "write", "key": names.keys[key]}
            case Commit():
                line |= {"op": "commit"}
            case Abort():
                line |= {"op": "abort"}
        lines.append(line)
    return lines


def transactions_log(run: Run, names: Names) -> list[Line]:
    """The run as a log of transactions, in the order of their numbers, with random timestamps that keep what was seen."""
    r = run.random
    times: list[int] = [r.randint(-5, 10**6)]
    for _ in run.events:
        times.append(times[-1] + r.randint(1, 5))
    places = sorted(run.commits.values())
    lines: list[Line] = []
    for transaction, start in run.starts.items():
        first = max((place for place in places if place <= start), default=0)
        after = min((place for place in places if place > start), default=None)
        lines.append({
            "txn": names.transactions[transaction],
            # Any time from that of the last commit seen to right before that of the next one.
            "start": r.randint(times[first], times[after] - 1 if after else times[-1] + 9),
            "commit": times[run.commits[transaction]] if transaction in run.commits else None,
            "aborted": Abort(transaction) in run.events,
            "ops": [_operation(event, names) for event in run.events if event.transaction == transaction and is_operation(event)],
        })
    return lines


def is_operation(event: Event) -> bool:
    """Whether an event is a read or a write."""
    return isinstance(event, Read | RangeRead | Write)


def _operation(event: Event, names: Names) -> list[object]:
    """A read or a write as an operation of a log of transactions."""
    match event:
        case Read(key=key, saw=saw):
            return ["r", names.keys[key], names.writer(saw)]
        case RangeRead(low=low, high=high):
            return ["range", names.keys[low], names.keys[high], names.found(event)]
        case Write(key=key):
            return ["w", names.keys[key]]
    raise ValueError(f"{event} is neither a read nor a write")
