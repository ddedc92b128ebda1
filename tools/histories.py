"""Makes histories as a store under snapshot isolation records them.

    python3 tools/histories.py KIND EVENTS [SEED]

KIND is one of short, hot, ranges, one_reader, and then at least EVENTS events are written, or a kind of hard.py, and then
some EVENTS. They stand in one line of text. The same words give the same text.
"""

import random
import sys
from collections.abc import Callable, Iterable

import hard


class Store:
    """A store under snapshot isolation, and the events that it records."""

    def __init__(self) -> None:
        self.events: list[str] = []
        # Of each key the committed (place, transaction), in order.
        self.versions: dict[int, list[tuple[int, int]]] = {}
        # Of each open transaction how many events were recorded before its first one, and the keys that it wrote.
        self.started: dict[int, int | None] = {}
        self.written: dict[int, set[int]] = {}
        self.last = 0

    def start(self) -> int:
        """Starts a transaction, and returns its number."""
        self.last += 1
        self.started[self.last] = None
        self.written[self.last] = set()
        return self.last

    def start_of(self, txn: int) -> int:
        """How many events had been recorded when the transaction started. One with no event starts now."""
        start = self.started[txn]
        return len(self.events) if start is None else start

    def record(self, txn: int, event: str) -> None:
        self.started[txn] = self.start_of(txn)
        self.events.append(event)

    def due(self, txn: int, key: int) -> int:
        """The version of the key that the transaction is to see."""
        if key in self.written[txn]:
            return txn
        start = self.start_of(txn)
        for place, writer in reversed(self.versions.get(key, [])):
            if place <= start:
                return writer
        return 0

    def read(self, txn: int, key: int) -> None:
        self.record(txn, f"r{txn}[{key}:{self.due(txn, key)}]")

    def keys_within(self, lo: int, hi: int) -> Iterable[int]:
        """The keys of a range that may have a version, ascending."""
        return range(lo, hi + 1)

    def read_range(self, txn: int, lo: int, hi: int) -> None:
        seen = [(key, self.due(txn, key)) for key in self.keys_within(lo, hi)]
        listed = ",".join(f"{key}:{version}" for key, version in seen if version)
        self.record(txn, f"r{txn}[{lo}..{hi}{';' + listed if listed else ''}]")

    def write(self, txn: int, key: int) -> None:
        self.record(txn, f"w{txn}[{key}]")
        self.written[txn].add(key)

    def is_newer(self, txn: int, key: int) -> bool:
        """Whether a version of the key was committed since the transaction started."""
        versions = self.versions.get(key)
        return bool(versions) and versions[-1][0] > self.start_of(txn)

    def must_abort(self, txn: int) -> bool:
        """Whether another writer of one of the transaction's keys committed since it started."""
        return any(self.is_newer(txn, key) for key in self.written[txn])

    def end(self, txn: int) -> None:
        """Commits, or aborts where the transaction must."""
        aborts = self.must_abort(txn)
        self.record(txn, f"{'a' if aborts else 'c'}{txn}")
        if not aborts:
            for key in self.written[txn]:
                self.versions.setdefault(key, []).append((len(self.events), txn))
        del self.started[txn], self.written[txn]


Act = Callable[[Store, int], None]


def interleave(store: Store, events: int, rng: random.Random, act: Act, steps: int, at_once: int = 8) -> list[str]:
    """Some transactions at once, each of a few steps and its end, until there are enough events."""
    left: dict[int, int] = {}
    while len(store.events) < events or left:
        if len(store.events) < events and len(left) < at_once:
            left[store.start()] = rng.randint(1, steps)
        txn = rng.choice(sorted(left))
        if left[txn]:
            left[txn] -= 1
            act(store, txn)
        else:
            del left[txn]
            store.end(txn)
    return store.events


def short(events: int, rng: random.Random) -> list[str]:
    """Short transactions over many keys."""

    def act(store: Store, txn: int) -> None:
        key = rng.randrange(10 * events)
        (store.read if rng.random() < 0.6 else store.write)(txn, key)

    return interleave(Store(), events, rng, act, 5)


def hot(events: int, rng: random.Random) -> list[str]:
    """Short transactions, most of whose reads and writes are of four keys."""

    def act(store: Store, txn: int) -> None:
        key = rng.randrange(4) if rng.random() < 0.8 else rng.randrange(1000)
        (store.read if rng.random() < 0.8 else store.write)(txn, key)

    return interleave(Store(), events, rng, act, 5)


def ranges(events: int, rng: random.Random) -> list[str]:
    """Range reads of a hundred keys, and writes of single keys."""

    def act(store: Store, txn: int) -> None:
        key = rng.randrange(2000)
        if rng.random() < 0.5:
            store.read_range(txn, key, key + 99)
        else:
            store.write(txn, key)

    return interleave(Store(), events, rng, act, 4)


def one_reader(events: int, rng: random.Random) -> list[str]:
    """One transaction reads one key again and again, while others write it."""
    store = Store()
    reader = store.start()
    store.read(reader, 1)
    while len(store.events) < events - 1:
        if rng.random() < 0.2:
            writer = store.start()
            store.write(writer, 1)
            store.end(writer)
        else:
            store.read(reader, 1)
    store.end(reader)
    return store.events


KINDS: dict[str, Callable[[int, random.Random], list[str]]] = {
    "short": short,
    "hot": hot,
    "ranges": ranges,
    "one_reader": one_reader,
}


def text_of(kind: str, events: int, seed: int = 1) -> str:
    if kind in hard.KINDS:
        return hard.KINDS[kind](events).text.decode() + "\n"
    return " ".join(KINDS[kind](events, random.Random(f"{kind} {events} {seed}"))) + "\n"


def main(words: list[str]) -> int:
    if len(words) not in (2, 3) or words[0] not in KINDS | hard.KINDS or not all(it.isdigit() for it in words[1:]):
        print(__doc__, end="", file=sys.stderr)
        return 2
    sys.stdout.write(text_of(words[0], *map(int, words[1:])))
    return 0


if __name__ == "__main__":
    sys.exit(main(sys.argv[1:]))
