"""Makes histories of any length, as a simulated store under snapshot isolation records them, with planted anomalies.

    python3 tools/long_histories.py KIND EVENTS [--seed N] [--plant NAME=COUNT].. [--brief FILE] [--explained FILE]

The history goes to standard output as it is made, an event a line, and has exactly EVENTS events. There is a key for each ten
events, and eight transactions run at once, each of one to five operations. KIND is `even`, where three of five operations read a
key and the others write one, or `ranges`, where a quarter reads a range of fifty keys, a quarter reads a key, and half write one.
Of `ranges` the first tenth loads the store: each key is written, in their order, a hundred by a transaction.

NAME is one of PLANTS in planting.py, such as stale-read. The files get the lines that a brief and an explained report have to start
with: all up to the line `ssi`. The same words give the same text.
"""

from __future__ import annotations

import argparse
import sys
from collections.abc import Callable, Sequence
from dataclasses import dataclass
from pathlib import Path
from random import Random

from long_store import Store, Transaction, Write
from planting import MOST_EVENTS, PLANTS, Found

HERE = Path(__file__).resolve().parent
AT_ONCE = 8
MOST_OPERATIONS = 5
RANGE = 50
LOADED_AT_ONCE = 100
LEAST_EVENTS = 1_000
"""A history with fewer has no room for anomalies, and one has at most a hundredth of its events as many."""
Act = Callable[[Store, Transaction, Callable[[], float]], object]


def even(store: Store, txn: Transaction, draw: Callable[[], float]) -> None:
    key = int(draw() * store.keys)
    if draw() < 0.6:
        store.read(txn, key)
    else:
        store.write(txn, key)


def ranges(store: Store, txn: Transaction, draw: Callable[[], float]) -> None:
    kind, width = draw(), min(RANGE, store.keys)
    if kind < 0.25:
        low = int(draw() * (store.keys - width + 1))
        store.read_range(txn, low, low + width - 1)
    elif kind < 0.5:
        store.read(txn, int(draw() * store.keys))
    else:
        store.write(txn, int(draw() * store.keys))


KINDS: dict[str, Act] = {"even": even, "ranges": ranges}
LOADED = ("ranges",)
"""In these each key is written first."""


@dataclass(slots=True)
class Slot:
    """A transaction that runs, and how many operations it has before it."""

    txn: Transaction
    left: int


class Schedule:
    """Lets some transactions run at once, until there are so many events, and plants anomalies on the way."""

    def __init__(self, kind: str, events: int, plants: Sequence[str], rng: Random, write: Write) -> None:
        if plants and (events < LEAST_EVENTS or len(plants) > events // 100):
            raise ValueError(f"{len(plants)} anomalies are too many for {events} events")
        self.store = Store(max(2, events // 10), write)
        self.found = Found()
        self._act, self._draw = KINDS[kind], rng.random
        self._events = events
        self._loaded = events // 10 if kind in LOADED else 0
        # The places before which nothing is planted, the greatest first.
        places = sorted((rng.randrange(events // 10, events * 9 // 10) for _ in plants), reverse=True)
        self._plants = [(place, PLANTS[name]) for place, name in zip(places, rng.sample(plants, len(plants)))]

    def run(self) -> None:
        """Writes the whole history."""
        store, slots = self.store, dict[int, Slot]()
        self._load()
        while self._room() >= 2:
            if self._plants and store.place >= self._plants[-1][0]:
                self._plant()
            else:
                self._step(slots)
        for _ in range(self._room()):
            if slots:
                self._act(store, next(iter(slots.values())).txn, self._draw)
            else:
                store.commit(store.start())
        for slot in slots.values():
            store.end(slot.txn)
        store.flush()

    def _load(self) -> None:
        """Writes the keys that are loaded, in their order."""
        for first in range(0, self._loaded, LOADED_AT_ONCE):
            txn = self.store.start()
            for key in range(first, min(first + LOADED_AT_ONCE, self._loaded)):
                self.store.write(txn, key)
            self.store.end(txn)

    def _room(self) -> int:
        """How many events there may still be beside the ends of open transactions."""
        return self._events - self.store.place - len(self.store.opened)

    def _step(self, slots: dict[int, Slot]) -> None:
        """One more event, of one of the transactions that run."""
        at = int(self._draw() * AT_ONCE)
        slot = slots.get(at)
        if slot is None:
            slot = slots[at] = Slot(self.store.start(), 1 + int(self._draw() * MOST_OPERATIONS))
        if slot.left:
            slot.left -= 1
            self._act(self.store, slot.txn, self._draw)
        else:
            self.store.end(slot.txn)
            del slots[at]

    def _plant(self) -> None:
        """Plants an anomaly on a key that has a version."""
        _, plant = self._plants.pop()
        store = self.store
        key = int(self._draw() * store.keys)
        while not store.versions.writers[key]:
            key = (key + 1) % store.keys
        plant(store, key, self.found)


def planted(word: str) -> list[str]:
    """The names of anomalies that a word NAME=COUNT asks for."""
    name, _, count = word.partition("=")
    if name not in PLANTS or not count.isdecimal():
        raise argparse.ArgumentTypeError(f"{word!r} is not NAME=COUNT, where NAME is one of {', '.join(PLANTS)}")
    return [name] * int(count)


def write_history(kind: str, events: int, seed: int, plants: Sequence[str], write: Write) -> Schedule:
    """Writes a history, and answers what is known of it."""
    schedule = Schedule(kind, events, plants, Random(f"{kind} {events} {seed}"), write)
    schedule.run()
    return schedule


def chosen(words: Sequence[str]) -> argparse.Namespace:
    parser = argparse.ArgumentParser(description="Makes a history of any length, with planted anomalies.")
    parser.add_argument("kind", metavar="KIND", choices=KINDS, help=" or ".join(KINDS))
    parser.add_argument("events", metavar="EVENTS", type=int, help="how many events it has")
    parser.add_argument("--seed", type=int, default=1, metavar="N", help="what it is made from (1)")
    parser.add_argument("--plant", type=planted, action="extend", default=[], metavar="NAME=COUNT", help=", ".join(PLANTS))
    parser.add_argument("--brief", type=Path, metavar="FILE", help="what a brief report has to start with")
    parser.add_argument("--explained", type=Path, metavar="FILE", help="what an explained report has to start with")
    return parser.parse_args(words)


def main(words: Sequence[str]) -> int:
    asked = chosen(words)
    try:
        done = write_history(asked.kind, asked.events, asked.seed, asked.plant, sys.stdout.write)
    except ValueError as why:
        print(f"long_histories.py: {why}", file=sys.stderr)
        return 2
    for path in filter(None, (asked.brief, asked.explained)):
        lines = done.found.lines(done.store, path == asked.explained)
        path.write_text("".join(f"{it}\n" for it in lines), encoding="ascii")
    return 0


if __name__ == "__main__":
    sys.exit(main(sys.argv[1:]))
