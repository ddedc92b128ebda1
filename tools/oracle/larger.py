"""Larger random texts, of some kinds. Each kind is for sizes at which a program may well change its way."""

from collections.abc import Callable
from random import Random

from histories import Store, interleave

from oracle import spelling
from oracle.events import MAX_KEY
from oracle.store import HABITS, ErringStore, Habits, ids, keys


def crowd(rng: Random) -> list[str]:
    """Some 40 to 300 transactions over few keys, up to 30 at once."""
    count = rng.randint(40, 300)
    store = ErringStore(rng, rng.choice(HABITS), ids(rng, 2 * count + 40))
    some = keys(rng, rng.choice((2, 5, 20, 100)))
    writes = rng.choice((0.2, 0.5))

    def act(store: Store, txn: int) -> None:
        key = rng.choice(some)
        if rng.random() < writes:
            store.write(txn, key)
        elif rng.random() < 0.9:
            store.read(txn, key)
        else:
            store.read_range(txn, key, rng.choice([it for it in some if it >= key]))

    return interleave(store, 5 * count, rng, act, 5, at_once=rng.choice((2, 8, 30)))


def versions(rng: Random) -> list[str]:
    """Some 15 to 200 versions of each of one to three keys, and readers of old ones and of new ones."""
    count = rng.randint(15, 200)
    store = ErringStore(rng, rng.choice(HABITS), ids(rng, 2 * count))
    some = keys(rng, rng.randint(1, 3))
    readers: list[int] = []
    for _ in range(count):
        writer = store.start()
        if rng.random() < 0.5:
            store.read(writer, rng.choice(some))
        for key in some:
            store.write(writer, key)
        store.end(writer)
        if rng.random() < 0.3:
            readers.append(store.start())
        for reader in rng.sample(readers, min(2, len(readers))):
            store.read(reader, rng.choice(some))
    for reader in rng.sample(readers, len(readers)):
        if rng.random() < 0.2:
            store.write(reader, rng.choice(some))
        store.end(reader)
    return store.events


def ranges(rng: Random) -> list[str]:
    """Wide ranges over 64 written keys and over 4,096, and over some more."""
    some = keys(rng, rng.choice((64, 65, 130, 300, 4096, 4097, 4200, 8300)))
    store = ErringStore(rng, rng.choice(HABITS[:5]), ids(rng, 200))
    readers = [store.start() for _ in range(3)]
    for reader in readers:
        store.read_range(reader, some[0], some[0])
    each = rng.choice((len(some) // 8 + 1, 64, 200))
    for at in range(0, len(some), each):
        writer = store.start()
        for key in some[at : at + each]:
            store.write(writer, key)
        store.end(writer)
    for _ in range(2):
        writer = store.start()
        for key in rng.sample(some, min(40, len(some))):
            store.write(writer, key)
        store.end(writer)
    readers += [store.start() for _ in range(2)]
    for reader in readers:
        for lo, hi in bounds(rng, some, 2):
            store.read_range(reader, lo, hi)
        if rng.random() < 0.3:
            store.write(reader, rng.choice(some))
        store.end(reader)
    return store.events


def bounds(rng: Random, some: list[int], count: int) -> list[tuple[int, int]]:
    """The ends of some wide ranges: all keys there are, all of these, or those between two of them."""
    between = [tuple(sorted(rng.choices(some, k=2))) for _ in range(count)]
    whole = [(0, MAX_KEY), (some[0], some[-1])]
    return [rng.choice([*whole, (lo, hi), (lo, hi)]) for lo, hi in between]


def hot_keys(rng: Random, least: int) -> list[str]:
    """At least so many edges, since each of many transactions reads and writes the same few keys, one after another or up
    to 16 at once."""
    habits = Habits(begins=0.3, aborts=0, left_open=0, wrong_reads=rng.choice((0, 0.001)), late_commits=1)
    some = keys(rng, rng.choice((1, 2, 3)))
    # Each pair of them has a ww edge for each key, and a wr or an rw edge for each key that one of the two read.
    writers = 4 + round((least / (len(some) / 2 + 1)) ** 0.5)
    store, beside = ErringStore(rng, habits, ids(rng, writers)), rng.choice((0, 3, 15))
    running: list[int] = []
    for number in range(writers + beside):
        if number < writers:
            running.append(store.start())
            store.read(running[-1], rng.choice(some))
        if number >= beside:
            writer = running.pop(rng.randrange(len(running)))
            for key in some:
                store.write(writer, key)
            store.end(writer)
    return store.events


def late_keys(rng: Random, least: int) -> list[str]:
    """At least so many edges, since some ranges cover many keys that are written behind them. The first reader
    writes a key of its own, which the others' ranges cover too, and perhaps others do."""
    count = 4500
    readers_wanted = least // count + 2
    some = keys(rng, count + readers_wanted)
    own = rng.sample(some, readers_wanted)
    habits = Habits(begins=0, named=0, aborts=0, left_open=0)
    store = ErringStore(rng, habits, ids(rng, 400))
    readers = [store.start() for _ in own]
    for reader in readers:
        store.read_range(reader, 0, MAX_KEY)
    for reader, key in zip(readers[:: rng.choice((3, 1000))], own):
        store.write(reader, key)
    late = [it for it in some if it not in own]
    for at in range(0, len(late), 50):
        writer = store.start()
        for key in late[at : at + 50]:
            store.write(writer, key)
        store.end(writer)
    for reader in rng.sample(readers, len(readers)):
        store.end(reader)
    return store.events


def many_edges(rng: Random, least: int) -> list[str]:
    return (hot_keys if rng.random() < 0.6 else late_keys)(rng, least)


def edges(rng: Random) -> list[str]:
    """More than 12,000 edges."""
    return many_edges(rng, rng.randint(12_001, 30_000))


def most_edges(rng: Random) -> list[str]:
    """More than 131,072 edges, so more than 120,000 and than 2^16 too."""
    return many_edges(rng, rng.randint(131_073, 150_000))


def rings(rng: Random) -> list[str]:
    """A cycle of 20 to 700 transactions, and perhaps a tail behind it to which its edges lead."""
    size, tail = rng.randint(20, 700), rng.choice((0, 3, 100))
    store = ErringStore(rng, Habits(begins=0, named=0, aborts=0, left_open=0), ids(rng, size + tail))
    some = keys(rng, 2000)[: size + tail]
    ring = [store.start() for _ in range(size)]
    for at, txn in enumerate(ring):
        store.read(txn, some[at])
        store.write(txn, some[(at + 1) % size])
    for txn in rng.sample(ring, size):
        store.end(txn)
    # Each of the tail saw what the one before it wrote.
    for at in range(size, size + tail):
        txn = store.start()
        store.read(txn, some[at - 1 if at > size else 0])
        store.write(txn, some[at])
        store.end(txn)
    return store.events


KINDS: dict[str, Callable[[Random], list[str]]] = {
    "crowd": crowd,
    "versions": versions,
    "ranges": ranges,
    "rings": rings,
    "edges": edges,
    "most_edges": most_edges,
}


def text_of(kind: str, rng: Random) -> bytes:
    """A text of this kind. Some have a token that is no event."""
    events = list(KINDS[kind](rng))
    if rng.random() < 0.04:
        events.insert(rng.randint(0, len(events)), spelling.faulty(rng))
    return spelling.text_of(rng, events)
