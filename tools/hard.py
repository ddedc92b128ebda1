"""Histories of hard kinds, each with its brief and its explained report, which a formula gives by the rules of docs/FORMAT.md.

The size of a history is about how many events it has. One word more says of which kind it is hard: many versions of a key,
many keys of a reader, wide ranges, long cycles. In most the edges grow with the square of the size.
"""

from collections.abc import Callable, Iterable
from dataclasses import dataclass

MAX_KEY = 2**64 - 1
# The key of those kinds that need one alone.
KEY = 7


@dataclass(frozen=True)
class Case:
    """A text, its report, and the status; and the explained report, where it is known."""

    text: bytes
    report: bytes
    status: int = 0
    explained: bytes = b""


# What stands below a line of an explained report.
Below = dict[str, list[str]]


def joined(tokens: Iterable[str]) -> bytes:
    return " ".join(tokens).encode()


def flat(lists: Iterable[list[str]]) -> list[str]:
    return [token for tokens in lists for token in tokens]


def ordered(ids: Iterable[int]) -> str:
    """The last line, where there is an order."""
    return " ".join(map(str, ["order", *ids]))


def brief(
    tokens: list[str],
    counts: tuple[int, int, int],
    last: str,
    found: Below | None = None,
    steps: list[str] | None = None,
    dangerous: list[str] | None = None,
    snapshots: Below | None = None,
) -> Case:
    """A case with its brief report: the counts are of committed, aborted and open transactions, isolation is broken where
    something was found, the last line says whether there is a serial order, and the test of serializable snapshot isolation
    fails where something was found or is dangerous. The explained report has besides how many were found, which are of one
    name, what stands below each, the lines of the transactions that their starts don't fit, the steps below the last line, and
    the lines of a dangerous structure."""
    committed, aborted, still_open = counts
    names = [below[0].partition(":")[0].strip() for below in (found or {}).values()]
    is_ordered = last.startswith("order")
    lines: Below = {
        f"events {len(tokens)} committed {committed} aborted {aborted} open {still_open}": [],
        f"isolation {'broken' if found else 'kept'}": [f"  {len(names)} {names[0]}"] if names else [],
        **(found or {}),
        f"ssi {'fail' if found or dangerous else 'pass'}": dangerous or [],
        f"serializable {'yes' if is_ordered else 'no'}": [],
        last: steps or [],
    }
    explained = [it for line, below in lines.items() for it in (line, *below)]
    at = explained.index(f"ssi {'fail' if found or dangerous else 'pass'}")
    explained[at:at] = [it for line, below in (snapshots or {}).items() for it in (line, *below)]
    return Case(joined(tokens), of_lines(lines), 1 if found or not is_ordered else 0, of_lines(explained))


def of_lines(lines: Iterable[str]) -> bytes:
    return "".join(f"{line}\n" for line in lines).encode()


def version(txn: int, key: int, place: int) -> str:
    """A version in an explained report: a transaction wrote the key at this place, and committed at the next one."""
    return f"event {place} w{txn}[{key}], event {place + 1} c{txn}"


def lost_update(txn: int, start: int, read: str, first: str, second: str) -> list[str]:
    """What stands below a bad write: when the later transaction starts, its read, and both versions."""
    return [f"  lost update: transaction {txn} starts after event {start}; {read}; {first}; {second}"]


def too_late(commit: str, write: str, act: str) -> list[str]:
    """What stands below a transaction that no snapshot fits: it wrote what was committed only when it had acted."""
    return [f"  not without {commit}: {write}", f"  not after {act}"]


ALLOWED = "  allowed under snapshot isolation: two rw steps between overlapping transactions follow one another"
FORBIDDEN = "  forbidden under snapshot isolation: no two rw steps between overlapping transactions follow one another"


def two_steps(first: str, second: str) -> list[str]:
    """What stands below a cycle of 1 and 2, which isolation forbids, where 2 wrote the key after 1, and at place 2 read what was there before 1."""
    return [f"  1 >ww:{KEY}> 2: {first}; {second}", f"  2 >rw:{KEY}> 1: event 2 r2[{KEY}:0]; {first}", FORBIDDEN]


def counter(size: int) -> Case:
    """One transaction after another reads a counter and writes it."""
    count = size // 3
    tokens = flat([f"r{it}[{KEY}:{it - 1}]", f"w{it}[{KEY}]", f"c{it}"] for it in range(1, count + 1))
    return brief(tokens, (count, 0, 0), ordered(range(1, count + 1)))


def lost_updates(size: int) -> Case:
    """The same with two at once: each reads before the one ahead of it commits, so that each update but the last is lost."""
    count = size // 3
    tokens = [f"r1[{KEY}:0]"]
    for it in range(1, count + 1):
        tokens += [f"r{it + 1}[{KEY}:{it - 1}]"] * (it < count) + [f"w{it}[{KEY}]", f"c{it}"]
    # Transaction 1 starts at 0, and each next one when three more events were recorded, but for the first read.
    versions = [version(it, KEY, 3 * it - (it == count)) for it in range(1, count + 1)]
    found = {
        f"bad-write {KEY} {it} {it + 1}": lost_update(
            it + 1, 3 * it - 2, f"event {3 * it - 1} r{it + 1}[{KEY}:{it - 1}]", versions[it - 1], versions[it]
        )
        for it in range(1, count)
    }
    writes = [it.partition(",")[0] for it in versions]
    snapshots = {
        f"snapshot {it + 1} none": too_late(
            f"event {3 * it + 1} c{it}", writes[it], f"event {3 * it - 1} r{it + 1}[{KEY}:{it - 1}]"
        )
        for it in range(1, count)
    }
    steps = two_steps(versions[0], versions[1])
    return brief(tokens, (count, 0, 0), f"cycle 1 >ww:{KEY}> 2 >rw:{KEY}> 1", found, steps, snapshots=snapshots)


def all_at_once(size: int) -> Case:
    """The same with all at once. Each pair of them is a bad write, and there are about five times the size of these."""
    count = int((10 * size) ** 0.5)
    ids = range(1, count + 1)
    tokens = [f"r{it}[{KEY}:0]" for it in ids] + flat([f"w{it}[{KEY}]", f"c{it}"] for it in ids)
    versions = [version(it, KEY, count + 2 * it - 1) for it in ids]
    found = {
        f"bad-write {KEY} {it} {other}": lost_update(
            other, other - 1, f"event {other} r{other}[{KEY}:0]", versions[it - 1], versions[other - 1]
        )
        for it in ids
        for other in range(it + 1, count + 1)
    }
    # The version before the own one is that of the transaction before.
    snapshots = {
        f"snapshot {it} none": too_late(
            f"event {count + 2 * it - 2} c{it - 1}", f"event {count + 2 * it - 1} w{it}[{KEY}]", f"event {it} r{it}[{KEY}:0]"
        )
        for it in ids[1:]
    }
    steps = two_steps(versions[0], versions[1])
    return brief(tokens, (count, 0, 0), f"cycle 1 >ww:{KEY}> 2 >rw:{KEY}> 1", found, steps, snapshots=snapshots)


def same_keys(size: int) -> Case:
    """Two transactions read and write the same keys, and so lose an update at each."""
    count = (size - 2) // 4
    tokens = flat([f"r1[{key}:0]", f"w1[{key}]", f"r2[{key}:0]", f"w2[{key}]"] for key in range(1, count + 1))
    ends = [f"event {len(tokens) + it} c{it}" for it in (1, 2)]
    found: Below = {}
    for key in range(1, count + 1):
        first = f"event {4 * key - 2} w1[{key}], {ends[0]}"
        second = f"event {4 * key} w2[{key}], {ends[1]}"
        found[f"bad-write {key} 1 2"] = lost_update(2, 2, f"event {4 * key - 1} r2[{key}:0]", first, second)
    first = f"event 2 w1[1], {ends[0]}"
    steps = [f"  1 >ww:1> 2: {first}; event 4 w2[1], {ends[1]}", f"  2 >rw:1> 1: event 3 r2[1:0]; {first}", FORBIDDEN]
    snapshots = {"snapshot 2 none": too_late(ends[0], "event 4 w2[1]", "event 3 r2[1:0]")}
    return brief([*tokens, "c1", "c2"], (2, 0, 0), "cycle 1 >ww:1> 2 >rw:1> 1", found, steps, snapshots=snapshots)


def readers_ahead(size: int) -> Case:
    """Readers that begin at once, each of which then sees a version that was committed later. Transaction 2i reads what
    2i - 1 wrote."""
    count = size // 5
    tokens = [f"b{2 * it}" for it in range(1, count + 1)]
    found: Below = {}
    snapshots: Below = {}
    for it in range(1, 2 * count, 2):
        place = len(tokens) + 3
        read = f"r{it + 1}[{KEY}:{it}]"
        tokens += [f"w{it}[{KEY}]", f"c{it}", read, f"c{it + 1}"]
        found[f"bad-read {place} {it + 1} {KEY} saw {it} due 0"] = [
            f"  future read: event {place} {read}; transaction {it + 1} starts after event {it // 2}",
            f"  saw: {version(it, KEY, place - 2)}",
        ]
        snapshots[f"snapshot {it + 1} from {place - 1} to {place - 1}"] = []
    return brief(tokens, (2 * count, 0, 0), ordered(range(1, 2 * count + 1)), found, snapshots=snapshots)


def held_snapshots(size: int) -> Case:
    """A key with many versions, each with a reader that commits after all of them were written."""
    ids = range(1, size // 2, 2)
    tokens = flat([f"w{it}[{KEY}]", f"c{it}", f"r{it + 1}[{KEY}:{it}]"] for it in ids) + [f"c{it + 1}" for it in ids]
    return brief(tokens, (2 * len(ids), 0, 0), ordered(range(1, 2 * len(ids) + 1)))


def writers(size: int) -> Case:
    """One transaction after another writes one key, and their numbers descend."""
    ids = range(size // 2, 0, -1)
    return brief(flat([f"w{it}[{KEY}]", f"c{it}"] for it in ids), (len(ids), 0, 0), ordered(ids))


EACH = 100


def writes(writer: int, first_key: int) -> list[str]:
    """One writer of a hundred keys, and its commit."""
    return [*(f"w{writer}[{key}]" for key in range(first_key, first_key + EACH)), f"c{writer}"]


def key_by_key(size: int) -> Case:
    """One transaction starts when half of the keys are written, and later reads each key, the greatest first."""
    half = size // (4 * EACH + 2)
    reader = half + 1
    ahead = flat(writes(it, EACH * (it - 1)) for it in range(1, reader))
    behind = flat(writes(it, EACH * (it - 2)) for it in range(reader + 1, reader + half + 1))
    seen = {key: key // EACH + 1 if key < EACH * half else 0 for key in range(2 * EACH * half - 1, -1, -1)}
    reads = [f"r{reader}[{key}:{writer}]" for key, writer in seen.items()]
    tokens = [*ahead, f"b{reader}", *behind, *reads, f"c{reader}"]
    return brief(tokens, (2 * half + 1, 0, 0), ordered(range(1, 2 * half + 2)))


def one_list(size: int) -> Case:
    """One range read that lists all keys, which others wrote."""
    count = (size - 2) // (EACH + 1)
    pairs = ",".join(f"{key}:{key // EACH + 1}" for key in range(EACH * count))
    tokens = flat(writes(it, EACH * (it - 1)) for it in range(1, count + 1))
    tokens += [f"r{count + 1}[0..{MAX_KEY};{pairs}]", f"c{count + 1}"]
    return brief(tokens, (count + 1, 0, 0), ordered(range(1, count + 2)))


def stale_list(size: int) -> Case:
    """Two transactions write all keys, one after the other, and then one range read lists each key at its first version."""
    count = (size - 4) // 2
    keys = range(count)
    tokens = [*(f"w1[{key}]" for key in keys), "c1", *(f"w2[{key}]" for key in keys), "c2"]
    tokens += [f"r3[0..{MAX_KEY};{','.join(f'{key}:1' for key in keys)}]", "c3"]
    found = {
        f"bad-read {2 * count + 3} 3 {key} saw 1 due 2": [
            f"  stale read: event {2 * count + 3} r3[0..{MAX_KEY};{key}:1]; transaction 3 starts after event {2 * count + 2}",
            f"  saw: event {key + 1} w1[{key}], event {count + 1} c1",
            f"  due: event {count + 2 + key} w2[{key}], event {2 * count + 2} c2",
        ]
        for key in keys
    }
    snapshots: Below = {f"snapshot 3 from {count + 1} to {2 * count + 1}": []}
    return brief(tokens, (3, 0, 0), ordered([1, 3, 2]), found, snapshots=snapshots)


def stale_reads(size: int) -> Case:
    """A key with many versions. A hundredth of the size is readers, each of a version that many others have come after."""
    readers = size // 100
    count = (size - 2 * readers) // 2
    each = count // readers
    # The reader of a version has the next number, so that numbers ascend in the order.
    numbers = [1 + it + -(-it // each) for it in range(count)]
    behind = each // 2
    tokens: list[str] = []
    places: list[int] = []
    found: Below = {}
    snapshots: Below = {}
    for at, writer in enumerate(numbers):
        places.append(len(tokens) + 1)
        tokens += [f"w{writer}[{KEY}]", f"c{writer}"]
        read = at - behind
        if read >= 0 and read % each == 0:
            reader, saw, place = numbers[read] + 1, numbers[read], len(tokens) + 1
            found[f"bad-read {place} {reader} {KEY} saw {saw} due {writer}"] = [
                f"  stale read: event {place} r{reader}[{KEY}:{saw}]; transaction {reader} starts after event {place - 1}",
                f"  saw: {version(saw, KEY, places[read])}",
                f"  due: {version(writer, KEY, places[at])}",
            ]
            snapshots[f"snapshot {reader} from {places[read] + 1} to {places[read + 1]}"] = []
            tokens += [f"r{reader}[{KEY}:{saw}]", f"c{reader}"]
    committed = len(numbers) + len(snapshots)
    order = sorted([*numbers, *(numbers[it] + 1 for it in range(0, count - behind, each))])
    return brief(tokens, (committed, 0, 0), ordered(order), found, snapshots=snapshots)


def missed_by_ranges(size: int) -> Case:
    """A hundredth of the size is readers, and two fifths are keys. Each reader passes over all keys by a range, before they are
    written but for the first one, which it misses."""
    readers, count = size // 100, 2 * size // 5
    writer = readers + 1
    tokens = [f"w{writer}[0]", f"c{writer}", *(f"r{it}[0..{MAX_KEY}]" for it in range(1, readers + 1))]
    tokens += [*(f"w{writer + 1}[{key}]" for key in range(1, count)), f"c{writer + 1}"]
    found = {
        f"bad-read {it + 2} {it} 0 saw 0 due {writer}": [
            f"  phantom: event {it + 2} r{it}[0..{MAX_KEY}]; transaction {it} starts after event {it + 1}",
            f"  due: {version(writer, 0, 1)}",
        ]
        for it in range(1, readers + 1)
    }
    snapshots: Below = {f"snapshot {it} from 0 to 1": [] for it in range(1, readers + 1)}
    tokens += [f"c{it}" for it in range(1, readers + 1)]
    return brief(tokens, (readers + 2, 0, 0), ordered(range(1, readers + 3)), found, snapshots=snapshots)


def wide_ranges(size: int) -> Case:
    """Two fifths of the size are keys, and a tenth is readers, each with a range of its own. Before each writer of a hundred
    keys some of the readers start. Their ranges cover the keys from that writer's on, which nobody has written yet."""
    count, readers = size // 250, EACH // 4
    last = EACH * count - 1
    tokens: list[str] = []
    reading: list[int] = []
    for at in range(count):
        first = at * (readers + 1) + 1
        reading += range(first, first + readers)
        tokens += [f"r{first + it}[{EACH * at + it}..{last - it}]" for it in range(readers)]
        tokens += writes(first + readers, EACH * at)
    tokens += [f"c{it}" for it in reading]
    return brief(tokens, (count + len(reading), 0, 0), ordered(range(1, count + len(reading) + 1)))


def phantoms(size: int) -> Case:
    """Each of many transactions reads all keys by a range and finds none, and then writes a key that the others missed."""
    ids = range(1, size // 3 + 1)
    tokens = [f"r{it}[0..{MAX_KEY}]" for it in ids] + flat([f"w{it}[{it}]", f"c{it}"] for it in ids)
    steps = [
        f"  {it} >rw:{other}> {other}: event {it} {tokens[it - 1]}; {version(other, other, len(ids) + 2 * other - 1)}"
        for it, other in ((1, 2), (2, 1))
    ]
    dangerous = ["dangerous 1 >rw:2> 2 >rw:1> 1", *steps]
    return brief(tokens, (len(ids), 0, 0), "cycle 1 >rw:2> 2 >rw:1> 1", steps=[*steps, ALLOWED], dangerous=dangerous)


def one_transaction(size: int) -> Case:
    """One transaction reads each key, writes it, and reads it again."""
    keys = range((size - 1) // 3)
    tokens = flat([f"r1[{key}:0]", f"w1[{key}]", f"r1[{key}:1]"] for key in keys)
    return brief([*tokens, "c1"], (1, 0, 0), ordered([1]))


def none_ends(size: int) -> Case:
    """Many transactions read a key and write it, and none ends."""
    ids = range(1, size // 2 + 1)
    return brief(flat([f"r{it}[{KEY}:0]", f"w{it}[{KEY}]"] for it in ids), (0, 0, len(ids)), ordered([]))


def ring(size: int) -> Case:
    """Transaction i reads key i and writes the next one, and the last one writes key 1. One cycle has all of them."""
    count = size // 3
    ids = range(1, count + 1)
    tokens = [f"r{it}[{it}:0]" for it in ids] + [f"w{it}[{it % count + 1}]" for it in ids]
    # Who reads a key comes before who wrote it, which is the transaction one lower.
    pairs = [(it % count + 1, it) for it in reversed(ids)]
    cycle = "".join(f" >rw:{reader}> {writer}" for reader, writer in pairs)
    versions = [f"event {count + it} w{it}[{it % count + 1}], event {2 * count + it} c{it}" for it in ids]
    steps = [f"  {it} >rw:{it}> {other}: event {it} r{it}[{it}:0]; {versions[other - 1]}" for it, other in pairs]
    dangerous = ["dangerous 3 >rw:3> 2 >rw:2> 1", *steps[-2:]]
    return brief([*tokens, *(f"c{it}" for it in ids)], (count, 0, 0), f"cycle 1{cycle}", steps=[*steps, ALLOWED], dangerous=dangerous)


KINDS: dict[str, Callable[[int], Case]] = {
    it.__name__: it
    for it in (
        counter,
        lost_updates,
        all_at_once,
        same_keys,
        readers_ahead,
        held_snapshots,
        writers,
        key_by_key,
        one_list,
        stale_list,
        wide_ranges,
        phantoms,
        one_transaction,
        none_ends,
        ring,
    )
}

# Those kinds of which an explained report of 100,000 events has a thousand bad reads, each with a snapshot that fits its reader.
OLD_SNAPSHOTS: dict[str, Callable[[int], Case]] = {it.__name__: it for it in (stale_reads, missed_by_ranges)}
