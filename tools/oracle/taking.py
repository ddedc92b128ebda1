"""An account of a history by the procedures that docs/FORMAT.md gives: the least order by taking, again and again, the
least transaction with no edge from one that is not yet taken, and the cycle from the set that is then left.

Findings are looked for key by key, and edges are set beside each other one by one, so a history may have some hundreds of
transactions, and some hundred thousand edges.
"""

from bisect import bisect_left
from collections import defaultdict
from collections.abc import Iterable, Iterator

from oracle.account import RW, WR, WW, Account, BadRead, BadWrite, Counts, Edge, Pivot, Unexplained
from oracle.events import Event, Form
from oracle.snapshots import snapshots
from oracle.tables import Tables


class Disagreement(Exception):
    """Two statements of the definitions say different things of a history."""


def bad_reads(tables: Tables) -> Iterator[BadRead]:
    for place, event in tables.at:
        for key, saw in tables.covered(event):
            due = tables.due(event.txn, place, key)
            if saw != due:
                yield BadRead(place, key, event.txn, saw, due)


def bad_writes(tables: Tables) -> Iterator[BadWrite]:
    for key, versions in tables.versions.items():
        for at, second in enumerate(versions):
            for first in versions[:at]:
                if tables.starts[second] < tables.commits[first]:
                    yield BadWrite(key, first, second)


def unexplained(tables: Tables) -> Iterator[Unexplained]:
    for place, event in tables.at:
        if event.txn not in tables.commits:
            continue
        for key, saw in tables.covered(event):
            is_lost = tables.is_own(event.txn, place, key) and saw != event.txn
            if is_lost or not (saw in (0, event.txn) or saw in tables.commits):
                yield Unexplained(place, key, event.txn, saw)


def edges(tables: Tables) -> set[Edge]:
    seen: defaultdict[int, set[tuple[int, int]]] = defaultdict(set)
    for _, event in tables.at:
        if event.txn in tables.commits:
            for key, saw in tables.covered(event):
                seen[key].add((event.txn, saw))
    found: set[Edge] = set()
    for key, versions in tables.versions.items():
        found.update(Edge(t, u, WW, key) for at, t in enumerate(versions) for u in versions[at + 1 :])
        # How many versions stand up to each one. Version 0 stands before them all.
        counts = {0: 0} | {version: number for number, version in enumerate(versions, 1)}
        for reader, saw in seen[key]:
            if saw != reader and saw in counts:
                upto = counts[saw]
                found.update(Edge(it, reader, WR, key) for it in versions[:upto] if it != reader)
                found.update(Edge(reader, it, RW, key) for it in versions[upto:] if it != reader)
    return found


def pivots(tables: Tables, found: Iterable[Edge]) -> Iterator[Pivot]:
    ins: defaultdict[int, set[int]] = defaultdict(set)
    outs: defaultdict[int, set[int]] = defaultdict(set)
    for source, target in {(it.source, it.target) for it in found if it.kind == RW}:
        if tables.overlap(source, target):
            outs[source].add(target)
            ins[target].add(source)
    for txn in sorted(ins.keys() & outs.keys()):
        # To be one of the ins, or to commit before one, is to commit no later than the last of them.
        last = min(max(tables.commits[it] for it in ins[txn]), tables.commits[txn] - 1)
        firsts = [it for it in sorted(outs[txn]) if tables.commits[it] <= last]
        yield Pivot(txn, sorted(ins[txn]), sorted(outs[txn]), firsts)


def take(members: list[int], before: dict[int, set[int]]) -> tuple[list[int], set[int]]:
    """Takes the least member with nothing left before it, again and again. Returns what was taken, and what is left."""
    taken: list[int] = []
    waiting, left = list(members), set(members)
    while ready := next((it for it in waiting if before[it].isdisjoint(left)), None):
        taken.append(ready)
        waiting.remove(ready)
        left.remove(ready)
    return taken, left


def cycle_of(stuck: set[int], before: dict[int, set[int]]) -> list[int]:
    """The transactions of the printed cycle, from the least one on and with it at the end again."""
    previous = {it: min(before[it] & stuck) for it in stuck}
    path: dict[int, None] = {}
    txn = min(stuck)
    while txn not in path:
        path[txn] = None
        txn = previous[txn]
    way = list(path)
    steps = way[way.index(txn) :][::-1]
    least = steps.index(min(steps))
    return steps[least:] + steps[: least + 1]


def replays(tables: Tables, order: list[int]) -> bool:
    """Whether the order replays the history."""
    own: defaultdict[int, list[Event]] = defaultdict(list)
    for _, event in tables.at:
        own[event.txn].append(event)
    last: dict[int, int] = {}
    for txn in order:
        for event in own[txn]:
            if any(saw != last.get(key, 0) for key, saw in tables.covered(event)):
                return False
            if event.form is Form.WRITE and event.key is not None:
                version = last.get(event.key, 0)
                if version not in (0, txn) and tables.commits[version] > tables.commits[txn]:
                    return False
                last[event.key] = txn
    return True


def account_of(events: list[Event]) -> Account:
    """All that is found in a history."""
    tables = Tables(events)
    found, lost = sorted(edges(tables)), sorted(unexplained(tables))
    before: dict[int, set[int]] = {it: set() for it in tables.committed}
    for source, target in {(it.source, it.target) for it in found}:
        before[target].add(source)
    order, stuck = take(tables.committed, before)
    steps = cycle_of(stuck, before) if stuck else []
    is_serializable = not stuck and replays(tables, order)
    if is_serializable != (not stuck and not lost):
        raise Disagreement("an order that keeps every edge replays exactly where no read is unexplained")
    return Account(
        counts=Counts(len(events), len(tables.commits), len(tables.aborts), open_in(tables)),
        bad_reads=sorted(bad_reads(tables)),
        bad_writes=sorted(bad_writes(tables)),
        unexplained=lost,
        snapshots=list(snapshots(tables)),
        edges=found,
        pivots=list(pivots(tables, found)),
        is_serializable=is_serializable,
        order=None if stuck else order,
        cycle=[least_edge(found, *step) for step in zip(steps, steps[1:])],
    )


def open_in(tables: Tables) -> int:
    """How many transactions have neither committed nor aborted."""
    return len(tables.starts) - len(tables.commits) - len(tables.aborts)


def least_edge(found: list[Edge], source: int, target: int) -> Edge:
    """The least edge from one transaction to the other, of all edges in order."""
    return found[bisect_left(found, (source, target))]
