"""Puts the events of a transactions log into one order.

An order has to keep four rules, which are edges between events here:

1. the events of a transaction stand in its own order: its begin, its operations, its end;
2. commits stand in the order of their timestamps (those of one timestamp by `commit_order`);
3. a begin stands after the last commit that the snapshot has, since `bT@n` needs n events before it;
4. a read stands after the first write of the version that it saw, since the text of a history needs that too.

Any order that keeps them gives the same findings: the starts are named, and nothing else is told by how the events of two
transactions stand to each other. Among these orders the one is taken that goes by the timestamps as far as the rules let
it: a commit at its own, all else at its transaction's start, and commits before starts of the same time. So an event is
moved only where a version was seen before its writer started, or where what it waits for is moved.
"""

from __future__ import annotations

import heapq
from bisect import bisect_right
from collections.abc import Iterator
from dataclasses import dataclass, field
from enum import IntEnum

from si_history.errors import BadInput, quoted
from si_history.keys import Key, shown_key
from si_history.operations import Operation, WriteOperation, sightings
from si_history.transactions_log import LogTransaction, commit_order


class Why(IntEnum):
    """Which rule an edge between two events comes from."""

    OWN_ORDER = 1
    COMMIT_ORDER = 2
    SNAPSHOT = 3
    VERSION = 4


@dataclass(slots=True)
class EventGraph:
    """The events of a log, numbered from 0, and the rules between them.

    The events of a transaction are numbered one after another, from `firsts[position]` on: its begin, its operations, its
    end if it has one. `owners[event]` is the position of its transaction. `after[event]` has the events that have to stand
    after it, each with the reason. `last_seen[position]` is the last commit that the transaction's snapshot has, or None.
    """

    transactions: list[LogTransaction]
    firsts: list[int] = field(default_factory=list)
    owners: list[int] = field(default_factory=list)
    after: list[list[tuple[int, Why]]] = field(default_factory=list)
    last_seen: list[int | None] = field(default_factory=list)

    def end(self, position: int) -> int:
        """The commit or abort of a transaction that has one."""
        return self.firsts[position] + len(self.transactions[position].operations) + 1

    def keep(self, before: int, after: int, why: Why) -> None:
        """Adds an edge."""
        self.after[before].append((after, why))


def event_graph(transactions: list[LogTransaction]) -> EventGraph:
    """The events of a log and all rules between them. Raises BadInput for a version from nowhere."""
    graph = EventGraph(transactions)
    for position, transaction in enumerate(transactions):
        graph.firsts.append(len(graph.owners))
        is_ended = transaction.commit is not None or transaction.is_aborted
        graph.owners += [position] * (1 + len(transaction.operations) + is_ended)
    graph.after = [[] for _ in graph.owners]
    for event in range(1, len(graph.owners)):
        if graph.owners[event] == graph.owners[event - 1]:
            graph.keep(event - 1, event, Why.OWN_ORDER)
    _keep_commits(graph)
    _keep_versions(graph)
    return graph


def _keep_commits(graph: EventGraph) -> None:
    """Adds the order of the commits, and what each snapshot has of them."""
    ordered = commit_order(graph.transactions)
    for one, next_one in zip(ordered, ordered[1:]):
        graph.keep(graph.end(one), graph.end(next_one), Why.COMMIT_ORDER)
    times = [graph.transactions[position].commit or 0 for position in ordered]
    ranks = {position: rank for rank, position in enumerate(ordered)}
    for position, transaction in enumerate(graph.transactions):
        # One that only reads may commit at its start; then its own commit, and what comes after it, is not seen.
        seen = min(bisect_right(times, transaction.start), ranks.get(position, len(ordered)))
        last = graph.end(ordered[seen - 1]) if seen else None
        graph.last_seen.append(last)
        if last is not None:
            graph.keep(last, graph.firsts[position], Why.SNAPSHOT)


def _keep_versions(graph: EventGraph) -> None:
    """Lets each read stand after the first write of each version that it saw."""
    writes: dict[tuple[str, Key], int] = {}
    for transaction, event, operation in _operations(graph):
        if isinstance(operation, WriteOperation):
            writes.setdefault((transaction.name, operation.key), event)
    for reader, event, operation in _operations(graph):
        for key, writer in sightings(operation):
            if writer is not None:
                written = _write_seen(writes, reader, key, writer)
                if writer != reader.name:
                    graph.keep(written, event, Why.VERSION)
                elif written > event:
                    told = f"{quoted(writer)} saw its own version of {shown_key(key)} before it wrote that key"
                    raise BadInput(told, line=reader.line)


def _operations(graph: EventGraph) -> Iterator[tuple[LogTransaction, int, Operation]]:
    """Each operation of the log, with its transaction and its event."""
    for transaction, first in zip(graph.transactions, graph.firsts):
        for event, operation in enumerate(transaction.operations, first + 1):
            yield transaction, event, operation


def _write_seen(writes: dict[tuple[str, Key], int], reader: LogTransaction, key: Key, writer: str) -> int:
    """The first write of a version that was seen. Raises BadInput where nobody wrote it."""
    if (writer, key) not in writes:
        told = f"{quoted(reader.name)} saw a version of {shown_key(key)} from nowhere: {quoted(writer)} never wrote that key"
        raise BadInput(told, line=reader.line)
    return writes[writer, key]


def order_of(graph: EventGraph) -> list[int]:
    """The events in an order that keeps all rules, as the module says.

    Where there is none, it holds those events alone that can be placed: it is shorter than the list of all.
    """
    ranks = _ranks(graph)
    events = sorted(range(len(ranks)), key=ranks.__getitem__)
    waits = [0] * len(ranks)
    for followers in graph.after:
        for follower, _ in followers:
            waits[follower] += 1
    ready = [ranks[event] for event in events if not waits[event]]
    ordered: list[int] = []
    while ready:
        event = events[heapq.heappop(ready)]
        ordered.append(event)
        for follower, _ in graph.after[event]:
            waits[follower] -= 1
            if not waits[follower]:
                heapq.heappush(ready, ranks[follower])
    return ordered


def _ranks(graph: EventGraph) -> list[int]:
    """The place of each event by the timestamps alone, from 0."""
    def time(event: int) -> tuple[int, bool, int]:
        transaction = graph.transactions[graph.owners[event]]
        is_commit = transaction.commit is not None and event == graph.end(graph.owners[event])
        return (transaction.commit or 0) if is_commit else transaction.start, not is_commit, event

    ranks = [0] * len(graph.owners)
    for rank, event in enumerate(sorted(range(len(graph.owners)), key=time)):
        ranks[event] = rank
    return ranks
