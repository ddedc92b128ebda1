"""Looks whether transactions that wrote may share a commit timestamp.

Nothing tells which of them was first. That makes no difference where no two of them wrote one key, and none read a key that
another one wrote: hybrid clocks and such stores give one timestamp to transactions that have nothing to do with each other.
"""

from __future__ import annotations

from bisect import bisect_left, bisect_right
from collections.abc import Iterable, Iterator

from si_history.errors import BadInput, quoted
from si_history.keys import Key, shown_key
from si_history.operations import RangeOperation, ReadOperation, WriteOperation
from si_history.transactions_log import LogTransaction


def check_ties(transactions: Iterable[LogTransaction], keys: dict[Key, int]) -> None:
    """Raises BadInput where the order of two that wrote and committed at one timestamp makes a difference."""
    writers: dict[int, list[LogTransaction]] = {}
    for transaction in transactions:
        if transaction.commit is not None and not transaction.is_unknown and transaction.has_writes():
            writers.setdefault(transaction.commit, []).append(transaction)
    for tied in writers.values():
        if len(tied) > 1:
            _check(tied, keys)


def _check(tied: list[LogTransaction], keys: dict[Key, int]) -> None:
    """Looks at those that wrote and committed at one timestamp."""
    owners: dict[int, tuple[LogTransaction, Key]] = {}
    for transaction in tied:
        for key in _written(transaction):
            owner, _ = owners.setdefault(keys[key], (transaction, key))
            if owner is not transaction:
                raise _tie(transaction, owner, f"both wrote {shown_key(key)}")
    written = sorted(owners)
    for transaction in tied:
        own = sorted(keys[key] for key in _written(transaction))
        for low, high in _covered(transaction, keys):
            if _count(written, low, high) > _count(own, low, high):
                within = written[bisect_left(written, low):bisect_right(written, high)]
                owner, key = next(owners[number] for number in within if owners[number][0] is not transaction)
                raise _tie(transaction, owner, f"{quoted(transaction.name)} read {shown_key(key)}, which the other one wrote")


def _written(transaction: LogTransaction) -> set[Key]:
    """The keys that a transaction wrote."""
    return {operation.key for operation in transaction.operations if isinstance(operation, WriteOperation)}


def _count(numbers: list[int], low: int, high: int) -> int:
    """How many of the numbers, which ascend, are from `low` to `high`."""
    return bisect_right(numbers, high) - bisect_left(numbers, low)


def _covered(transaction: LogTransaction, keys: dict[Key, int]) -> Iterator[tuple[int, int]]:
    """The first and the last key of each read."""
    for operation in transaction.operations:
        if isinstance(operation, ReadOperation):
            yield keys[operation.key], keys[operation.key]
        elif isinstance(operation, RangeOperation):
            yield keys[operation.low], keys[operation.high]


def _tie(one: LogTransaction, other: LogTransaction, why: str) -> BadInput:
    return BadInput(
        f"{quoted(one.name)} and {quoted(other.name)} (line {other.line}) both wrote and both committed at {one.commit}: "
        f"nothing tells which was first, and {why}",
        line=one.line,
    )
