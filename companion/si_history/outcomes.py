"""Settles transactions of which nobody knows whether they committed.

Where a read of another transaction saw one's version, it did commit: after its own start, and no later than the start of the
first such reader. Else it stays open. When it committed isn't known. So it is placed at the latest time within these bounds
at which its commit makes no finding by itself: behind the reads that don't have its version, before the starts of those that
wrote its keys later, and behind the versions that its readers would have seen otherwise. Where there is no such time, it is
placed at the start of that first reader.
"""

from __future__ import annotations

import math
from bisect import bisect_left, bisect_right
from collections.abc import Iterable
from dataclasses import dataclass, field

from si_history.errors import BadInput, quoted
from si_history.keys import Key, shown_key
from si_history.operations import RangeOperation, WriteOperation, sightings
from si_history.transactions_log import LogTransaction


@dataclass(slots=True)
class Sight:
    """That a reader saw a version of one of unknown outcome beneath a later one.

    `behind` and `beneath` are the commits of the known versions next to it, on either side.
    """

    writer: LogTransaction
    reader: LogTransaction
    key: Key
    behind: int | None
    beneath: int | None


@dataclass(slots=True)
class _Seen:
    """One that committed, the first of the readers that saw its version with the key that it read, and all keys seen.

    `least` and `most` are bounds of its commit where versions are seen behind and beneath others.
    """

    writer: LogTransaction
    reader: LogTransaction
    key: Key
    keys: set[Key] = field(default_factory=set)
    least: float = -math.inf
    most: float = math.inf

    def take(self, reader: LogTransaction, key: Key) -> None:
        """Notes one more reader."""
        if reader.start < self.reader.start:
            self.reader, self.key = reader, key

    @property
    def latest(self) -> int:
        """The latest timestamp that its commit may have."""
        return self.reader.start if self.reader.start <= self.most else int(self.most)


@dataclass(slots=True)
class _KeyTimes:
    """What happened to a key that one of unknown outcome wrote, in timestamps, each list ascending.

    `starts` are those of transactions that wrote it, and `commits` those that are known. `missed` are the starts of readers
    that saw no transaction's version of it. `spans` go from the commit of a version to the start of a reader that saw it.
    """

    starts: list[int] = field(default_factory=list)
    commits: list[int] = field(default_factory=list)
    missed: list[int] = field(default_factory=list)
    spans: list[tuple[int, int]] = field(default_factory=list)


# A range read: its start, its first and last key, and the keys that it found, all keys by their numbers.
_Range = tuple[int, int, int, set[int]]


def settle(transactions: list[LogTransaction], keys: dict[Key, int], sights: Iterable[Sight] = ()) -> list[LogTransaction]:
    """Gives a commit to those of unknown outcome that were seen, by reads of their versions or as `sights` say.

    Answers these. Raises BadInput where no time can be that of its commit.
    """
    seen = _seen(transactions, sights)
    if not seen:
        return []
    times = _times(transactions, seen, keys)
    for one, commit in [(one, _commit(one, times)) for one in seen.values()]:
        one.writer.commit = commit
        if not one.writer.has_start:
            one.writer.start = commit
    return [one.writer for one in seen.values()]


def _seen(transactions: list[LogTransaction], sights: Iterable[Sight]) -> dict[str, _Seen]:
    """Those of unknown outcome whose versions others saw. Raises BadInput where one was seen before it can have committed."""
    unknown = {transaction.name: transaction for transaction in transactions if transaction.is_unknown}
    written = {(writer.name, key) for writer in unknown.values() for key in _written(writer)}
    seen: dict[str, _Seen] = {}
    for reader in transactions if unknown else ():
        for operation in reader.operations:
            for key, name in sightings(operation):
                if name is not None and (name, key) in written and name != reader.name:
                    one = seen.setdefault(name, _Seen(unknown[name], reader, key))
                    one.take(reader, key)
                    one.keys.add(key)
    for sight in sights:
        if sight.reader is not sight.writer:
            one = seen.setdefault(sight.writer.name, _Seen(sight.writer, sight.reader, sight.key))
            one.take(sight.reader, sight.key)
            one.least = max(one.least, -math.inf if sight.behind is None else sight.behind)
            one.most = min(one.most, math.inf if sight.beneath is None else sight.beneath - 1)
    for one in seen.values():
        if one.writer.has_start and one.latest <= one.writer.start:
            raise _unplaced(one)
    return seen


def _written(transaction: LogTransaction) -> set[Key]:
    """The keys that a transaction wrote."""
    return {operation.key for operation in transaction.operations if isinstance(operation, WriteOperation)}


def _unplaced(one: _Seen) -> BadInput:
    """Says why a commit has no place."""
    why = f"{quoted(one.reader.name)} (line {one.reader.line}), which started at {one.reader.start}, saw its version of"
    if one.reader.start > one.writer.start:
        why = f"a version that was committed at {int(one.most) + 1} came after its version of"
    return BadInput(
        f"nobody knows whether {quoted(one.writer.name)} committed, and its commit can't be placed: it started at "
        f"{one.writer.start}, and {why} {shown_key(one.key)}",
        line=one.writer.line,
    )


def _commit(one: _Seen, times: dict[Key, _KeyTimes]) -> int:
    """The timestamp at which one is placed."""
    writer, latest = one.writer, one.latest
    written = _written(writer)
    least, most = max(one.least, writer.start + 1 if writer.has_start else -math.inf), latest
    for key in written:
        least = max(least, _last(times[key].missed, latest - 1) + 1)
        if writer.has_start:
            later = bisect_right(times[key].starts, writer.start)
            most = min([most, *times[key].starts[later:later + 1]])
    for key in one.keys:
        least = max(least, _last(times[key].commits, latest))
    commit = most
    while commit >= least:
        earlier = min(_before_span(times[key].spans, commit) for key in written)
        if earlier == commit:
            return commit
        commit = earlier
    return latest


def _last(ascending: list[int], most: int) -> float:
    """The last of these that is at most `most`."""
    at = bisect_right(ascending, most)
    return ascending[at - 1] if at else -math.inf


def _before_span(spans: list[tuple[int, int]], time: int) -> int:
    """The last time up to this one that is in none of the spans, which lie apart from each other."""
    at = bisect_right(spans, (time, math.inf))
    return spans[at - 1][0] - 1 if at and time <= spans[at - 1][1] else time


def _times(transactions: list[LogTransaction], seen: dict[str, _Seen], keys: dict[Key, int]) -> dict[Key, _KeyTimes]:
    """What happened to each key that one of unknown outcome wrote, where it was seen."""
    times: dict[Key, _KeyTimes] = {}
    for one in seen.values():
        for key in _written(one.writer):
            times.setdefault(key, _KeyTimes())
    commits = {transaction.name: transaction.commit for transaction in transactions}
    ranges: list[_Range] = []
    for transaction in transactions:
        _note(transaction, times, commits, ranges, keys, transaction.commit is not None or transaction.name in seen)
    _note_ranges(ranges, {keys[key]: of_key for key, of_key in times.items()})
    for of_key in times.values():
        for ascending in (of_key.starts, of_key.commits, of_key.missed):
            ascending.sort()
        of_key.spans = _apart(of_key.spans)
    return times


def _note(
    transaction: LogTransaction, times: dict[Key, _KeyTimes], commits: dict[str, int | None], ranges: list[_Range],
    keys: dict[Key, int], is_committed: bool,
) -> None:
    """Notes what one transaction did to the keys."""
    own: set[Key] = set()
    for operation in transaction.operations:
        if isinstance(operation, WriteOperation):
            if operation.key in times and is_committed and operation.key not in own:
                if transaction.has_start:
                    times[operation.key].starts.append(transaction.start)
                if transaction.commit is not None:
                    times[operation.key].commits.append(transaction.commit)
            own.add(operation.key)
            continue
        for key, writer in sightings(operation):
            if key in times and key not in own:
                commit = None if writer is None else commits.get(writer)
                if writer is None:
                    times[key].missed.append(transaction.start)
                elif commit is not None and commit <= transaction.start:
                    times[key].spans.append((commit, transaction.start))
        if isinstance(operation, RangeOperation):
            found = {keys[key] for key, _ in operation.found}
            ranges.append((transaction.start, keys[operation.low], keys[operation.high], found))


def _note_ranges(ranges: list[_Range], times: dict[int, _KeyTimes]) -> None:
    """Notes for each key, given by its number, the last start of a range that covers it and didn't find it."""
    numbers = sorted(times)
    following = list(range(len(numbers) + 1))

    def left(at: int) -> int:
        """The first place from here on of a key that has none yet."""
        while following[at] != at:
            following[at] = following[following[at]]
            at = following[at]
        return at

    for start, low, high, found in sorted(ranges, key=lambda one: one[0], reverse=True):
        at = left(bisect_left(numbers, low))
        while at < len(numbers) and numbers[at] <= high:
            if numbers[at] not in found:
                times[numbers[at]].missed.append(start)
                following[at] = at + 1
            at = left(at + 1)


def _apart(spans: Iterable[tuple[int, int]]) -> list[tuple[int, int]]:
    """The same times as spans that lie apart from each other, ascending."""
    made: list[tuple[int, int]] = []
    for low, high in sorted(spans):
        if made and low <= made[-1][1]:
            made[-1] = made[-1][0], max(high, made[-1][1])
        else:
            made.append((low, high))
    return made
