"""The text of one part of a long history, with the place in the whole that each of its events has."""

from __future__ import annotations

from bisect import bisect_right
from collections.abc import Iterable
from dataclasses import dataclass, field

from si_history.endings import Ending
from si_history.long_history import LongHistory, Transaction, Version
from si_history.part_room import is_carried


@dataclass(slots=True)
class PartText:
    """The events of a part, and for each its place in the whole.

    `added` counts the events that stand for transactions of other parts, whose place is that of the other's end, or of the
    read that needs it; `over` the committed transactions that had started before the part.
    """

    first: int
    last: int
    tokens: list[str] = field(default_factory=list)
    places: list[int] = field(default_factory=list)
    added: int = 0
    over: int = 0

    def add(self, token: str, place: int) -> None:
        """Adds an event at the end."""
        self.tokens.append(token)
        self.places.append(place)


@dataclass(slots=True)
class Other:
    """A transaction that is judged in another part: the place of its end, and the keys of which it is a writer here."""

    number: int
    ending: Ending
    end: int
    keys: list[int] = field(default_factory=list)

    @property
    def tokens(self) -> list[str]:
        """Its events."""
        end = [] if self.ending is Ending.OPEN else [f"{self.ending.value}{self.number}"]
        return [*(f"w{self.number}[{key}]" for key in sorted(self.keys)), *end]


class PartWriter:
    """Makes the part of the events behind the place `after`, up to the place `cut`."""

    def __init__(self, history: LongHistory, judged: list[Transaction], after: int, cut: int) -> None:
        self._history = history
        self._judged = judged
        self._after = after
        self._cut = cut
        self._part = PartText(after + 1, cut)
        self._commits: list[int] = []
        self._lengths = [0]

    def part(self) -> PartText:
        """The part: what earlier ones left, the transactions that end here, and the ends of those that end later."""
        part = self._part
        self._load()
        later = self._write_judged()
        for number in sorted(later):
            ending = self._history.endings.of(number)
            if ending is not Ending.OPEN:
                part.add(f"{ending.value}{number}", self._cut)
        part.added = len(part.tokens) - sum(len(each.tokens) for each in self._judged)
        part.over = sum(each.ending is Ending.COMMIT and each.start < self._after for each in self._judged)
        return part

    def _load(self) -> None:
        """Writes what is needed of transactions of earlier parts: of those that didn't commit, then the commits in their order."""
        others = self._others()
        for other in sorted(others, key=lambda it: (it.ending is Ending.COMMIT, it.end)):
            for token in other.tokens:
                self._part.add(token, other.end)
            if other.ending is Ending.COMMIT:
                self._commits.append(other.end)
                self._lengths.append(len(self._part.tokens))
            else:
                self._lengths = [len(self._part.tokens)]

    def _others(self) -> Iterable[Other]:
        """The transactions of earlier parts of which a version is needed."""
        history, found = self._history, dict[int, Other]()
        for key, writer in {version for each in self._judged for version in each.needed}:
            end = history.versions.end_of(key, writer)
            if end is not None and end <= self._after:
                found.setdefault(writer, Other(writer, history.endings.of(writer), end)).keys.append(key)
        return found.values()

    def _write_judged(self) -> set[int]:
        """Writes the events of the part's own transactions in their order, each version of one that ends later right before
        the first read that saw it, and answers who those are."""
        part, written = self._part, set[Version]()
        unended = unended_versions(self._history, self._judged, self._cut)
        events = [
            (place, each, token) for each in self._judged for place, token in zip(each.places, each.tokens, strict=True)
        ]
        events.sort(key=lambda it: it[0])
        for place, each, token in events:
            for version in unended.get(place, ()):
                if version not in written:
                    written.add(version)
                    part.add(f"w{version[1]}[{version[0]}]", place)
            if place == each.places[0] and (each.has_named_start or is_carried(each, self._after)):
                part.add(f"b{each.number}@{self._start_of(each)}", place)
                if each.has_begin:
                    continue
            part.add(token, place)
        return {writer for _, writer in written}

    def _start_of(self, transaction: Transaction) -> int:
        """The number of the part's events up to a transaction's start."""
        if transaction.start <= self._after:
            return self._lengths[bisect_right(self._commits, transaction.start)]
        return bisect_right(self._part.places, transaction.start, self._lengths[-1])


def unended_versions(history: LongHistory, judged: list[Transaction], cut: int) -> dict[int, list[Version]]:
    """The versions that were seen by these transactions and are of others that end behind the cut, by the places of the reads."""
    found: dict[int, list[Version]] = {}
    for each in judged:
        for place, version in each.unended_seen:
            end = history.versions.end_of(*version)
            if end is None or end > cut:
                found.setdefault(place, []).append(version)
    return found
