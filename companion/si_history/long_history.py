"""The events of a history of any length, checked as the auditor checks them and gathered by transactions."""

from __future__ import annotations

from dataclasses import dataclass, field

from si_history.endings import Ending, Endings
from si_history.errors import BadInput
from si_history.history import Abort, Begin, Commit, Event, RangeRead, Read, Write, event_of
from si_history.number_set import NumberSet
from si_history.past_versions import PastVersions

Version = tuple[int, int]
"""A key, and who wrote it."""


@dataclass(slots=True)
class Transaction:
    """One transaction, with its events so far and their places.

    `needed` has the versions of others on which the findings about it depend: those that it saw, those that were due to it,
    and where it committed those of its own keys that were committed since its start. `unended_seen` has those that it saw
    while their writers had not ended, each with the place of the read. `owed` has the keys of which it is known, until it ends,
    which version is due to it.
    """

    number: int
    start: int
    has_begin: bool
    has_named_start: bool
    places: list[int] = field(default_factory=list)
    tokens: list[str] = field(default_factory=list)
    size: int = 0
    written: set[int] = field(default_factory=set)
    owed: set[int] = field(default_factory=set)
    needed: set[Version] = field(default_factory=set)
    unended_seen: list[tuple[int, Version]] = field(default_factory=list)
    end: int = 0
    ending: Ending = Ending.OPEN

    def record(self, token: str, place: int) -> None:
        """Adds an event."""
        self.places.append(place)
        self.tokens.append(token)
        self.size += len(token) + 1


class LongHistory:
    """What is known of a history up to some event: the open transactions, who has ended, and all versions."""

    def __init__(self, endings: Endings) -> None:
        self.endings = endings
        self.versions = PastVersions()
        self.open: dict[int, Transaction] = {}
        self._ended = NumberSet()

    def take(self, token: str, place: int) -> Transaction | None:
        """Takes the next event, and answers the transaction that ends with it: of one without an end that is its last event.

        Raises BadInput, in the auditor's words, where the event can't stand here.
        """
        event = event_of(token, place)
        actor = self._actor(event, place)
        match event:
            case Read():
                _check(event.saw == 0 or self._is_written((event.key, event.saw)), place, "version not written")
                self._see(actor, (event.key, event.saw), place)
                self._owe(actor, event.key)
            case RangeRead():
                self._take_range(actor, event, place)
            case Write():
                actor.written.add(event.key)
            case _:
                pass
        actor.record(token, place)
        if isinstance(event, Commit | Abort) or self.endings.unended.get(actor.number) == place:
            self._end(actor, event, place)
            return actor
        return None

    def _actor(self, event: Event, place: int) -> Transaction:
        """The transaction of an event, which is a new one where this is its first."""
        number = event.transaction
        actor = self.open.get(number)
        if actor is not None:
            _check(not isinstance(event, Begin), place, "transaction already begun")
            return actor
        _check(number not in self._ended, place, "transaction already ended")
        start = event.start if isinstance(event, Begin) else None
        _check(start is None or start < place, place, "start too late")
        actor = Transaction(number, place - 1 if start is None else start, isinstance(event, Begin), start is not None)
        self.open[number] = actor
        return actor

    def _take_range(self, actor: Transaction, event: RangeRead, place: int) -> None:
        """What a range read saw, and what was due to it."""
        _check(event.low <= event.high, place, "empty range")
        before = event.low - 1
        for key, _ in event.listed:
            _check(before < key <= event.high, place, "bad list")
            before = key
        for version in event.listed:
            _check(version[1] == 0 or self._is_written(version), place, "version not written")
            self._see(actor, version, place)
        for key in self.versions.keys_within(event.low, event.high):
            self._owe(actor, key)

    def _is_written(self, version: Version) -> bool:
        key, writer = version
        actor = self.open.get(writer)
        return key in actor.written if actor is not None else self.versions.end_of(key, writer) is not None

    def _see(self, actor: Transaction, version: Version, place: int) -> None:
        """A version that the transaction saw."""
        writer = version[1]
        if writer not in (0, actor.number):
            actor.needed.add(version)
            if writer in self.open:
                actor.unended_seen.append((place, version))

    def _owe(self, actor: Transaction, key: int) -> None:
        """The version of a key that its snapshot has, which is due to its reads unless it wrote the key before."""
        if key in actor.owed:
            return
        actor.owed.add(key)
        writer = 0 if key in actor.written else self.versions.due(key, actor.start)
        if writer:
            actor.needed.add((key, writer))

    def _end(self, actor: Transaction, event: Event, place: int) -> None:
        """Ends a transaction. What it wrote are versions from here on."""
        del self.open[actor.number]
        self._ended.add(actor.number)
        actor.end = place
        actor.owed.clear()
        if isinstance(event, Commit):
            actor.ending = Ending.COMMIT
            for key in actor.written:
                actor.needed.update((key, writer) for writer in self.versions.since(key, actor.start))
            self.versions.commit(actor.number, actor.written, place)
            return
        actor.ending = Ending.ABORT if isinstance(event, Abort) else Ending.OPEN
        self.versions.lose(actor.number, actor.written, place)


def _check(is_right: bool, place: int, reason: str) -> None:
    if not is_right:
        raise BadInput(f"token {place}: {reason}")
