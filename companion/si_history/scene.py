"""What a picture shows of a history: lanes of transactions, their events, and arrows from one event to another.

A finding is shown alone: its transactions, with all of their events or with those that it is about. A small history is shown
whole, too. How much is left out is counted.
"""

from __future__ import annotations

import enum
from collections.abc import Iterable
from dataclasses import dataclass

from si_history.facts import Facts, Fate, Transaction
from si_history.findings import Arrow, Finding
from si_history.history import Abort, Begin, Commit, Event, RangeRead, Read
from si_history.naming import Names
from si_history.wording import Wording, without_quotes

SMALL_TRANSACTIONS = 24
SMALL_EVENTS = 240
MOST_LANES = 40
MOST_LISTED = 8


class Extent(enum.Enum):
    """How much is shown of a finding's transactions, from most to least."""

    ALL = "all of their events"
    KEYS = "what they do with the finding's keys, and their ends"
    FINDING = "what the finding is about, and their ends"


class MarkKind(enum.Enum):
    """What an event does, for its look."""

    BEGIN = "begin"
    READ = "read"
    WRITE = "write"
    COMMIT = "commit"
    ABORT = "abort"


@dataclass(frozen=True, slots=True)
class Mark:
    """An event in a lane: its place, its label of one line or two, the same in a sentence, and whether the finding is about it."""

    place: int
    kind: MarkKind
    label: tuple[str, ...]
    words: str
    is_named: bool


@dataclass(frozen=True, slots=True)
class Lane:
    """A transaction with those of its events that are shown. `start` is the number of events recorded when it started.

    `beside` is what else the log says where it began.
    """

    transaction: int
    name: str
    fate: Fate
    start: int
    marks: tuple[Mark, ...]
    hidden_events: int
    beside: str = ""


@dataclass(frozen=True, slots=True)
class Scene:
    """What is shown. The lanes are in the order of their starts."""

    lanes: tuple[Lane, ...]
    arrows: tuple[Arrow, ...]
    hidden_transactions: int

    @property
    def hidden_events(self) -> int:
        """How many events of the shown transactions are left out."""
        return sum(lane.hidden_events for lane in self.lanes)


def is_small(facts: Facts) -> bool:
    """Whether a history can be shown whole, event by event."""
    return len(facts.transactions) <= SMALL_TRANSACTIONS and facts.event_count <= SMALL_EVENTS


def whole_scene(facts: Facts, arrows: Iterable[Arrow], names: Names) -> Scene:
    """All of a history."""
    return _scene(facts, list(facts.transactions.values()), None, set(), arrows, names)


def finding_scene(facts: Facts, finding: Finding, names: Names, extent: Extent) -> Scene:
    """A finding's transactions alone. Those that are left out are the finding's."""
    transactions = [facts.transaction(number) for number in finding.transactions[:MOST_LANES]]
    places = None
    if extent is not Extent.ALL:
        places = {*finding.places, *(end for each in transactions if (end := each.end) is not None)}
    if extent is Extent.KEYS and places is not None:
        places.update(place for each in transactions for place in each.places if any(facts.touches(place, key) for key in finding.keys))
    return _scene(
        facts, transactions, places, set(finding.places), finding.arrows, names, len(finding.transactions) - len(transactions)
    )


def _scene(
    facts: Facts, transactions: list[Transaction], places: set[int] | None, named: set[int], arrows: Iterable[Arrow], names: Names,
    hidden_transactions: int = 0,
) -> Scene:
    """The scene with these transactions and the events at these places, or all of their events."""
    ordered = sorted(transactions, key=lambda each: (each.start, each.places[0]))
    lanes = tuple(_lane(facts, each, places, named, names) for each in ordered)
    shown = {mark.place for lane in lanes for mark in lane.marks}
    seen = tuple(arrow for arrow in arrows if arrow.source_place in shown and arrow.target_place in shown)
    return Scene(lanes, seen, hidden_transactions)


def _lane(facts: Facts, transaction: Transaction, places: set[int] | None, named: set[int], names: Names) -> Lane:
    shown = transaction.places if places is None else [place for place in transaction.places if place in places]
    marks = tuple(_mark(place, facts.event(place), place in named, names) for place in shown)
    return Lane(
        transaction.number,
        names.transaction(transaction.number),
        transaction.fate,
        transaction.start,
        marks,
        len(transaction.places) - len(marks),
        names.beside(transaction.places[0]),
    )


def _mark(place: int, event: Event, is_named: bool, names: Names) -> Mark:
    kind, label, words = _look(event, names)
    sentence = f"{names.place(place)}: {Wording(names).transaction(event.transaction)} {words}"
    return Mark(place, kind, label, _with(sentence, names.beside(place)), is_named)


def _with(sentence: str, beside: str) -> str:
    """A sentence with what else the log says there."""
    return f"{sentence}; {beside}" if beside else sentence


def _look(event: Event, names: Names) -> tuple[MarkKind, tuple[str, ...], str]:
    """The kind of an event, its label, and what it did in words."""
    say = Wording(names)
    if isinstance(event, Begin):
        return MarkKind.BEGIN, ("begin",), "began" if event.start is None else f"began; it started after {event.start} events"
    if isinstance(event, Commit):
        return MarkKind.COMMIT, ("commit",), "committed"
    if isinstance(event, Abort):
        return MarkKind.ABORT, ("abort",), "aborted"
    if isinstance(event, Read):
        seen = f"saw {_version(event.saw, names)}"
        return MarkKind.READ, (f"read {_key(event.key, names)}", seen), f"read {say.key(event.key)} and saw {say.version(event.saw)}"
    if isinstance(event, RangeRead):
        low, high = say.key(event.low), say.key(event.high)
        label = f"read {_key(event.low, names)} to {_key(event.high, names)}"
        return MarkKind.READ, (label, f"saw {_listed_short(event, names)}"), f"read {low} to {high} and saw {_listed(event, say)}"
    return MarkKind.WRITE, (f"write {_key(event.key, names)}",), f"wrote {say.key(event.key)}"


def _listed(event: RangeRead, say: Wording) -> str:
    """What a range read saw, in words."""
    seen = [f"{say.version(version)} of {say.key(key)}" for key, version in event.listed[:MOST_LISTED]]
    if len(event.listed) > MOST_LISTED:
        seen.append(f"{len(event.listed) - MOST_LISTED:,} more listed keys")
    return ", ".join([*seen, "every other key at the initial version" if seen else "the initial version of each"])


def _listed_short(event: RangeRead, names: Names) -> str:
    """What a range read saw, for a label."""
    versions = list(dict.fromkeys(_version(version, names) for _, version in event.listed))
    return ", ".join(versions) if versions else _version(0, names)


def _key(number: int, names: Names) -> str:
    return without_quotes(names.key(number))


def _version(number: int, names: Names) -> str:
    return names.transaction(number) if number else "initial"
