"""Scripts: a history whose transactions a store is to do once more, an event after another."""

from __future__ import annotations

from collections import Counter
from dataclasses import dataclass

from si_history.errors import BadInput
from si_history.history import Abort, Begin, Commit, Event, RangeRead, Read, Write, parse
from si_history.record.workloads import GiveUp, Look, Plan, Put, Scan, Step

# Stores have keys of 64 bits with a sign, and a range is gone through key by key.
GREATEST_KEY = 2**63 - 1
WIDEST_RANGE = 10_000


@dataclass(frozen=True)
class Script:
    """What each transaction does, by its number, and whose turn it is, event after event.

    A transaction's first turn begins it. Where its first event is no begin, its first two turns follow each other. One that
    has no end in the history gives up at the end of the script. `keys` are those that the history names, ascending.
    """

    plans: dict[int, Plan]
    turns: list[int]
    keys: list[int]

    @property
    def sessions(self) -> int:
        """How many sessions it takes."""
        left = Counter(self.turns)
        running: set[int] = set()
        most = 0
        for number in self.turns:
            running.add(number)
            most = max(most, len(running))
            left[number] -= 1
            if left[number] == 0:
                running.remove(number)
        return most


def read_script(text: str) -> Script:
    """The script that a history's text is. The versions that it says were read are not looked at: the store will tell them.

    Raises BadInput where it is no history that a store could be asked for.
    """
    plans: dict[int, list[Step]] = {}
    turns: list[int] = []
    ended: set[int] = set()
    keys: set[int] = set()
    last_commit = 0
    for place, event in enumerate(parse(text), 1):
        number = event.transaction
        if number in ended:
            raise BadInput(f"event {place}, {event}, stands behind the end of its transaction")
        if isinstance(event, Begin):
            _check_begin(event, place, number in plans, last_commit)
        elif number not in plans:
            turns.append(number)
        steps = plans.setdefault(number, [])
        if isinstance(event, Commit | Abort):
            ended.add(number)
            last_commit = place if isinstance(event, Commit) else last_commit
        step = _step(event)
        if step is not None:
            steps.append(step)
        _check_keys(event, place)
        keys.update(_keys(event))
        turns.append(number)
    if not plans:
        raise BadInput("the script is empty: it has no event")
    for number in plans.keys() - ended:
        plans[number].append(GiveUp())
    turns += sorted(plans.keys() - ended)
    return Script({number: tuple(steps) for number, steps in plans.items()}, turns, sorted(keys))


def _check_begin(event: Begin, place: int, has_begun: bool, last_commit: int) -> None:
    """Raises BadInput for a begin that can't be done at its place."""
    if has_begun:
        raise BadInput(f"event {place}, {event}, is no first event of its transaction")
    if event.start is not None and not last_commit <= event.start < place:
        raise BadInput(f"event {place}, {event}, names a start before the commit at {last_commit}: "
                       "a store takes a snapshot where it is asked to")


def _check_keys(event: Event, place: int) -> None:
    """Raises BadInput for keys that a store doesn't take."""
    if any(key > GREATEST_KEY for key in _keys(event)):
        raise BadInput(f"event {place}, {event}, has a key that is greater than {GREATEST_KEY}, which no store takes")
    if isinstance(event, RangeRead) and not 0 <= event.high - event.low < WIDEST_RANGE:
        raise BadInput(f"event {place}, {event}, is of no range of from 1 to {WIDEST_RANGE:,} keys")


def _step(event: Event) -> Step | None:
    """The step of an event; none where the transaction's begin or its commit is meant."""
    match event:
        case Read(_, key, _):
            return Look(key)
        case RangeRead(_, low, high, _):
            return Scan(low, high)
        case Write(_, key):
            return Put(key)
        case Abort():
            return GiveUp()
        case _:
            return None


def _keys(event: Event) -> list[int]:
    """The keys that an event names."""
    match event:
        case Read(_, key, _) | Write(_, key):
            return [key]
        case RangeRead(_, low, high, listed):
            return [low, high, *(key for key, _ in listed)]
        case _:
            return []
