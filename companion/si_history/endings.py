"""How each transaction of a long history ends, which is asked before the end is reached."""

from __future__ import annotations

import re
from collections.abc import Iterable
from dataclasses import dataclass, field
from enum import Enum

from si_history.number_set import NumberSet

_ACTOR = re.compile("[brwca]([1-9][0-9]{0,9})")


class Ending(Enum):
    """How a transaction ends, by the letter of the event that ends it."""

    COMMIT = "c"
    ABORT = "a"
    OPEN = ""


@dataclass(slots=True)
class Endings:
    """The number of events, who commits, and of those that never end the place of the last event."""

    events: int = 0
    committed: NumberSet = field(default_factory=NumberSet)
    unended: dict[int, int] = field(default_factory=dict)

    def of(self, transaction: int) -> Ending:
        """How a transaction ends that has events."""
        if transaction in self.unended:
            return Ending.OPEN
        return Ending.COMMIT if transaction in self.committed else Ending.ABORT


def endings_of(tokens: Iterable[str]) -> Endings:
    """Reads the endings. What no event is is passed over: who reads the events after that refuses it."""
    found = Endings()
    unended, committed = found.unended, found.committed
    for place, token in enumerate(tokens, 1):
        found.events = place
        actor = _ACTOR.match(token)
        if actor is None:
            continue
        number = int(actor[1])
        if token[0] in "ca":
            unended.pop(number, None)
            if token[0] == "c":
                committed.add(number)
        else:
            unended[number] = place
    return found
