"""How many events and bytes a part takes, counted before it is made."""

from __future__ import annotations

from si_history.limits import STANDARD
from si_history.long_history import Transaction

LONGEST_PLACE = len(str(STANDARD.events))


class PartRoom:
    """What is counted of a part that starts behind the place `after`, as transactions are added in the order of their ends.

    A version of a transaction that isn't in the part takes a write, and its writer one event more. Bytes are counted as if each
    named start had the most digits.
    """

    def __init__(self, after: int) -> None:
        self.after = after
        self.events = 0
        self.size = 0
        self._judged: set[int] = set()
        self._others: dict[int, set[int]] = {}

    def add(self, transaction: Transaction) -> None:
        """Adds a transaction, and the versions that it needs."""
        number = transaction.number
        self._judged.add(number)
        for key in self._others.pop(number, ()):
            self._count(-1, _size_of_write(number, key))
        self._count(len(transaction.tokens), transaction.size)
        if is_carried(transaction, self.after) or transaction.has_named_start:
            self._count(int(not transaction.has_begin), len(f"b{number}@\n") + LONGEST_PLACE)
        for key, writer in transaction.needed:
            if writer in self._judged:
                continue
            keys = self._others.setdefault(writer, set())
            if key not in keys:
                keys.add(key)
                self._count(1, _size_of_write(writer, key))

    def is_over(self, most_events: int) -> bool:
        """Whether this is more than a part may have."""
        return self.events + len(self._others) > most_events or self.size > STANDARD.bytes

    def _count(self, events: int, size: int) -> None:
        self.events += events
        self.size += size if events >= 0 else -size


def is_carried(transaction: Transaction, after: int) -> bool:
    """Whether a transaction had begun before a part that starts behind this place."""
    return transaction.places[0] <= after


def _size_of_write(writer: int, key: int) -> int:
    """The bytes of a write, and a share of the writer's end: so counted once for each of its keys."""
    return len(f"w{writer}[{key}]\nc{writer}\n")
