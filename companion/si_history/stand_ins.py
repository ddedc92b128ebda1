"""Transactions that the log doesn't have, and whose versions it says were read.

Where the user lets such versions pass, each becomes one of a *stand-in*: a transaction that writes the key, never ends, and
is named after what it stands for. So the read comes out as a bad one.
"""

from __future__ import annotations

from collections.abc import Iterable
from dataclasses import dataclass, field

from si_history.keys import Key, key_names

ABSENT, INTERMEDIATE = "not-in-the-log", "overwritten"


@dataclass(slots=True)
class StandIn:
    """One stand-in: its name and kind, the keys that it writes, and the transaction and line that saw it first."""

    name: str
    kind: str
    reader: str
    line: int
    keys: dict[Key, None] = field(default_factory=dict)


class StandIns:
    """All stand-ins of a log."""

    def __init__(self, names: Iterable[str]) -> None:
        self._taken = set(names)
        self._made: dict[tuple[object, ...], StandIn] = {}

    def writer(self, writer: str, is_in_log: bool, key: Key, reader: str, line: int) -> str:
        """The name of the stand-in for a writer that the log doesn't have, or that never wrote this key in it."""
        mark = ("writer", writer, key) if is_in_log else ("writer", writer)
        name = f"{writer}:{_shown(key)}" if is_in_log else writer
        return self._stand_in(mark, f"{name}:{ABSENT}", ABSENT, key, reader, line)

    def value(self, key: Key, value: Key, reader: str, line: int) -> str:
        """The name of the stand-in for the writer of a value that nobody wrote."""
        name = f"{_shown(key)}={_shown(value)}:{ABSENT}"
        return self._stand_in(("value", key, value), name, ABSENT, key, reader, line)

    def intermediate(self, writer: str, key: Key, value: Key, reader: str, line: int) -> str:
        """The name of the stand-in for a version that its writer overwrote itself."""
        name = f"{writer}:{_shown(key)}={_shown(value)}:{INTERMEDIATE}"
        return self._stand_in(("intermediate", key, value), name, INTERMEDIATE, key, reader, line)

    def all(self) -> list[StandIn]:
        """The stand-ins, in the order in which they were first seen."""
        return list(self._made.values())

    def _stand_in(self, mark: tuple[object, ...], name: str, kind: str, key: Key, reader: str, line: int) -> str:
        made = self._made.get(mark)
        if made is None:
            while name in self._taken:
                name += "'"
            self._taken.add(name)
            made = self._made[mark] = StandIn(name, kind, reader, line)
        made.keys[key] = None
        return made.name


def _shown(key: Key) -> str:
    return key_names([key])[key]
