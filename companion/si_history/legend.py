"""The legend of a history: which names and lines of a store's log its numbers stand for."""

from __future__ import annotations

import hashlib
import json
import re
from collections.abc import Iterable
from dataclasses import dataclass, field

from si_history.errors import BadInput

FORMAT = "si-history legend 2"

# What a log doesn't tell of a transaction: whether it committed; or only that it did, since its version was read.
UNKNOWN, PLACED = "unknown", "placed"

Times = tuple[int | None, int | None]
_HASH = re.compile("sha256:[0-9a-f]{64}")


def hash_of(history: bytes) -> str:
    """The hash of a history's text, by which its legend knows it."""
    return f"sha256:{hashlib.sha256(history).hexdigest()}"


@dataclass
class Legend:
    """What the numbers of a history stand for.

    `transactions` and `keys` give the log's name of each number. `events` gives, for each place of the history in turn,
    the line of the log that the event came from; both are counted from 1. `outcomes` has the transactions of which the log
    doesn't tell all: UNKNOWN, PLACED, or the kind of a stand-in. `fields` has what else the log says beside events, and at
    place 0 in its first line. `times` has the timestamps of a transaction's start and of its commit, where the log gives
    such. `history` is the hash of the history's text, which a legend has that was read.
    """

    transactions: dict[int, str] = field(default_factory=dict)
    keys: dict[int, str] = field(default_factory=dict)
    events: list[int] = field(default_factory=list)
    outcomes: dict[int, str] = field(default_factory=dict)
    fields: dict[int, dict[str, object]] = field(default_factory=dict)
    times: dict[int, Times] = field(default_factory=dict)
    history: str | None = field(default=None, compare=False)

    def is_undecided(self, transactions: Iterable[int]) -> bool:
        """Whether a finding about these transactions depends on an outcome that the log doesn't tell."""
        return any(self.outcomes.get(number) in (UNKNOWN, PLACED) for number in transactions)

    def transaction(self, number: int) -> str:
        """The log's name of a transaction, or the number itself where the legend has none."""
        return self.transactions.get(number, str(number))

    def key(self, number: int) -> str:
        """The log's name of a key, or the number itself where the legend has none."""
        return self.keys.get(number, str(number))

    def line(self, place: int) -> int | None:
        """The line of the log that the event at a place came from, if the legend tells."""
        return self.events[place - 1] if 1 <= place <= len(self.events) else None

    def check(self, history: bytes) -> None:
        """Raises BadInput where the legend was not written with this history."""
        if self.history != hash_of(history):
            raise BadInput("the legend is of another history: it was not written with this text")

    def to_json(self, history: bytes) -> str:
        """The legend of the history with this text as one JSON object, on one line."""
        made: dict[str, object] = {
            "format": FORMAT,
            "history": hash_of(history),
            "transactions": {str(number): name for number, name in self.transactions.items()},
            "keys": {str(number): name for number, name in self.keys.items()},
            "events": self.events,
        }
        if self.outcomes:
            made["outcomes"] = {str(number): outcome for number, outcome in self.outcomes.items()}
        if self.fields:
            made["fields"] = {str(place): fields for place, fields in self.fields.items()}
        if self.times:
            made["times"] = {str(number): times for number, times in self.times.items()}
        return json.dumps(made) + "\n"

    @classmethod
    def from_json(cls, text: str) -> Legend:
        """Reads what `to_json` wrote. Raises BadInput where it is no legend."""
        try:
            made = json.loads(text)
        except (ValueError, RecursionError):
            raise BadInput("the legend is not JSON") from None
        if not isinstance(made, dict) or made.get("format") != FORMAT:
            raise BadInput(f'the legend is no object with "format": "{FORMAT}"')
        named = _names(made, "transactions"), _names(made, "keys"), _lines(made)
        others = _names({"outcomes": {}} | made, "outcomes"), _fields(made), _times(made)
        return cls(*named, *others, _hash(made))


def _hash(made: dict[str, object]) -> str:
    """The hash of the history."""
    written = made.get("history")
    if not isinstance(written, str) or not _HASH.fullmatch(written):
        raise BadInput('"history" of the legend is no hash of the history that it was written with')
    return written


def _names(made: dict[str, object], part: str) -> dict[int, str]:
    """One table of the legend, from numbers to names."""
    table = made.get(part)
    if not isinstance(table, dict):
        raise BadInput(f'the legend has no table "{part}"')
    names: dict[int, str] = {}
    for number, name in table.items():
        if not _is_number(number) or not isinstance(name, str):
            raise BadInput(f'"{part}" of the legend does not lead from numbers to names')
        names[int(number)] = name
    return names


def _fields(made: dict[str, object]) -> dict[int, dict[str, object]]:
    """What else the log says beside events, by their places."""
    table = made.get("fields", {})
    if not isinstance(table, dict) or not all(_is_number(place) and isinstance(said, dict) for place, said in table.items()):
        raise BadInput('"fields" of the legend does not lead from places to fields')
    return {int(place): said for place, said in table.items()}


def _times(made: dict[str, object]) -> dict[int, Times]:
    """The timestamps of transactions."""
    table = made.get("times", {})
    times: dict[int, Times] = {}
    for number, pair in table.items() if isinstance(table, dict) else [("", None)]:
        match pair:
            case [int() | None as start, int() | None as commit] if _is_number(number):
                times[int(number)] = start, commit
            case _:
                raise BadInput('"times" of the legend does not lead from transactions to a start and a commit')
    return times


def _is_number(text: str) -> bool:
    """Whether a text is a whole number of at most twenty digits, which every number of a history is."""
    return text.isascii() and text.isdigit() and len(text) <= 20


def _lines(made: dict[str, object]) -> list[int]:
    """The lines of the log, one for each place."""
    lines = made.get("events")
    if not isinstance(lines, list) or not all(type(line) is int and line > 0 for line in lines):
        raise BadInput('"events" of the legend is no list of line numbers')
    return lines
