"""The text of a history: its events, read and written as docs/FORMAT.md says."""

from __future__ import annotations

import re
from collections.abc import Iterable
from dataclasses import dataclass

from si_history.errors import BadInput
from si_history.limits import STANDARD, Limits
from si_history.progress import Progress

EVENTS_BETWEEN_STEPS = 1_000
MAX_TRANSACTION = 2**32 - 1
MAX_KEY = 2**64 - 1


@dataclass(frozen=True, slots=True)
class Begin:
    """A transaction began. `start` is the number of events recorded when it started, where it is named."""

    transaction: int
    start: int | None = None

    def __str__(self) -> str:
        return f"b{self.transaction}" if self.start is None else f"b{self.transaction}@{self.start}"


@dataclass(frozen=True, slots=True)
class Read:
    """A transaction read a key, and saw the version that transaction `saw` wrote, or the first one where that is 0."""

    transaction: int
    key: int
    saw: int

    def __str__(self) -> str:
        return f"r{self.transaction}[{self.key}:{self.saw}]"


@dataclass(frozen=True, slots=True)
class RangeRead:
    """A transaction read all keys from `low` to `high`, both included.

    `listed` has the keys that were seen with their versions, ascending; every other key was seen at version 0.
    """

    transaction: int
    low: int
    high: int
    listed: tuple[tuple[int, int], ...] = ()

    def __str__(self) -> str:
        pairs = ",".join(f"{key}:{saw}" for key, saw in self.listed)
        return f"r{self.transaction}[{self.low}..{self.high}{';' if pairs else ''}{pairs}]"


@dataclass(frozen=True, slots=True)
class Write:
    """A transaction wrote a key."""

    transaction: int
    key: int

    def __str__(self) -> str:
        return f"w{self.transaction}[{self.key}]"


@dataclass(frozen=True, slots=True)
class Commit:
    """A transaction committed."""

    transaction: int

    def __str__(self) -> str:
        return f"c{self.transaction}"


@dataclass(frozen=True, slots=True)
class Abort:
    """A transaction aborted."""

    transaction: int

    def __str__(self) -> str:
        return f"a{self.transaction}"


Event = Begin | Read | RangeRead | Write | Commit | Abort


def text_of(events: Iterable[Event], limits: Limits = STANDARD) -> str:
    """The text of a history, one event a line, so that the line of an event is its place.

    Raises BadInput where the text would pass the limit of events or of bytes.
    """
    tokens = [str(event) for event in events]
    if len(tokens) > limits.events:
        raise BadInput(f"too many events: the history would have {len(tokens):,}, and the limit of events is {limits.events:,}")
    size = sum(map(len, tokens)) + len(tokens)
    if size > limits.bytes:
        raise BadInput(f"text too long: the history would have {size:,} bytes, and the limit of bytes is {limits.bytes:,}")
    return "".join(f"{token}\n" for token in tokens)


_NUMBER = "(0|[1-9][0-9]*)"
_PAIRS = "((?:(?:0|[1-9][0-9]*):(?:0|[1-9][0-9]*),)*(?:0|[1-9][0-9]*):(?:0|[1-9][0-9]*))"
_BEGIN = re.compile(f"b{_NUMBER}(?:@{_NUMBER})?")
_READ = re.compile(rf"r{_NUMBER}\[{_NUMBER}:{_NUMBER}\]")
_RANGE = re.compile(rf"r{_NUMBER}\[{_NUMBER}\.\.{_NUMBER}(?:;{_PAIRS})?\]")
_WRITE = re.compile(rf"w{_NUMBER}\[{_NUMBER}\]")
_END = re.compile(f"([ca]){_NUMBER}")


def parse(text: str, progress: Progress | None = None, limits: Limits = STANDARD) -> list[Event]:
    """The events of a history's text, of which those that are read so far are told to `progress`.

    Raises BadInput for what no event can be: a bad form, a number out of range, too many events, a text that is too long.
    Whether the events can stand in this order is for the auditor to say, and isn't looked at.
    """
    if len(text) > limits.bytes:
        raise BadInput(f"text too long: the limit of bytes is {limits.bytes:,}")
    tokens = [token for token in re.split("[ \t\r\n]+", text) if token]
    if len(tokens) > limits.events:
        raise BadInput(f"too many events: the limit of events is {limits.events:,}")
    events: list[Event] = []
    for number, token in enumerate(tokens, 1):
        if number % EVENTS_BETWEEN_STEPS == 0 and progress is not None:
            progress.step(number, len(tokens))
        events.append(event_of(token, number))
    return events


def event_of(token: str, number: int) -> Event:
    """The event that a token stands for; `number` is the token's place in the text. Raises BadInput where it is none."""
    def within(digits: str, greatest: int, least: int = 0) -> int:
        if len(digits) > 20 or not least <= int(digits) <= greatest:
            raise BadInput(f"token {number}: number out of range")
        return int(digits)

    if found := _READ.fullmatch(token):
        return Read(within(found[1], MAX_TRANSACTION, 1), within(found[2], MAX_KEY), within(found[3], MAX_TRANSACTION))
    if found := _WRITE.fullmatch(token):
        return Write(within(found[1], MAX_TRANSACTION, 1), within(found[2], MAX_KEY))
    if found := _END.fullmatch(token):
        transaction = within(found[2], MAX_TRANSACTION, 1)
        return Commit(transaction) if found[1] == "c" else Abort(transaction)
    if found := _BEGIN.fullmatch(token):
        start = None if found[2] is None else within(found[2], MAX_TRANSACTION)
        return Begin(within(found[1], MAX_TRANSACTION, 1), start)
    if found := _RANGE.fullmatch(token):
        pairs = [pair.split(":") for pair in found[4].split(",")] if found[4] else []
        listed = tuple((within(key, MAX_KEY), within(saw, MAX_TRANSACTION)) for key, saw in pairs)
        return RangeRead(within(found[1], MAX_TRANSACTION, 1), within(found[2], MAX_KEY), within(found[3], MAX_KEY), listed)
    raise BadInput(f"token {number}: bad event")
