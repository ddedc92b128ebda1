"""Logs of JSON lines: each line one object, read strictly."""

from __future__ import annotations

import json
from collections.abc import Iterable, Iterator, Set
from dataclasses import dataclass, field
from typing import BinaryIO, NoReturn

from si_history.errors import BadInput, quoted
from si_history.header import BadHeader, Header, header_of, is_header
from si_history.header import FIELDS as HEADER_FIELDS
from si_history.keys import Key, NoKey, key_of
from si_history.limits import STANDARD, Limits
from si_history.operations import RangeOperation
from si_history.policy import Policy
from si_history.progress import Progress
from si_history.spelling import is_one_edit_away

MAX_LOG_BYTES = 268_435_456
MAX_LINE_BYTES = 16_777_216
LINES_BETWEEN_STEPS = 1_000
BLANKS = " \t\r\n"

# Every listed key takes at least this much of the history's text: a digit, a colon, a digit, a comma or bracket.
LEAST_BYTES_LISTED = 4


def most_bytes(limits: Limits) -> int:
    """How many bytes a log may have whose history has these limits."""
    return max(MAX_LOG_BYTES, limits.bytes)


class Unused(ValueError):
    """JSON, or what Python takes for it, that no log has."""


@dataclass
class LogTally:
    """What is kept over all lines of a log: the limits of the history, the header, the keys, and how large the history grows.

    `keys` has each key's first line. Keys keep the order in which the log names them first. `by_values` is whether versions
    are named by values. `first_range` is the line of the first range. `misspelt` has the first line of each field that looks
    like a misspelt one, and the field that it looks like.
    """

    keys: dict[Key, int] = field(default_factory=dict)
    header: Header = field(default_factory=Header)
    by_values: bool = False
    first_range: int | None = None
    misspelt: dict[str, tuple[int, str]] = field(default_factory=dict)
    events: int = 0
    listed: int = 0
    limits: Limits = STANDARD

    def take_header(self, line: LogLine, policy: Policy) -> None:
        """Takes the header, which the first line may be, beside what the command line says. Raises BadInput."""
        try:
            self.header = header_of(line.fields)
        except BadHeader as fault:
            line.refuse(str(fault))
        line.look_for_misspelt(self.header.others, HEADER_FIELDS)
        if self.header.values is not None:
            if policy.by_values is not None and policy.by_values != self.header.values:
                line.refuse('"values" of the header is not what --values says')
            self.by_values = self.header.values

    def header_fields(self) -> dict[int, dict[str, object]]:
        """The fields of the header that mean nothing here, as a legend has them: at place 0, before all events."""
        return {0: self.header.others} if self.header.others else {}

    def warnings(self) -> list[str]:
        """What a person should know of a log that was taken."""
        return [
            f"line {line}: the field {quoted(name)} is kept, and means nothing here; is it a misspelt {quoted(meant)}?"
            for name, (line, meant) in self.misspelt.items()
        ]

    def count(self, events: int, line: int) -> None:
        """Counts events of the history. Raises BadInput where they pass the limit."""
        self.events += events
        if self.events > self.limits.events:
            raise BadInput(f"too many events: the limit of events of a history is {self.limits.events:,}, which --max-events changes", line=line)

    def count_listed(self, listed: int, line: int) -> None:
        """Counts listed keys. Raises BadInput where no text within the limit of bytes can hold them."""
        self.listed += listed
        if self.listed * LEAST_BYTES_LISTED > self.limits.bytes:
            raise BadInput(f"text too long: the limit of bytes of a history is {self.limits.bytes:,}, which --max-bytes changes", line=line)


@dataclass(slots=True)
class LogLine:
    """One line of a log. What isn't as it has to be raises BadInput with the line's number.

    A field that is null counts as left out, except where null means something.
    """

    number: int
    fields: dict[str, object]
    tally: LogTally

    def refuse(self, reason: str) -> NoReturn:
        """Raises the fault of this line."""
        raise BadInput(reason, line=self.number)

    def others(self, known: Set[str], ours: Set[str]) -> dict[str, object] | None:
        """The fields that are none of `known`, or None where there are none.

        Refuses one that is ours elsewhere in such a log, unless it is null.
        """
        if self.fields.keys() <= known:
            return None
        kept: dict[str, object] = {}
        for name, value in self.fields.items():
            if name not in known:
                if name not in ours:
                    kept[name] = value
                elif value is not None:
                    self.refuse(f"there is no field {quoted(name)} here")
        if kept:
            self.look_for_misspelt(kept, known)
        return kept or None

    def look_for_misspelt(self, names: Iterable[str], known: Iterable[str]) -> None:
        """Notes names that look like a known field that this line doesn't have."""
        for name in names:
            if name not in self.tally.misspelt:
                meant = next((word for word in known if word not in self.fields and is_one_edit_away(name, word)), None)
                if meant is not None:
                    self.tally.misspelt[name] = (self.number, meant)

    def get(self, name: str) -> object:
        """The value of a field that must be there; it may be null."""
        if name not in self.fields:
            self.refuse(f'the field "{name}" is missing')
        return self.fields[name]

    def name(self, value: object, what: str) -> str:
        """The name of a transaction: a string, or a whole number, which stands for its digits."""
        if type(value) is str and value and value.isascii():
            return value
        if type(value) is int:
            return str(value)
        if not isinstance(value, str) or not value:
            self.refuse(f"{what} is no name: a string that isn't empty, or a whole number")
        self._check_characters(value, what)
        return value

    def writer(self, value: object, what: str) -> str | None:
        """The name of the writer of a version: null where no transaction wrote it."""
        return None if value is None else self.name(value, what)

    def key(self, value: object, what: str) -> Key:
        """A key: a JSON scalar, or a list of them."""
        key = self._key_of(value, what)
        if key not in self.tally.keys:
            self.tally.keys[key] = self.number
        return key

    def value(self, value: object, what: str) -> Key:
        """A value that was seen: as a key, and null where no transaction wrote it."""
        return self._key_of(value, what)

    def written(self, value: object, what: str) -> Key:
        """A value that was written: as a key, but not null, which is what no transaction wrote."""
        if value is None:
            self.refuse(f"{what} is null, and so names the version that no transaction wrote")
        return self._key_of(value, what)

    def _key_of(self, value: object, what: str) -> Key:
        if type(value) is int or (type(value) is str and value.isascii()):
            return value
        try:
            return key_of(value)
        except NoKey as fault:
            self.refuse(f"{what} {fault}")

    def whole(self, value: object, what: str) -> int:
        """A whole number of any size."""
        if type(value) is not int:
            self.refuse(f"{what} is no whole number")
        return value

    def whole_or_null(self, value: object, what: str) -> int | None:
        """A whole number, or null where there is none."""
        return None if value is None else self.whole(value, what)

    def range_of(self, low: object, high: object, found: object, whats: tuple[str, str, str]) -> RangeOperation:
        """A range read: its first key, its last key, and what was found; `whats` says what these three are called."""
        if self.tally.first_range is None:
            self.tally.first_range = self.number
        ends = self.key(low, whats[0]), self.key(high, whats[1])
        pairs = self._pairs(found, whats[2])
        if not self.tally.by_values:
            writers = [(self.key(key, f"a key of {whats[2]}"), self.writer(saw, f"a writer of {whats[2]}")) for key, saw in pairs]
            return RangeOperation(*ends, writers)
        values = [(self.key(key, f"a key of {whats[2]}"), self.value(saw, f"a value of {whats[2]}")) for key, saw in pairs]
        return RangeOperation(*ends, [], values)

    def _pairs(self, value: object, what: str) -> list[tuple[object, object]]:
        """The keys that a range read found, each with its writer or value."""
        said = f"{what} is no list of pairs [key, {'value' if self.tally.by_values else 'writer'}]"
        if not isinstance(value, list):
            self.refuse(said)
        self.tally.count_listed(len(value), self.number)
        for pair in value:
            if not isinstance(pair, list) or len(pair) != 2:
                self.refuse(said)
        return [(pair[0], pair[1]) for pair in value]

    def _check_characters(self, value: str, what: str) -> None:
        """Refuses a string that isn't text: JSON can name halves of characters, which no output can say."""
        try:
            value.encode("utf-8")
        except UnicodeEncodeError:
            self.refuse(f"{what} has half a character (an unpaired surrogate)")


def log_lines(log: BinaryIO, tally: LogTally, what: str, policy: Policy) -> Iterator[LogLine]:
    """The lines of a log behind its header; `what` is what a line tells of, in the plural, for the person who waits."""
    tally.by_values = bool(policy.by_values)
    decoder = json.JSONDecoder(object_pairs_hook=_object_of, parse_constant=_no_constant)
    most = left = most_bytes(policy.limits)
    number = 0
    with Progress(f"{what} read") as progress:
        while content := log.readline(min(left, MAX_LINE_BYTES) + 1):
            number += 1
            left -= len(content)
            if len(content) > MAX_LINE_BYTES:
                raise BadInput(f"too long: the limit of bytes of a line is {MAX_LINE_BYTES:,}", line=number)
            if left < 0:
                raise BadInput(f"log too long: the limit of bytes of a log is {most:,}", line=number)
            if number % LINES_BETWEEN_STEPS == 0:
                progress.step(number)
            line = LogLine(number, _fields_of(content, number, decoder), tally)
            if number == 1 and is_header(line.fields):
                tally.take_header(line, policy)
            else:
                yield line


def _fields_of(content: bytes, number: int, decoder: json.JSONDecoder) -> dict[str, object]:
    """The object that stands on a line."""
    try:
        text = content.decode("utf-8").rstrip(BLANKS)
        made, end = decoder.raw_decode(text, len(text) - len(text.lstrip(BLANKS)))
        if end < len(text):
            raise json.JSONDecodeError("Extra data", text, len(text) - len(text[end:].lstrip(BLANKS)))
    except UnicodeDecodeError:
        raise BadInput("not UTF-8", line=number) from None
    except json.JSONDecodeError as fault:
        raise BadInput(f"not JSON: {fault.msg.removesuffix(' at')} at column {fault.pos + 1}", line=number) from None
    except RecursionError:
        raise BadInput("not JSON that is used here: it is too deep", line=number) from None
    except Unused as fault:
        raise BadInput(f"not JSON that is used here: {fault}", line=number) from None
    except ValueError:
        raise BadInput("not JSON that is used here: a number has too many digits", line=number) from None
    if not isinstance(made, dict):
        raise BadInput("no JSON object", line=number)
    return made


def _object_of(pairs: list[tuple[str, object]]) -> dict[str, object]:
    """An object of JSON, in which no field stands twice."""
    made = dict(pairs)
    if len(made) < len(pairs):
        raise Unused("a field stands twice")
    return made


def _no_constant(constant: str) -> NoReturn:
    """Refuses NaN and the infinities, which Python's reader takes and JSON doesn't have."""
    raise Unused(f"{constant} is no number")
