"""The history of a text, or the text's refusal: the table of refusals of docs/FORMAT.md."""

import re
from dataclasses import dataclass, field

from oracle.account import bytes_of
from oracle.events import Event, Form, event_of

TOKEN = re.compile(rb"[^ \t\r\n]+")
MOST_SHOWN = 60


@dataclass(frozen=True)
class Limits:
    """How many events and bytes a text may have."""

    events: int = 100_000
    bytes: int = 16_777_216

    @property
    def words(self) -> list[str]:
        """The options that name them, where they aren't the standard ones."""
        return [] if self == STANDARD else ["--max-events", str(self.events), "--max-bytes", str(self.bytes)]


STANDARD = Limits()
GREATEST = Limits(500_000_000, 17_179_869_184)


@dataclass(frozen=True)
class Refusal:
    """The refusal line of a text, and where its faulty token stands, which the explained report has below that line."""

    line: str
    where: str | None = None

    def report(self, explained: bool = False) -> bytes:
        """The report of the text, byte for byte."""
        lines = [self.line, f"  {self.where}"] if explained and self.where is not None else [self.line]
        return bytes_of(lines)


@dataclass
class Reader:
    """The events so far, and what the rules ask of them: how many there may be, who has an event, who has ended, and who wrote
    what."""

    most: int = STANDARD.events
    events: list[Event] = field(default_factory=list)
    known: set[int] = field(default_factory=set)
    ended: set[int] = field(default_factory=set)
    written: set[tuple[int, int]] = field(default_factory=set)

    def reason(self, event: Event | None) -> str | None:
        """Why a token of this event can't come next, where it can't."""
        if len(self.events) == self.most:
            return "too many events"
        if event is None:
            return "bad event"
        if not event.is_in_range():
            return "number out of range"
        if event.txn in self.ended:
            return "transaction already ended"
        if event.form is Form.BEGIN and event.txn in self.known:
            return "transaction already begun"
        if event.lo is not None and event.hi is not None and event.lo > event.hi:
            return "empty range"
        if not is_good_list(event):
            return "bad list"
        if any(saw != 0 and (saw, key) not in self.written for key, saw in event.sightings()):
            return "version not written"
        if event.start is not None and event.start > len(self.events):
            return "start too late"
        return None

    def add(self, event: Event) -> None:
        """Takes an event for which there is no reason against it."""
        self.events.append(event)
        self.known.add(event.txn)
        if event.form in (Form.COMMIT, Form.ABORT):
            self.ended.add(event.txn)
        if event.form is Form.WRITE and event.key is not None:
            self.written.add((event.txn, event.key))


def is_good_list(event: Event) -> bool:
    """Whether the listed keys ascend within the range."""
    keys = [key for key, _ in event.pairs]
    is_within = all(event.sees(key) is not None for key in keys)
    return is_within and all(left < right for left, right in zip(keys, keys[1:]))


def read(text: bytes, limits: Limits = STANDARD) -> list[Event] | Refusal:
    """The events of a text, or its refusal."""
    if len(text) > limits.bytes:
        return Refusal("refused: text too long")
    reader = Reader(limits.events)
    for number, found in enumerate(TOKEN.finditer(text), 1):
        event = event_of(found[0])
        reason = reader.reason(event)
        if event is None or reason is not None:
            return Refusal(f"refused: token {number}: {reason}", where(text[: found.start()], found[0]))
        reader.add(event)
    return reader.events


def where(before: bytes, token: bytes) -> str:
    """Where a token stands of which this is the text before it, and what it is."""
    lines = before.split(b"\n")
    return f"line {len(lines)}, column {len(lines[-1]) + 1}: {shown(token[:MOST_SHOWN])}"


def shown(token: bytes) -> str:
    """The bytes of a token, with each that isn't printable ASCII, and each backslash, by its number."""
    return "".join(chr(it) if 0x21 <= it <= 0x7E and it != 0x5C else f"\\x{it:02x}" for it in token)
