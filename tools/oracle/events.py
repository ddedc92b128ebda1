"""Events, and the tokens that are one: the forms and the ranges of docs/FORMAT.md."""

import re
from dataclasses import dataclass, field
from enum import Enum

MAX_TXN = 2**32 - 1
MAX_KEY = 2**64 - 1


class Form(Enum):
    """What an event records."""

    BEGIN = "begin"
    READ = "read"
    RANGE = "range"
    WRITE = "write"
    COMMIT = "commit"
    ABORT = "abort"


@dataclass(frozen=True)
class Event:
    """One event. Each form has some of the numbers, and the others stay None: a begin its named start, if it has one,
    a read `key` and `saw`, a range read `lo` and `hi`, a write `key`. `listed` has the versions that a range lists."""

    form: Form
    txn: int
    start: int | None = None
    key: int | None = None
    saw: int | None = None
    lo: int | None = None
    hi: int | None = None
    pairs: tuple[tuple[int, int], ...] = ()
    listed: dict[int, int] = field(default_factory=dict, compare=False)

    def sightings(self) -> tuple[tuple[int, int], ...]:
        """Each key that the event names a version of, with that version."""
        if self.key is not None and self.saw is not None:
            return ((self.key, self.saw),)
        return self.pairs

    def sees(self, key: int) -> int | None:
        """The version of the key that the event saw, where it is a read that covers the key."""
        if self.form is Form.READ:
            return self.saw if key == self.key else None
        if self.lo is not None and self.hi is not None and self.lo <= key <= self.hi:
            return self.listed.get(key, 0)
        return None

    def keys(self) -> list[int]:
        """All keys that the event names, the ends of a range too."""
        return [it for it in (self.key, self.lo, self.hi) if it is not None] + [key for key, _ in self.pairs]

    def is_in_range(self) -> bool:
        """Whether each number is in its range."""
        versions = [it for it in (self.saw, self.start) if it is not None] + [version for _, version in self.pairs]
        is_txn = 1 <= self.txn <= MAX_TXN
        return is_txn and all(it <= MAX_KEY for it in self.keys()) and all(it <= MAX_TXN for it in versions)


NUMBER = rb"(0|[1-9][0-9]*)"
ANY = rb"(?:0|[1-9][0-9]*)"
PAIRS = rb"(" + ANY + rb":" + ANY + rb"(?:," + ANY + rb":" + ANY + rb")*)"
BEGIN = re.compile(rb"b" + NUMBER + rb"(?:@" + NUMBER + rb")?")
READ = re.compile(rb"r" + NUMBER + rb"\[" + NUMBER + rb":" + NUMBER + rb"\]")
RANGE = re.compile(rb"r" + NUMBER + rb"\[" + NUMBER + rb"\.\." + NUMBER + rb"(?:;" + PAIRS + rb")?\]")
WRITE = re.compile(rb"w" + NUMBER + rb"\[" + NUMBER + rb"\]")
END = re.compile(rb"([ca])" + NUMBER)


def event_of(token: bytes) -> Event | None:
    """The event that a token is by its form, also where a number is out of its range."""
    if found := READ.fullmatch(token):
        txn, key, saw = map(int, found.groups())
        return Event(Form.READ, txn, key=key, saw=saw)
    if found := WRITE.fullmatch(token):
        txn, key = map(int, found.groups())
        return Event(Form.WRITE, txn, key=key)
    if found := END.fullmatch(token):
        return Event(Form.COMMIT if found[1] == b"c" else Form.ABORT, int(found[2]))
    if found := BEGIN.fullmatch(token):
        return Event(Form.BEGIN, int(found[1]), start=None if found[2] is None else int(found[2]))
    if found := RANGE.fullmatch(token):
        pairs = tuple(pair_of(it) for it in found[4].split(b",")) if found[4] else ()
        return Event(Form.RANGE, int(found[1]), lo=int(found[2]), hi=int(found[3]), pairs=pairs, listed=dict(pairs))
    return None


def pair_of(text: bytes) -> tuple[int, int]:
    """A listed key and its version."""
    key, _, version = text.partition(b":")
    return int(key), int(version)
