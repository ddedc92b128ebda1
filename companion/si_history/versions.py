"""Finds the writer of each version that a log says was read.

A log names versions by their writers, or by values. Of values each is written to a key by one transaction at most, so it
names its writer; of several that one transaction wrote to a key, the last one is its version of the key.
"""

from __future__ import annotations

from collections.abc import Iterable
from dataclasses import dataclass, field

from si_history.errors import BadInput, quoted
from si_history.keys import Key, shown_key
from si_history.operations import Operation, ReadOperation, Sighting, WriteOperation, sightings
from si_history.policy import Policy
from si_history.stand_ins import StandIn, StandIns

# An operation with its transaction's name and its line.
Act = tuple[str, int, Operation]

NOWHERE = "{} saw a version of {} from nowhere: "


def find_writers(acts: list[Act], names: Iterable[str], policy: Policy, by_values: bool, is_in_order: bool) -> list[StandIn]:
    """Gives each read and range its writers, in place, and answers the stand-ins that it took for them.

    The operations of each transaction come in its own order; `is_in_order` is whether all of them stand in the order in
    which they happened. `names` are those of the log's transactions. Raises BadInput for a version that the policy refuses.
    """
    known = set(names)
    stand_ins = StandIns(known)
    if by_values:
        _ByValues(stand_ins, policy, is_in_order).take(acts)
    elif policy.takes_unknown_writers:
        _take_writers(acts, known, stand_ins)
    return stand_ins.all()


def _take_writers(acts: list[Act], known: set[str], stand_ins: StandIns) -> None:
    """Puts a stand-in in the place of each writer that never wrote the key."""
    written = {(name, operation.key) for name, _, operation in acts if isinstance(operation, WriteOperation)}
    for name, line, operation in acts:
        for number, (key, writer) in enumerate(sightings(operation)):
            if writer is not None and (writer, key) not in written:
                made = stand_ins.writer(writer, writer in known, key, name, line)
                if isinstance(operation, ReadOperation):
                    operation.writer = made
                elif not isinstance(operation, WriteOperation):
                    operation.found[number] = (key, made)


@dataclass(slots=True)
class _Written:
    """A value that was written to a key: by which transaction, and at which line first."""

    writer: str
    line: int


@dataclass(slots=True)
class _ByValues:
    """Finds writers by values.

    `last` has the value that each transaction wrote to each key last, and `own` the one that it wrote last so far.
    """

    stand_ins: StandIns
    policy: Policy
    is_in_order: bool
    written: dict[tuple[Key, Key], _Written] = field(default_factory=dict)
    last: dict[tuple[str, Key], Key] = field(default_factory=dict)
    own: dict[tuple[str, Key], Key] = field(default_factory=dict)

    def take(self, acts: list[Act]) -> None:
        """Gives each read and range its writers."""
        for name, line, operation in acts:
            if isinstance(operation, WriteOperation):
                self._note(name, line, operation.key, operation.value)
        for name, line, operation in acts:
            if isinstance(operation, ReadOperation):
                operation.writer = self._writer(name, line, operation.key, operation.value)
            elif isinstance(operation, WriteOperation):
                self.own[name, operation.key] = operation.value
            else:
                found: list[Sighting] = [(key, self._writer(name, line, key, value)) for key, value in operation.values or ()]
                operation.found = found

    def _note(self, name: str, line: int, key: Key, value: Key) -> None:
        before = self.written.get((key, value))
        if before is None:
            self.written[key, value] = _Written(name, line)
        elif before.writer != name:
            raise BadInput(
                f"{quoted(name)} wrote the value {shown_key(value)} to {shown_key(key)}, as {quoted(before.writer)} did at "
                f"line {before.line}: a value that two wrote doesn't tell whose version was read",
                line=line,
            )
        self.last[name, key] = value

    def _writer(self, reader: str, line: int, key: Key, value: Key) -> str | None:
        """The writer of a value that was read: a transaction, a stand-in, or None where no transaction wrote it."""
        if value is None:
            return None
        written = self.written.get((key, value))
        if written is None:
            return self._unknown(reader, line, key, value)
        if self.is_in_order and written.line > line:
            told = f"{self._nowhere(reader, key)}the value {shown_key(value)} was written only at line {written.line}"
            raise BadInput(told, line=line)
        current = self.own.get((reader, key)) if written.writer == reader else self.last[written.writer, key]
        if current is None:
            told = f"{quoted(reader)} saw its own value {shown_key(value)} of {shown_key(key)} before it wrote that key"
            raise BadInput(told, line=line)
        return written.writer if current == value else self._overwritten(reader, line, key, value, written, current)

    def _unknown(self, reader: str, line: int, key: Key, value: Key) -> str:
        if not self.policy.takes_unknown_values:
            raise BadInput(f"{self._nowhere(reader, key)}nobody wrote the value {shown_key(value)} to it", line=line)
        return self.stand_ins.value(key, value, reader, line)

    def _overwritten(self, reader: str, line: int, key: Key, value: Key, written: _Written, current: Key) -> str:
        """What a read saw of a value that its writer wrote, but not last: the name of a stand-in."""
        if self.policy.takes_intermediate:
            return self.stand_ins.intermediate(written.writer, key, value, reader, line)
        told = f"{quoted(reader)} saw the value {shown_key(value)} of {shown_key(key)}"
        if written.writer == reader:
            raise BadInput(f"{told}, where its own write of {shown_key(current)} stands last before this read", line=line)
        raise BadInput(
            f"intermediate read (G1b): {told}, which {quoted(written.writer)} (line {written.line}) wrote there and "
            f"overwrote with {shown_key(current)}",
            line=line,
        )

    def _nowhere(self, reader: str, key: Key) -> str:
        return NOWHERE.format(quoted(reader), shown_key(key))
