"""The numbers that a history has for the names of a log."""

from __future__ import annotations

from dataclasses import dataclass
from typing import Any

from si_history.errors import BadInput
from si_history.history import MAX_KEY, Event, RangeRead, Read, Write
from si_history.keys import Key, by_unicode, key_names, kind_of, shown_key
from si_history.log_lines import LogTally
from si_history.operations import Operation, RangeOperation, ReadOperation


def number_keys(tally: LogTally) -> dict[Key, int]:
    """Numbers the keys of a log in such a way that ranges stay ranges.

    Whole numbers stand for themselves where all keys are such as a history can say. Else keys are numbered from 0 in the
    order that the header names, or by their kinds and Unicode's numbers for their characters (which for strings is the
    order of their UTF-8 bytes too). Raises BadInput where that isn't said and a range depends on it.
    """
    keys, order = tally.keys, tally.header.order
    if isinstance(order, dict):
        return _listed(keys, order)
    if all(isinstance(key, int) and 0 <= key <= MAX_KEY for key in keys):
        return {key: key for key in keys if isinstance(key, int)}
    if all(isinstance(key, str) for key in keys) and order in (None, "unicode"):
        return {key: number for number, key in enumerate(sorted(map(str, keys)))}
    if order is None and tally.first_range is not None:
        _check_kinds(keys, tally.first_range)
    sort_by: Any = tally.header.sort_by() or by_unicode
    return {key: number for number, key in enumerate(sorted(keys, key=sort_by))}


def _listed(keys: dict[Key, int], order: dict[Key, int]) -> dict[Key, int]:
    """Numbers by the header's list of all keys."""
    for key, line in keys.items():
        if key not in order:
            raise BadInput(f'the key {shown_key(key)} is not in the list "key_order" of the header', line=line)
    return order


def _check_kinds(keys: dict[Key, int], first_range: int) -> None:
    """Refuses a range where nothing says how the keys are ordered: they are lists, or of several kinds."""
    firsts = {kind_of(key): key for key in reversed(keys)}
    told = " and ".join(f"{shown_key(key)} (line {keys[key]})" for key in sorted(firsts.values(), key=keys.__getitem__))
    if len(firsts) > 1 or "list" in firsts:
        raise BadInput(
            f"a range needs an order of the keys, and nothing says how keys such as {told} are ordered: "
            'a header has to name it as "key_order"',
            line=first_range,
        )


@dataclass(slots=True)
class Numbering:
    """The number of each transaction and of each key of a log."""

    transactions: dict[str, int]
    keys: dict[Key, int]

    def event(self, transaction: str, operation: Operation, line: int) -> Event:
        """The event of a history that an operation is. Raises BadInput where a range isn't one."""
        actor = self.transactions[transaction]
        if isinstance(operation, ReadOperation):
            return Read(actor, self.keys[operation.key], self._version(operation.writer))
        if isinstance(operation, RangeOperation):
            return self._range(actor, operation, line)
        return Write(actor, self.keys[operation.key])

    def key_names(self) -> dict[int, str]:
        """The log's name of each key's number, ascending."""
        names = key_names(self.keys)
        return {number: names[key] for key, number in sorted(self.keys.items(), key=lambda item: item[1])}

    def transaction_names(self) -> dict[int, str]:
        """The log's name of each transaction's number, ascending."""
        return {number: name for name, number in sorted(self.transactions.items(), key=lambda item: item[1])}

    def _version(self, writer: str | None) -> int:
        return 0 if writer is None else self.transactions[writer]

    def _range(self, actor: int, operation: RangeOperation, line: int) -> RangeRead:
        """The event of a range read, with its keys ascending."""
        low, high = self.keys[operation.low], self.keys[operation.high]
        if low > high:
            raise BadInput(
                f"the range is empty: {shown_key(operation.low)} comes after {shown_key(operation.high)}", line=line
            )
        listed: dict[int, int] = {}
        for key, writer in operation.found:
            number = self.keys[key]
            if not low <= number <= high:
                raise BadInput(f"the key {shown_key(key)} was found outside the range", line=line)
            if number in listed:
                raise BadInput(f"the key {shown_key(key)} was found twice", line=line)
            listed[number] = self._version(writer)
        return RangeRead(actor, low, high, tuple(sorted(listed.items())))
