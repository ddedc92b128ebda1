"""The header of a log: a first line that tells of the whole log and not of a transaction."""

from __future__ import annotations

from collections.abc import Mapping
from dataclasses import dataclass, field

from si_history.keys import NAMED_ORDERS, Key, NoKey, SortBy, key_of

FIELDS = ("values", "key_order")
WRITERS, UNIQUE = "writers", "unique"


@dataclass(slots=True)
class Header:
    """What a header tells. A log without one is as this is by default.

    `values` is whether reads and writes name values, each of which one transaction at most writes to a key; None where the
    header doesn't say. `order` is the name of an order of keys, or all keys in their order. `others` are fields that mean
    nothing here.
    """

    values: bool | None = None
    order: str | dict[Key, int] | None = None
    others: dict[str, object] = field(default_factory=dict)

    def sort_by(self) -> SortBy | None:
        """The order of keys that the header names by a name."""
        return NAMED_ORDERS[self.order] if isinstance(self.order, str) else None


class BadHeader(ValueError):
    """What a header can't tell. Its text is the reason."""


def is_header(fields: Mapping[str, object]) -> bool:
    """Whether the fields of a first line make it a header."""
    return "txn" not in fields and any(name in fields for name in FIELDS)


def header_of(fields: Mapping[str, object]) -> Header:
    """The header that a first line is. Raises BadHeader."""
    others = {name: value for name, value in fields.items() if name not in FIELDS}
    return Header(_values(fields.get("values")), _order(fields.get("key_order")), others)


def _values(value: object) -> bool | None:
    if value not in (None, WRITERS, UNIQUE):
        raise BadHeader(f'"values" is neither "{WRITERS}" nor "{UNIQUE}"')
    return None if value is None else value == UNIQUE


def _order(value: object) -> str | dict[Key, int] | None:
    """An order of keys: one of those that have a name, or that of a list of all keys."""
    if value is None or isinstance(value, str) and value in NAMED_ORDERS:
        return value
    if not isinstance(value, list):
        raise BadHeader(f'"key_order" is none of {", ".join(NAMED_ORDERS)}, and no list of all keys in their order')
    places: dict[Key, int] = {}
    for number, item in enumerate(value, 1):
        try:
            key = key_of(item)
        except NoKey as fault:
            raise BadHeader(f'key {number} of "key_order" {fault}') from None
        if key in places:
            raise BadHeader(f'key {number} of "key_order" is key {places[key] + 1} too')
        places[key] = number - 1
    return places
