"""Keys and values as a log names them: JSON scalars and lists of these, and the orders in which ranges of keys lie."""

from __future__ import annotations

import enum
import json
import math
from collections.abc import Callable, Iterable

from si_history.errors import SHOWN_CHARACTERS, quoted


class Truth(enum.Enum):
    """JSON's false and true, which Python takes for 0 and 1."""

    FALSE = 0
    TRUE = 1


# A number, a string, true, false or null. A whole number that is written with a point (5.0) is that whole number.
Scalar = int | float | str | Truth | None

# What a log names by a key, and in a log of values by a value.
Key = Scalar | tuple[Scalar, ...]

KINDS = "a string, a number, true, false, null, or a list of these"

# An order of keys: what they are sorted by.
SortBy = Callable[[Key], object]


class NoKey(ValueError):
    """What JSON has, and no key is. Its text says what is wrong with it, to stand behind "is" or "has"."""


def key_of(value: object) -> Key:
    """A value of JSON as a key. Raises NoKey where it can't be one."""
    return tuple(map(_scalar, value)) if isinstance(value, list) else _scalar(value)


def _scalar(value: object) -> Scalar:
    if isinstance(value, bool):
        return Truth.TRUE if value else Truth.FALSE
    if isinstance(value, float):
        if not math.isfinite(value):
            raise NoKey("has a number that is too large")
        return int(value) if value.is_integer() and abs(value) < 2**53 else value
    if isinstance(value, str):
        try:
            value.encode("utf-8")
        except UnicodeEncodeError:
            # JSON can name halves of characters, which no output can say.
            raise NoKey("has half a character (an unpaired surrogate)") from None
        return value
    if value is None or isinstance(value, int):
        return value
    raise NoKey(f"is no key: {KINDS}")


def json_of(key: Key) -> object:
    """A key as JSON has it."""
    if isinstance(key, tuple):
        return [json_of(item) for item in key]
    return key is Truth.TRUE if isinstance(key, Truth) else key


def shown_key(key: Key) -> str:
    """A key in a message: on one line, and cut where it is long."""
    if isinstance(key, str):
        return quoted(key)
    shown = json.dumps(json_of(key))
    return shown if len(shown) <= SHOWN_CHARACTERS else shown[:SHOWN_CHARACTERS] + "..."


def key_names(keys: Iterable[Key]) -> dict[Key, str]:
    """The name of each key of a log, no two alike.

    A string is its own name, and all else is named as JSON has it. Where there is both, a string that reads as JSON is
    named as JSON has it too, so that 5 and "5" are told apart.
    """
    listed = list(keys)
    if all(isinstance(key, str) for key in listed):
        return {key: str(key) for key in listed}
    return {key: _name(key) for key in listed}


def _name(key: Key) -> str:
    text = json.dumps(json_of(key), ensure_ascii=False)
    return key if isinstance(key, str) and not _is_json(key) else text


def _is_json(text: str) -> bool:
    try:
        json.loads(text)
    except (ValueError, RecursionError):
        return False
    return True


def kind_of(key: Key) -> str:
    """What kind of key it is: those of two kinds have no order that goes without saying."""
    if key is None or isinstance(key, Truth):
        return "null" if key is None else "truth"
    return "list" if isinstance(key, tuple) else "string" if isinstance(key, str) else "number"


def by_unicode(key: Key) -> object:
    """null, false, true, numbers by size, strings by Unicode's numbers for their characters, lists item by item."""
    return _ranked(key, lambda text: text)


def by_utf_16(key: Key) -> object:
    """The same, but strings by the units of UTF-16, as Java, JavaScript and C# compare them."""
    return _ranked(key, lambda text: text.encode("utf-16-be"))


def _ranked(key: Key, text: Callable[[str], object]) -> tuple[int, object]:
    if key is None:
        return 0, 0
    if isinstance(key, Truth):
        return 1, key.value
    if isinstance(key, str):
        return 3, text(key)
    if isinstance(key, tuple):
        return 4, tuple(_ranked(item, text) for item in key)
    return 2, key


# The orders that a log can name.
NAMED_ORDERS: dict[str, SortBy] = {"unicode": by_unicode, "utf-16": by_utf_16}
