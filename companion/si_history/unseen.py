"""Characters that can't be seen: they control a terminal, show nothing, or show like a space."""

from __future__ import annotations

import re
import unicodedata

_BLANK = re.compile(
    # All that Unicode calls default ignorable,
    "[\u00ad\u034f\u061c\u115f-\u1160\u17b4-\u17b5\u180b-\u180f\u200b-\u200f\u202a-\u202e\u2060-\u206f\u3164\ufe00-\ufe0f"
    "\ufeff\uffa0\ufff0-\ufff8\U0001bca0-\U0001bca3\U0001d173-\U0001d17a\U000e0000-\U000e0fff"
    # and signs that are drawn as nothing: Braille without a dot, what stands for an object, fillers and blanks.
    "\u2800\ufffc\U00013441-\U00013442\U00016fe4\U0001d159]"
)


def is_seen(text: str) -> bool:
    """Whether all of a text can be seen. The space counts as seen."""
    return text.isprintable() and (text.isascii() or not _BLANK.search(text))


def is_unmistakable(text: str) -> bool:
    """Whether no other text looks the same by what can't be seen, or by signs that Unicode calls equivalent."""
    if text.isascii():
        return text.isprintable()
    return is_seen(text) and unicodedata.is_normalized("NFC", text) and not unicodedata.category(text[0]).startswith("M")


def visible(text: str) -> str:
    """A text on one line that can't upset a terminal: what can't be seen is `\\x` and two hexadecimal digits for each byte."""
    return text if is_seen(text) else "".join(one if is_seen(one) else _hexadecimal(one) for one in text)


def _hexadecimal(one: str) -> str:
    """The bytes of a character. Those of an argument that isn't UTF-8 are the argument's own."""
    errors = "surrogateescape" if "\udc80" <= one <= "\udcff" else "surrogatepass"
    return "".join(f"\\x{byte:02x}" for byte in one.encode("utf-8", errors))
