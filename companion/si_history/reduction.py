"""Delta debugging (Zeller and Hildebrandt 2002): the parts of something that can't be left out."""

from __future__ import annotations

from collections.abc import Callable, Sequence
from typing import TypeVar

_Part = TypeVar("_Part")


def least(parts: Sequence[_Part], holds: Callable[[Sequence[_Part]], bool]) -> list[_Part]:
    """A part of the parts, in their order, for which `holds` is true, as it is for all of them, and of which no one can be left out.

    Halves are left out first, then smaller and smaller chunks, and at last one part at a time, until each was tried in vain.
    """
    kept, size = list(parts), max(1, len(parts) // 2)
    while True:
        smaller = _without_chunks(kept, size, holds)
        if size == 1 and len(smaller) == len(kept):
            return kept
        kept = smaller
        size = max(1, min(size, len(kept)) // 2)


def _without_chunks(parts: list[_Part], size: int, holds: Callable[[Sequence[_Part]], bool]) -> list[_Part]:
    """The parts without each chunk of this size that can be left out, the last ones first."""
    kept, end = parts, len(parts)
    while end > 0:
        rest = kept[: max(0, end - size)] + kept[end:]
        if holds(rest):
            kept = rest
        end -= size
    return kept
