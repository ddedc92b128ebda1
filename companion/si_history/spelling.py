"""Names of fields that look like misspelt ones."""

from __future__ import annotations


def is_one_edit_away(one: str, other: str) -> bool:
    """Whether a character put in, left out or changed, or two neighbours changed about, lead from one word to the other."""
    if len(one) > len(other):
        one, other = other, one
    if one == other or len(other) - len(one) > 1:
        return False
    at = next((n for n, (a, b) in enumerate(zip(one, other)) if a != b), len(one))
    if len(one) < len(other):
        return one[at:] == other[at + 1:]
    return one[at + 1:] == other[at + 1:] or (one[at:at + 2] == other[at:at + 2][::-1] and one[at + 2:] == other[at + 2:])
