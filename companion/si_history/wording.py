"""What stands in a sentence for a transaction, a key, a version and a place.

A name of the log stands by itself. A number alone says nothing in a sentence, so the word for what it numbers stands before it.
"""

from __future__ import annotations

from collections.abc import Sequence

from si_history.naming import Names

MOST_LISTED = 8


class Wording:
    """The words for what stands in one history."""

    def __init__(self, names: Names) -> None:
        self.names = names

    def transaction(self, number: int) -> str:
        return _with_word("transaction", self.names.transaction(number))

    def opening(self, number: int) -> str:
        """A transaction at the start of a sentence."""
        return _with_word("Transaction", self.names.transaction(number))

    def key(self, number: int) -> str:
        return _with_word("key", self.names.key(number))

    def version(self, number: int) -> str:
        """Whose version of a key it is; 0 is the one that no transaction wrote."""
        return f"{self.transaction(number)}'s version" if number else "the initial version"

    def place(self, place: int) -> str:
        return self.names.place(place)

    def listed(self, numbers: Sequence[int]) -> str:
        """Transactions in a row, the first of them if they are many."""
        words = ", ".join(map(self.transaction, numbers[:MOST_LISTED]))
        return f"{words} and {len(numbers) - MOST_LISTED:,} more" if len(numbers) > MOST_LISTED else words

    def path(self, numbers: Sequence[int], left: int = 0) -> str:
        """A way from transaction to transaction. Before the last one, `left` are left out."""
        stops = list(map(self.names.transaction, numbers))
        if left:
            stops.insert(-1, f"{left:,} more")
        return " \u2192 ".join(stops)


def _with_word(word: str, name: str) -> str:
    """A name, and before one of digits alone the word. With it the name 0 can't be taken for a version and needs no quotes."""
    bare = without_quotes(name)
    return f"{word} {bare}" if bare.isdigit() else name


def without_quotes(name: str) -> str:
    """A name of digits alone, which has quotes where it is 0, as it is where nothing else can stand."""
    bare = name.strip('"')
    return bare if bare.isdigit() else name


def counted(count: int, noun: str) -> str:
    """A number of things."""
    return f"{count:,} {noun}{'' if count == 1 else 's'}"
