"""The words of a report's lines, read strictly."""

from __future__ import annotations

from si_history.report import Edge, EdgeKind

MOST_DIGITS = 20
"""No number of a report has more digits: the greatest key is 18446744073709551615."""
MOST_SHOWN = 40
KINDS = {kind.value: kind for kind in EdgeKind}


class Malformed(Exception):
    """A line that a report has not, or not in this place."""


def short(text: str) -> str:
    """The text in ASCII and quotes, cut where it is long."""
    return ascii(text if len(text) <= MOST_SHOWN else text[:MOST_SHOWN] + "..")


def number_of(word: str) -> int:
    """The number that a word is. Raises Malformed where it is none."""
    if not (word.isascii() and word.isdigit()) or len(word) > MOST_DIGITS or (word[0] == "0" and word != "0"):
        raise Malformed(f"{short(word)} is no number")
    return int(word)


def numbers_of(words: list[str], forms: str) -> list[int]:
    """The numbers among the words. `forms` is the line that is wanted, with `#` at the place of each number."""
    wanted = forms.split(" ")
    if len(words) != len(wanted) or any(form not in ("#", word) for form, word in zip(wanted, words)):
        raise Malformed(f"'{forms.replace('#', 'N')}' is wanted")
    return [number_of(word) for form, word in zip(wanted, words) if form == "#"]


def step_of(source: str, arrow: str, target: str) -> Edge:
    """The edge that is told as `T >KIND:KEY> U`. Raises Malformed where it is none."""
    kind, colon, key = arrow[1:-1].partition(":")
    if not (arrow.startswith(">") and arrow.endswith(">") and colon):
        raise Malformed(f"{short(arrow)} is no step from one transaction to another")
    if kind not in KINDS:
        raise Malformed(f"the kind of an edge is ww, wr or rw, and not {short(kind)}")
    return Edge(number_of(source), KINDS[kind], number_of(target), number_of(key))


def steps_of(words: list[str]) -> tuple[Edge, ...]:
    """The edges that are told as `T >KIND:KEY> U >KIND:KEY> V ..`. Raises Malformed where they are none."""
    return tuple(step_of(*words[at : at + 3]) for at in range(0, len(words) - 2, 2))
