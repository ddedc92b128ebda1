"""A report in the names of a log, so that reports of histories with other numbers can be compared."""

from __future__ import annotations

from collections.abc import Callable
from dataclasses import dataclass

from si_history.history import Begin, Event

Words = tuple[object, ...]

PLACED = ("bad-read", "unexplained")
LISTED = ("in", "out", "first")


@dataclass
class NamedReport:
    """A report whose numbers are names. A place is the transaction's name and how many of its events, begins left out, went
    before. What the counts of the first line say of events is left out."""

    status: int
    lines: list[Words]

    def in_any_order(self) -> tuple[int, list[Words]]:
        """What doesn't depend on the numbers: all findings, each pivot's lists sorted, and of the last line its kind."""
        lines = [_sorted_pivot(line) if line[0] == "pivot" else line for line in self.lines[:-1]]
        return self.status, sorted([*lines, self.lines[-1][:1]], key=repr)

    def in_any_places(self) -> tuple[int, list[Words]]:
        """What doesn't depend on the places, where the numbers are in the same order: what is listed by place is sorted."""
        placed = [line for line in self.lines if line[0] in PLACED]
        return self.status, [*sorted(placed, key=repr), *(line for line in self.lines if line[0] not in PLACED)]


def named(
    status: int, report: str, events: list[Event], transaction: Callable[[int], str], key: Callable[[int], str]
) -> NamedReport:
    """The report of a history in the names that the two functions give."""
    operations = _operations(events)

    def version(word: str) -> str | None:
        return transaction(int(word)) if word != "0" else None

    def line_of(words: list[str]) -> Words:
        match words:
            case ["events", _, *counts]:
                return ("events", *counts)
            case ["bad-read", place, t, k, "saw", saw, "due", due]:
                owner, index = operations[int(place) - 1]
                return ("bad-read", transaction(owner), index, transaction(int(t)), key(int(k)), version(saw), version(due))
            case ["bad-write", k, u, t]:
                return ("bad-write", key(int(k)), transaction(int(u)), transaction(int(t)))
            case ["unexplained", place, t, k, saw]:
                owner, index = operations[int(place) - 1]
                return ("unexplained", transaction(owner), index, transaction(int(t)), key(int(k)), version(saw))
            case ["edge", t, kind, u, k]:
                return ("edge", transaction(int(t)), kind, transaction(int(u)), key(int(k)))
            case ["pivot" | "order", *others]:
                return (words[0], *(word if word in LISTED else transaction(int(word)) for word in others))
            case ["cycle", *others]:
                return ("cycle", *(_step(word, transaction, key) for word in others))
        return tuple(words)

    return NamedReport(status, [line_of(line.split(" ")) for line in report.splitlines()])


def _operations(events: list[Event]) -> list[tuple[int, int]]:
    """Of each place the transaction, and how many of its events went before, begins left out."""
    counts: dict[int, int] = {}
    places: list[tuple[int, int]] = []
    for event in events:
        count = counts.get(event.transaction, 0)
        places.append((event.transaction, count))
        counts[event.transaction] = count + (not isinstance(event, Begin))
    return places


def _step(word: str, transaction: Callable[[int], str], key: Callable[[int], str]) -> str:
    """A word of a cycle: a transaction, or `>KIND:KEY>`."""
    if not word.startswith(">"):
        return transaction(int(word))
    kind, number = word.strip(">").split(":")
    return f">{kind}:{key(int(number))}>"


def _sorted_pivot(line: Words) -> Words:
    """A pivot with each of its lists sorted."""
    lists: dict[str, list[str]] = {}
    for word in map(str, line[2:]):
        if word in LISTED:
            lists[word] = current = []
        else:
            current.append(word)
    return (*line[:2], *((name, *sorted(names)) for name, names in lists.items()))
