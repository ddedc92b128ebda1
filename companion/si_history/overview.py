"""A large history whole: one bar a transaction, from its start to its end, and no events.

Transactions that don't overlap share a row, so that the picture is as wide as the page and as high as there are transactions at a
time. Those that findings are about stand out.
"""

from __future__ import annotations

import heapq
from collections.abc import Iterable, Iterator
from html import escape

from si_history.facts import Facts, Fate, Transaction
from si_history.naming import Names
from si_history.wording import Wording

WIDTH = 846.0
LEFT = 10.0
TOP = 34.0
BOTTOM = 40.0
MOST_HEIGHT = 560.0
MOST_ROW_HEIGHT = 18.0
LEAST_BAR = 1.5
LEAST_NAMED_BAR = 4.0
TICKS = 5
FATES = {Fate.COMMITTED: "committed", Fate.ABORTED: "aborted", Fate.OPEN: "open: drawn to the end"}


def overview(facts: Facts, named: Iterable[int], names: Names) -> str:
    """The whole history as an SVG element without a style of its own. `named` are the transactions of the findings."""
    rows = _rows(facts)
    height = min(MOST_ROW_HEIGHT, MOST_HEIGHT / max(1, len(set(rows.values()))))
    bottom = TOP + height * len(set(rows.values()))
    size = f'width="{WIDTH + 2 * LEFT:.0f}" height="{bottom + BOTTOM:.0f}"'
    parts = [
        f'<svg xmlns="http://www.w3.org/2000/svg" class="timeline overview" role="group" {size}'
        f' viewBox="0 0 {WIDTH + 2 * LEFT:.0f} {bottom + BOTTOM:.0f}">',
        "<title>The whole timeline</title>",
        "<desc>One bar a transaction from its start to its end, events from left to right.</desc>",
        f'<rect class="ground" {size} rx="10"/>',
        *_axis(facts.event_count, bottom),
        *_bars(facts, rows, height),
        *(_named_bar(facts, facts.transaction(number), rows[number], height, names) for number in sorted(set(named))),
        *_key(bottom),
        "</svg>",
    ]
    return "\n".join(parts) + "\n"


def _rows(facts: Facts) -> dict[int, int]:
    """The row of each transaction: the least that is free when it starts."""
    rows: dict[int, int] = {}
    free: list[int] = []
    taken: list[tuple[int, int]] = []
    for each in sorted(facts.transactions.values(), key=lambda each: (each.start, each.number)):
        while taken and taken[0][0] <= each.start:
            heapq.heappush(free, heapq.heappop(taken)[1])
        row = heapq.heappop(free) if free else len(taken)
        rows[each.number] = row
        heapq.heappush(taken, (_last(facts, each), row))
    return rows


def _last(facts: Facts, transaction: Transaction) -> int:
    return facts.event_count if transaction.end is None else transaction.end


def _across(facts: Facts, place: int) -> float:
    return LEFT + WIDTH * place / max(1, facts.event_count)


def _axis(events: int, bottom: float) -> Iterator[str]:
    """The numbers of some events."""
    for tick in range(TICKS + 1):
        x = LEFT + WIDTH * tick / TICKS
        anchor = "start" if tick == 0 else "end" if tick == TICKS else "middle"
        yield f'<path class="tick" d="M{x:.1f} {TOP - 6:.0f}V{bottom:.1f}"/>'
        yield f'<text class="axis" text-anchor="{anchor}" x="{x:.1f}" y="{TOP - 14:.0f}">event {events * tick // TICKS:,}</text>'


def _bars(facts: Facts, rows: dict[int, int], height: float) -> Iterator[str]:
    """All transactions, in one path for each fate. Bars that would be drawn in one place are drawn once."""
    bars: dict[Fate, dict[str, None]] = {}
    for each in facts.transactions.values():
        bars.setdefault(each.fate, {})[_bar(facts, each, rows[each.number], height, LEAST_BAR)] = None
    for fate, drawn in bars.items():
        yield f'<path class="bars {fate.value}" stroke-width="{height * 0.7:.2f}" d="{"".join(drawn)}"/>'


def _bar(facts: Facts, transaction: Transaction, row: int, height: float, least: float) -> str:
    start, end = _across(facts, transaction.start), _across(facts, _last(facts, transaction))
    return f"M{start:.0f} {TOP + height * (row + 0.5):.1f}h{max(end - start, least):.1f}"


def _named_bar(facts: Facts, transaction: Transaction, row: int, height: float, names: Names) -> str:
    say = Wording(names)
    end = f"ended at {say.place(transaction.end)}" if transaction.end else "never ended"
    words = f"{say.opening(transaction.number)}, {transaction.fate.value}: started after event {transaction.start}, {end}"
    return (
        f'<path class="found" data-transaction="{transaction.number}" stroke-width="{max(height, LEAST_NAMED_BAR):.1f}"'
        f' d="{_bar(facts, transaction, row, height, LEAST_NAMED_BAR)}"><title>{escape(words)}</title></path>'
    )


def _key(bottom: float) -> Iterator[str]:
    """What the colours mean."""
    at, y = LEFT, bottom + BOTTOM / 2
    yield '<g class="key">'
    for look, words in (*((f"bars {fate.value}", words) for fate, words in FATES.items()), ("found", "of a finding")):
        yield f'<path class="{look}" stroke-width="8" d="M{at:.0f} {y:.0f}h20"/>'
        yield f'<text class="axis" x="{at + 28:.0f}" y="{y + 4:.0f}">{words}</text>'
        at += 28 + len(words) * 6.6 + 26
    yield "</g>"
