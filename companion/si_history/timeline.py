"""A scene as a picture: an SVG timeline with one lane a transaction, and arrows between events."""

from __future__ import annotations

import unicodedata
from bisect import bisect_right
from collections.abc import Iterator
from dataclasses import dataclass
from html import escape
from importlib.resources import files

from si_history.facts import Fate
from si_history.findings import Look
from si_history.scene import Lane, Mark, Scene

LANE_HEIGHT = 84
TOP = 40
BOTTOM = 44
PILL_HEIGHT = 38
LINE_HEIGHT = 15
CHARACTER = 7.3
SMALL_CHARACTER = 6.6
"""The widths of one character of a label, and of one of the words that are written smaller. All lengths are pixels."""
CLOSE, APART = 12, 28
"""Between two events, and where events in between are not shown."""
LONGEST_LABEL = 22
LONGEST_NAME = 18
KEY_LEFT = 18.0
SAMPLE_WIDTH = 24.0
SAMPLES = [0.5 + sign * step / 40 for step in range(17) for sign in (1, -1)]
"""Where on an arrow its label can stand, the best place first."""

STYLE = "timeline.css"
START = ("start", "start of a transaction")
ARROWS = {
    Look.SAW: "version that was seen",
    Look.DUE: "version that was due",
    Look.STEP: "has to come before, in a serial order",
}
"""What is told below the lanes, of the signs that are there."""


@dataclass(frozen=True, slots=True)
class Box:
    left: float
    top: float
    right: float
    bottom: float

    def meets(self, other: Box) -> bool:
        """Whether the two have a point in common."""
        across = self.left < other.right and other.left < self.right
        return across and self.top < other.bottom and other.top < self.bottom


def style() -> str:
    """The looks of a picture."""
    return files(__package__).joinpath(STYLE).read_text("utf-8")


def width(scene: Scene) -> float:
    """How wide a picture is."""
    return _Layout(scene).width


def svg(scene: Scene, title: str, description: str, styled: bool = True) -> str:
    """The picture as an SVG element, which is a file of its own too where it is styled. It takes light or dark from who looks."""
    layout = _Layout(scene)
    size = f'width="{layout.width:.0f}" height="{layout.height:.0f}"'
    parts = [
        f'<svg xmlns="http://www.w3.org/2000/svg" class="timeline" role="group" aria-labelledby="timeline-title timeline-words"'
        f' {size} viewBox="0 0 {layout.width:.0f} {layout.height:.0f}">',
        f'<title id="timeline-title">{escape(title)}</title>',
        f'<desc id="timeline-words">{escape(description)}</desc>',
        *([f"<style>{style()}</style>"] if styled else []),
        *_heads(scene),
        f'<rect class="ground" {size} rx="10"/>',
        *_axis(layout),
        *(part for row, lane in enumerate(scene.lanes) for part in _lane(layout, row, lane)),
        '<g class="links">',
        *_links(layout),
        "</g>",
        *(_name(layout, row, lane) for row, lane in enumerate(scene.lanes)),
        _key(layout),
        "</svg>",
    ]
    return "\n".join(parts) + "\n"


def _heads(scene: Scene) -> Iterator[str]:
    """The heads of the arrows that are there."""
    for look in _looks(scene):
        yield (
            f'<defs><marker id="head-{look.value}" viewBox="0 0 10 10" refX="9" refY="5" markerUnits="userSpaceOnUse"'
            f' markerWidth="12" markerHeight="12" orient="auto"><path class="head {look.value}" d="M0 0 10 5 0 10z"/></marker></defs>'
        )


def _looks(scene: Scene) -> list[Look]:
    there = {arrow.look for arrow in scene.arrows}
    return [look for look in ARROWS if look in there]


class _Layout:
    """Where everything stands."""

    def __init__(self, scene: Scene) -> None:
        self.scene = scene
        self.row_of = {mark.place: row for row, lane in enumerate(scene.lanes) for mark in lane.marks}
        marks = {mark.place: mark for lane in scene.lanes for mark in lane.marks}
        self.places = sorted(marks)
        longest = max((_width(_cut(lane.name, LONGEST_NAME)) for lane in scene.lanes), default=0)
        fates = max((SMALL_CHARACTER * len(_fate(lane)) for lane in scene.lanes), default=0)
        self.names_width = max(110.0, longest + 40, fates + 30)
        self.left: dict[int, float] = {}
        self.right: dict[int, float] = {}
        at, before = self.names_width + 22, 0
        for place in self.places:
            at += CLOSE if place == before + 1 else APART
            self.left[place], self.right[place] = at, at + _label_width(marks[place]) + 18
            at, before = self.right[place], place
        self.width = max(at + 26, _key_width(scene))
        self.height = TOP + LANE_HEIGHT * len(scene.lanes) + BOTTOM

    def middle(self, place: int) -> float:
        return (self.left[place] + self.right[place]) / 2

    def lane_middle(self, row: int) -> float:
        return TOP + LANE_HEIGHT * (row + 0.5)

    def after(self, place: int) -> float:
        """Right behind a place, which need not be shown, and before the next one that is."""
        following = bisect_right(self.places, place)
        if following < len(self.places):
            return self.left[self.places[following]] - CLOSE / 2
        return (self.right[self.places[-1]] if self.places else self.names_width) + CLOSE / 2

    def pill(self, place: int) -> Box:
        middle = self.lane_middle(self.row_of[place])
        return Box(self.left[place], middle - PILL_HEIGHT / 2, self.right[place], middle + PILL_HEIGHT / 2)


def _axis(layout: _Layout) -> Iterator[str]:
    """The numbers of the events, and dots where some are left out."""
    yield f'<text class="axis" x="16" y="{TOP - 16}">event</text>'
    before = 0
    for place in layout.places:
        if place != before + 1:
            yield f'<text class="axis gap" x="{layout.left[place] - APART / 2:.1f}" y="{TOP - 16}">⋯</text>'
        yield f'<text class="axis place" x="{layout.middle(place):.1f}" y="{TOP - 16}">{place}</text>'
        before = place


def _lane(layout: _Layout, row: int, lane: Lane) -> Iterator[str]:
    """A lane: its band, its bar from start to end, the tick of the start, and the events."""
    start = layout.after(lane.start)
    is_open = lane.fate is Fate.OPEN
    end = layout.width - 14 if is_open else max([start, *(layout.middle(mark.place) for mark in lane.marks)])
    yield (
        f'<g class="lane {lane.fate.value}" id="lane-{lane.transaction}" data-transaction="{lane.transaction}" role="group"'
        f' aria-label="{escape(_in_words(lane))}" transform="translate(0 {layout.lane_middle(row):.0f})">'
    )
    yield f'<rect class="band" x="6" y="{4 - LANE_HEIGHT / 2:.0f}" width="{layout.width - 12:.0f}" height="{LANE_HEIGHT - 8}" rx="8"/>'
    yield f'<path class="bar" d="M{start:.1f} 0H{end:.1f}"/>'
    yield f'<path class="start" d="M{start:.1f} -15V15"><title>{escape(_start_in_words(lane))}</title></path>'
    for mark in lane.marks:
        yield _pill(layout, mark)
    yield "</g>"


def _pill(layout: _Layout, mark: Mark) -> str:
    left, width = layout.left[mark.place], layout.right[mark.place] - layout.left[mark.place]
    named = " is-named" if mark.is_named else ""
    return (
        f'<g class="mark {mark.kind.value}{named}" data-place="{mark.place}"><title>{escape(mark.words)}</title>'
        f'<rect x="{left:.1f}" y="{-PILL_HEIGHT / 2:.0f}" width="{width:.1f}" height="{PILL_HEIGHT}" rx="7"/>'
        f'{"".join(_label(mark, left + width / 2))}</g>'
    )


def _label(mark: Mark, middle: float) -> Iterator[str]:
    """The lines of a label, in the middle of its event."""
    for number, line in enumerate(mark.label):
        y = 4.5 + LINE_HEIGHT * (number - (len(mark.label) - 1) / 2)
        yield f'<text x="{middle:.1f}" y="{y:.1f}">{escape(_cut(line, LONGEST_LABEL))}</text>'


def _label_width(mark: Mark) -> float:
    return max(_width(_cut(line, LONGEST_LABEL)) for line in mark.label)


def _name(layout: _Layout, row: int, lane: Lane) -> str:
    """What a lane is called. These stand above all else, so that a page can keep them in view."""
    return (
        f'<g class="name" data-transaction="{lane.transaction}" transform="translate(0 {layout.lane_middle(row):.0f})">'
        f'<g class="stays"><rect class="plate" x="6" y="{4 - LANE_HEIGHT / 2:.0f}" width="{layout.names_width:.0f}"'
        f' height="{LANE_HEIGHT - 8}" rx="8"/>'
        f'<text class="who" x="18" y="-3">{escape(_cut(lane.name, LONGEST_NAME))}<title>{escape(lane.name)}</title></text>'
        f'<text class="fate" x="18" y="14">{_fate(lane)}</text></g></g>'
    )


def _fate(lane: Lane) -> str:
    """How a transaction ended, and how many of its events are left out."""
    return f"{lane.fate.value}, {lane.hidden_events:,} not drawn" if lane.hidden_events else lane.fate.value


def _links(layout: _Layout) -> Iterator[str]:
    """The arrows, with labels that cover neither an event nor one another."""
    taken = [layout.pill(place) for place in layout.places]
    for arrow in layout.scene.arrows:
        curve = _Curve.between(layout.pill(arrow.source_place), layout.pill(arrow.target_place))
        x, y, box = _label_place(curve, _width(_cut(arrow.label, LONGEST_LABEL)), taken)
        taken.append(box)
        look = arrow.look.value
        yield (
            f'<g class="link {look}"><title>{escape(arrow.words)}</title><path d="{curve.path()}" marker-end="url(#head-{look})"/>'
            f'<text x="{x:.1f}" y="{y + 4:.1f}">{escape(_cut(arrow.label, LONGEST_LABEL))}</text></g>'
        )


def _label_place(curve: _Curve, width: float, taken: list[Box]) -> tuple[float, float, Box]:
    """The first point of the curve where a label of this width is free, or else the middle."""
    boxes = []
    for t in SAMPLES:
        x, y = curve.point(t)
        boxes.append((x, y, Box(x - width / 2 - 3, y - 9, x + width / 2 + 3, y + 9)))
    return next((each for each in boxes if not any(each[2].meets(other) for other in taken)), boxes[0])


@dataclass(frozen=True, slots=True)
class _Curve:
    """A cubic Bézier curve that leaves one lane and comes to another, both straight up or down."""

    x1: float
    y1: float
    x2: float
    y2: float

    @classmethod
    def between(cls, source: Box, target: Box) -> _Curve:
        x1, x2 = (source.left + source.right) / 2, (target.left + target.right) / 2
        if source.bottom <= target.top:
            return cls(x1, source.bottom + 1, x2, target.top - 2)
        return cls(x1, source.top - 1, x2, target.bottom + 2)

    @property
    def _bend(self) -> float:
        return (self.y2 - self.y1) * 0.55

    def path(self) -> str:
        first, last = f"{self.x1:.1f} {self.y1:.1f}", f"{self.x2:.1f} {self.y2:.1f}"
        return f"M{first}C{self.x1:.1f} {self.y1 + self._bend:.1f} {self.x2:.1f} {self.y2 - self._bend:.1f} {last}"

    def point(self, t: float) -> tuple[float, float]:
        """The point at t, from 0, the start, to 1, the end."""
        a, b, c, d = (1 - t) ** 3, 3 * t * (1 - t) ** 2, 3 * t * t * (1 - t), t**3
        x = (a + b) * self.x1 + (c + d) * self.x2
        return x, a * self.y1 + b * (self.y1 + self._bend) + c * (self.y2 - self._bend) + d * self.y2


def _signs(scene: Scene) -> list[tuple[str, str]]:
    """The signs that the row below the lanes explains, each with its words."""
    return [START, *((look.value, ARROWS[look]) for look in _looks(scene))]


def _key(layout: _Layout) -> str:
    """What the signs mean, in one row below the lanes."""
    at, parts = KEY_LEFT, []
    for look, words in _signs(layout.scene):
        if look == START[0]:
            parts.append(f'<path class="sample start" d="M{at + 3:.1f} -10V10M{at + 3:.1f} 0H{at + SAMPLE_WIDTH:.1f}"/>')
        else:
            parts.append(
                f'<g class="link {look}"><path d="M{at:.1f} 0H{at + SAMPLE_WIDTH:.1f}" marker-end="url(#head-{look})"/></g>'
            )
        parts.append(f'<text class="axis" x="{at + SAMPLE_WIDTH + 8:.1f}" y="4">{escape(words)}</text>')
        at += SAMPLE_WIDTH + _key_words_width(words)
    return f'<g class="key" transform="translate(0 {layout.height - BOTTOM / 2:.0f})">{"".join(parts)}</g>'


def _key_words_width(words: str) -> float:
    """How wide the words of a sign are, with the gaps around them."""
    return len(words) * SMALL_CHARACTER + 26


def _key_width(scene: Scene) -> float:
    return KEY_LEFT + sum(SAMPLE_WIDTH + _key_words_width(words) for _, words in _signs(scene))


def _in_words(lane: Lane) -> str:
    """A lane for who can't see it."""
    events = "; ".join(mark.words for mark in lane.marks)
    return f"Transaction {lane.name}, {lane.fate.value}. {_start_in_words(lane)}. {events}."


def _start_in_words(lane: Lane) -> str:
    words = f"It started after event {lane.start}" if lane.start else "It started before all events"
    return f"{words}; {lane.beside}" if lane.beside else words


def _cut(text: str, most: int) -> str:
    """The text, or its beginning and dots where it is too long."""
    return text if len(text) <= most else text[: most - 1] + "…"


def _width(text: str) -> float:
    """About how wide a text is drawn."""
    return CHARACTER * sum(2 if unicodedata.east_asian_width(character) in "WF" else 1 for character in text)
