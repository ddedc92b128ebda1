"""The pictures of a page: one of each finding alone, and one of the whole history; each says what it leaves out."""

from __future__ import annotations

from collections.abc import Sequence
from html import escape

from si_history import timeline
from si_history.facts import Facts
from si_history.findings import Finding, Group
from si_history.naming import Names
from si_history.overview import overview
from si_history.scene import Extent, Scene, finding_scene, is_small, whole_scene
from si_history.wording import counted

MOST_EVENTS = {Extent.ALL: 40, Extent.KEYS: 2000}
"""With more events the transactions of a finding aren't shown so: the picture would be too wide."""
FITTING_WIDTH = 860.0
"""What is wider doesn't fit beside the findings."""
DESCRIPTION = "One lane a transaction, events from left to right."


class Pictures:
    """What can be drawn of one history and its findings."""

    def __init__(self, facts: Facts, groups: Sequence[Group], names: Names) -> None:
        self._facts = facts
        self._names = names
        self._findings = [finding for group in groups for finding in group.findings]

    def of(self, finding: Finding) -> str:
        """A finding's transactions alone, as an element of a page."""
        scene = self._scene_of(finding)
        return _figure(timeline.svg(scene, finding.title, DESCRIPTION, styled=False), left_out(scene))

    def whole(self) -> str:
        """The whole history, as an element of a page: event by event where it is small, and else one bar a transaction."""
        if is_small(self._facts):
            return _figure(timeline.svg(self._whole_scene(), "The whole timeline", DESCRIPTION, styled=False), [])
        found = {number for finding in self._findings for number in finding.transactions}
        return _figure(overview(self._facts, found, self._names), [])

    def scene(self) -> Scene:
        """What a single image shows: a small history whole, and of a large one the first finding, or nothing without one."""
        if is_small(self._facts) or not self._findings:
            return self._whole_scene() if is_small(self._facts) else Scene((), (), len(self._facts.transactions))
        return self._scene_of(self._findings[0])

    def _scene_of(self, finding: Finding) -> Scene:
        """As much of a finding's transactions as fits beside the findings."""
        events = sum(len(self._facts.transaction(number).places) for number in finding.transactions)
        for extent, most in MOST_EVENTS.items():
            if events <= most:
                scene = finding_scene(self._facts, finding, self._names, extent)
                if timeline.width(scene) <= FITTING_WIDTH:
                    return scene
        return finding_scene(self._facts, finding, self._names, Extent.FINDING)

    def _whole_scene(self) -> Scene:
        return whole_scene(self._facts, self._findings[0].arrows if self._findings else (), self._names)


def _figure(drawn: str, sentences: list[str]) -> str:
    """A picture, and below it what it leaves out."""
    caption = f"<figcaption>{escape(' '.join(sentences))}</figcaption>" if sentences else ""
    return f"<figure>{drawn}{caption}</figure>"


def left_out(scene: Scene) -> list[str]:
    """What a picture does not show, in words."""
    sentences = []
    if scene.hidden_transactions:
        are = "is" if scene.hidden_transactions == 1 else "are"
        sentences.append(f"{counted(scene.hidden_transactions, 'other transaction')} {are} not drawn.")
    if scene.hidden_events:
        are = "is" if scene.hidden_events == 1 else "are"
        sentences.append(f"{counted(scene.hidden_events, 'other event')} of these transactions {are} not drawn.")
    return sentences
