"""What the tests of findings, pictures and pages use."""

from __future__ import annotations

from dataclasses import dataclass

from si_history.document import html, picture
from si_history.facts import Facts
from si_history.findings import Finding, Group, groups_of
from si_history.history import parse
from si_history.legend import Legend
from si_history.naming import Names
from si_history.pictures import Pictures
from si_history.report_text import ReportText, read_report
from si_history.scene import Scene
from tests.support import REPOSITORY

LOST_UPDATE_HISTORY = "r1[1:0] r2[1:0] w1[1] w2[1] c1 c2"


@dataclass(frozen=True)
class Told:
    """All that is made of a history and its report."""

    facts: Facts
    names: Names
    groups: list[Group]
    scene: Scene
    page: str
    image: str

    @property
    def findings(self) -> list[Finding]:
        return [finding for group in self.groups for finding in group.findings]

    @property
    def pictures(self) -> Pictures:
        return Pictures(self.facts, self.groups, self.names)


def told(history: str, report: ReportText, legend: Legend | None = None, most: int | None = None) -> Told:
    """What is made of a history and its report, of which `most` findings of a kind are kept."""
    names, facts, parsed = Names(legend), Facts(parse(history)), read_report(report, most)
    facts.check(parsed.counts)
    groups = groups_of(parsed, facts, names)
    scene = Pictures(facts, groups, names).scene()
    return Told(facts, names, groups, scene, html("h", parsed, facts, groups, names), picture(parsed, scene))


def example(name: str, suffix: str = ".report") -> Told:
    """What is made of one of the examples."""
    base = REPOSITORY / "examples" / name
    return told(base.with_suffix(".history").read_text(), ReportText.from_path(str(base.with_suffix(suffix))))
