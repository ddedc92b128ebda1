"""Whether snapshot isolation allows a cycle, by the theorem of Fekete et al. 2005.

A history that snapshot isolation allows has a cycle only where two rw edges between overlapping transactions follow one another
in it. The edges are the report's, and who overlaps is the history's.
"""

from __future__ import annotations

from collections.abc import Sequence

from si_history.facts import Facts
from si_history.report import Edge, EdgeKind


def allowing_steps(steps: Sequence[Edge], facts: Facts) -> tuple[Edge, Edge] | None:
    """The first two steps of a cycle that let snapshot isolation allow it, if there are any. Its first step follows its last."""
    are_loose = [step.kind is EdgeKind.RW and facts.overlap(step.source, step.target) for step in steps]
    for at, step in enumerate(steps):
        after = (at + 1) % len(steps)
        if are_loose[at] and are_loose[after]:
            return step, steps[after]
    return None
