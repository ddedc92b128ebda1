"""Transactions that wrote and share a commit timestamp: where they are taken, their order makes no difference to what is found."""

from __future__ import annotations

import random
import unittest

from si_history.errors import BadInput
from si_history.from_transactions import convert
from si_history.history import text_of
from tests.named_report import Words, named
from tests.random_store import Line, random_names, random_run, transactions_log
from tests.support import NO_PROGRAM, PROGRAM, audit, converted

RUNS = 600
LEAST_SEEN = 25


def findings(lines: list[Line]) -> tuple[int, list[Words]]:
    """The findings of a log, without what tells which of several commits was first."""
    made = converted(convert, list(lines))
    report = named(*audit(text_of(made.events)), made.events, made.legend.transactions.__getitem__, made.legend.keys.__getitem__)
    status, found = report.in_any_order()
    pivots = [line[:-1] if isinstance(line[-1], tuple) and line[-1][0] == "first" else line for line in found]
    return status, [line for line in pivots if line[0] != "ssi"]


def tied(lines: list[Line], r: random.Random) -> list[Line] | None:
    """The same log with one commit at the time of the next one, where no snapshot was taken between them."""
    commits = sorted(line["commit"] for line in lines if isinstance(line["commit"], int))
    starts = [line["start"] for line in lines if isinstance(line["start"], int)]
    pairs = [(one, other) for one, other in zip(commits, commits[1:]) if not any(one <= start < other for start in starts)]
    if not pairs:
        return None
    early, late = r.choice(pairs)
    return [line | {"commit": late} if line["commit"] == early else line for line in lines]


@unittest.skipUnless(PROGRAM.exists(), NO_PROGRAM)
class TiesTest(unittest.TestCase):
    def test_a_tie_that_is_taken_has_the_findings_of_either_order(self) -> None:
        r = random.Random(5)
        seen = {"taken": 0, "refused": 0}
        for number in range(RUNS):
            run = random_run(f"ties.{number}")
            lines = transactions_log(run, random_names(run))
            made = tied(lines, r)
            if made is None:
                continue
            try:
                found = findings(made)
            except BadInput as fault:
                self.assertIn("nothing tells which was first", str(fault))
                seen["refused"] += 1
                continue
            seen["taken"] += 1
            self.assertEqual(found, findings(lines), f"run {number}")
            self.assertEqual(found, findings(made[::-1]), f"run {number}, the other way round")
        self.assertGreaterEqual(min(seen.values()), LEAST_SEEN)


if __name__ == "__main__":
    unittest.main()
