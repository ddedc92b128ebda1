"""Transactions of unknown outcome: where they are placed, what is refused, and which findings depend on them."""

from __future__ import annotations

import random
import unittest

from si_history.errors import BadInput
from si_history.from_transactions import convert
from si_history.history import Write, text_of
from si_history.legend import Legend
from tests.random_store import Bug, Line, random_names, random_run, transactions_log
from tests.support import NO_PROGRAM, PROGRAM, audit, converted, history_line

RUNS = 400
LEAST_SEEN = 60


def txn(name: str, start: int, commit: object, *operations: object) -> Line:
    """One line of a log."""
    return {"txn": name, "start": start, "commit": commit, "aborted": False, "ops": list(operations)}


class PlaceTest(unittest.TestCase):
    def check(self, told: str, outcome: str, *lines: Line) -> None:
        """Compares the history, and what the legend says of U, which is always the first line."""
        made = converted(convert, list(lines))
        self.assertEqual((history_line(made), made.legend.outcomes), (told, {1: outcome}))

    def test_one_that_nobody_saw_is_open(self) -> None:
        self.check(
            "b1@0 w1[1] r1[1:1] b2@0 r2[1:0] c2", "unknown",
            txn("U", 1, "unknown", ["w", 1], ["r", 1, "U"]), txn("R", 5, 6, ["r", 1, None]),
        )

    def test_the_start_of_the_first_reader_that_saw_it(self) -> None:
        self.check(
            "b1@0 w1[1] b4@0 c1 c4 b2@5 r2[1:1] c2 b3@8 r3[1:1] c3", "placed",
            txn("U", 1, "unknown", ["w", 1]), txn("R", 5, 6, ["r", 1, "U"]), txn("S", 8, 9, ["r", 1, "U"]), txn("A", 2, 5),
        )

    def test_before_the_start_of_a_later_writer(self) -> None:
        # R saw U's version of 2. W wrote 1 from 4 on, and S saw that, so U had committed by then.
        self.check(
            "b1@0 w1[1] w1[2] c1 b3@4 w3[1] c3 b2@7 r2[2:1] c2 b4@10 r4[1:3] c4", "placed",
            txn("U", 1, "unknown", ["w", 1], ["w", 2]), txn("R", 8, 8, ["r", 2, "U"]), txn("W", 4, 6, ["w", 1]),
            txn("S", 9, 9, ["r", 1, "W"]),
        )

    def test_behind_a_reader_that_does_not_have_it(self) -> None:
        # Q saw the first version at 6, so U committed after that, and W, which wrote 1 from 3 on, overlaps it.
        self.check(
            "b1@0 w1[1] b4@0 w4[2] b3@0 r3[1:0] c4 c3 c1 b2@9 r2[1:1] c2", "placed",
            txn("U", 1, "unknown", ["w", 1]), txn("R", 8, 8, ["r", 1, "U"]), txn("Q", 6, 7, ["r", 1, None]),
            txn("W", 3, 7, ["w", 2]),
        )

    def test_not_within_the_time_of_a_version_that_others_saw(self) -> None:
        # Q, which started at 12, saw W's version of 1, committed at 6: U isn't between the two.
        self.check(
            "b1@0 w1[1] w1[2] b3@0 w3[1] c1 c3 b2@7 r2[2:1] b4@7 r4[1:3] c2 c4", "placed",
            txn("U", 1, "unknown", ["w", 1], ["w", 2]), txn("R", 10, 13, ["r", 2, "U"]), txn("W", 1, 6, ["w", 1]),
            txn("Q", 12, 14, ["r", 1, "W"]),
        )

    def test_a_reader_that_started_too_early_is_refused(self) -> None:
        with self.assertRaises(BadInput) as caught:
            converted(convert, [txn("R", 5, 9, ["r", "k", "U"]), txn("U", 5, "unknown", ["w", "k"])])
        self.assertEqual(
            str(caught.exception),
            'line 2: nobody knows whether "U" committed, and its commit can\'t be placed: it started at 5, and "R" (line 1), '
            'which started at 5, saw its version of "k"',
        )

    def test_a_version_that_it_never_wrote_is_refused_as_ever(self) -> None:
        with self.assertRaises(BadInput) as caught:
            converted(convert, [txn("U", 1, "unknown", ["w", "k"]), txn("R", 5, 9, ["r", "j", "U"])])
        self.assertEqual(str(caught.exception), 'line 2: "R" saw a version of "j" from nowhere: "U" never wrote that key')

    def test_what_is_undecided(self) -> None:
        legend = Legend(outcomes={2: "unknown", 3: "placed", 4: "not-in-the-log"})
        told = [legend.is_undecided(transactions) for transactions in ([1, 2], [3], [1, 4], [])]
        self.assertEqual(told, [True, True, False, False])


@unittest.skipUnless(PROGRAM.exists(), NO_PROGRAM)
class StoreTest(unittest.TestCase):
    """A store that keeps snapshot isolation, of which it isn't known whether one transaction committed."""

    def test_a_commit_is_placed_where_it_makes_no_finding(self) -> None:
        seen = {"placed": 0, "unknown": 0}
        r = random.Random(17)
        for number in range(RUNS):
            run = random_run(f"outcomes.{number}", Bug.NONE)
            lines = transactions_log(run, random_names(run))
            wrote = [t for t in run.commits if any(isinstance(one, Write) and one.transaction == t for one in run.events)]
            if not wrote:
                continue
            lines[list(run.starts).index(r.choice(wrote))]["commit"] = "unknown"
            made = converted(convert, list(lines))
            seen[next(iter(made.legend.outcomes.values()))] += 1
            report = audit(text_of(made.events))[1]
            self.assertIn("isolation kept", report, f"run {number}")
            self.assertNotIn("unexplained", report, f"run {number}")
        self.assertGreaterEqual(min(seen.values()), LEAST_SEEN)


if __name__ == "__main__":
    unittest.main()
