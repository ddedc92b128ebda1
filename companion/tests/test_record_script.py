"""Histories that are read as scripts."""

from __future__ import annotations

import unittest

from si_history.errors import BadInput
from si_history.record.script import read_script
from si_history.record.workloads import GiveUp, Look, Put, Scan


class Scripts(unittest.TestCase):
    def test_plans_and_turns(self) -> None:
        script = read_script("b1 r1[4:0] w2[5] c2 r1[4..7;5:2]\na1")
        self.assertEqual(script.plans, {1: (Look(4), Scan(4, 7), GiveUp()), 2: (Put(5),)})
        self.assertEqual(script.turns, [1, 1, 2, 2, 2, 1, 1])
        self.assertEqual((script.keys, script.sessions), ([4, 5, 7], 2))

    def test_what_has_no_end_gives_up_at_the_end(self) -> None:
        script = read_script("w2[5] w1[5]")
        self.assertEqual(script.plans, {2: (Put(5), GiveUp()), 1: (Put(5), GiveUp())})
        self.assertEqual(script.turns, [2, 2, 1, 1, 1, 2])

    def test_sessions_are_counted_where_transactions_overlap(self) -> None:
        self.assertEqual(read_script("r1[0:0] c1 r2[0:0] c2 b3 c3").sessions, 1)
        self.assertEqual(read_script("b1 b2 b3 c1 b4 c4 c2 c3").sessions, 3)

    def test_a_named_start_may_stand_where_it_is_taken(self) -> None:
        self.assertEqual(read_script("w1[0] c1 b2@2 r2[0:1] c2").turns, [1, 1, 1, 2, 2, 2])
        self.assertEqual(read_script("b2@0 r2[0:0] w1[0] b3@0 c2").turns, [2, 2, 1, 1, 3, 2, 1, 3])

    def test_the_greatest_key_and_the_widest_range_are_taken(self) -> None:
        script = read_script(f"w1[{2**63 - 1}] r1[1..10000] c1")
        self.assertEqual(script.plans, {1: (Put(2**63 - 1), Scan(1, 10000))})

    def test_what_no_store_can_be_asked_for_is_refused(self) -> None:
        for text, wanted in (
            ("", "empty"),
            (" \n", "empty"),
            ("w1[0", "token 1: bad event"),
            ("c1 w1[0]", "event 2, w1[0], stands behind the end"),
            ("w1[0] b1 c1", "event 2, b1, is no first event"),
            ("w1[0] c1 b2@1 r2[0:0] c2", "event 3, b2@1, names a start before the commit at 2"),
            ("b2@1 c2", "event 1, b2@1, names a start"),
            (f"w1[{2**63}] c1", "event 1, w1[9223372036854775808], has a key that is greater"),
            ("r1[3..2] c1", "is of no range of from 1 to 10,000 keys"),
            ("r1[0..10000] c1", "is of no range of from 1 to 10,000 keys"),
        ):
            with self.subTest(text), self.assertRaises(BadInput) as caught:
                read_script(text)
            self.assertIn(wanted, str(caught.exception))


if __name__ == "__main__":
    unittest.main()
