"""What the transactions of a recorded run do."""

from __future__ import annotations

import random
import unittest

from si_history.record.workloads import (
    MOST_EVENTS, Bump, Flip, GiveUp, Look, Plan, Put, Rows, Scan, Step, Workload, is_reader, plan, rows_at_first)


def plans(workload: Workload, keys: int, seed: int, count: int = 300) -> list[Plan]:
    dice = random.Random(seed)
    return [plan(workload, keys, dice) for _ in range(count)]


def keys_of(step: Step) -> list[int]:
    """The keys that a step touches."""
    match step:
        case GiveUp():
            return []
        case Scan(low, high):
            return [low, high]
        case _:
            return [step.key]


def events(steps: Plan) -> int:
    """How many events a transaction is recorded with."""
    return 2 + sum(2 if isinstance(step, Bump) else 1 for step in steps if not isinstance(step, GiveUp))


class Workloads(unittest.TestCase):
    def test_a_seed_makes_the_same_plans(self) -> None:
        for workload in Workload:
            with self.subTest(workload):
                self.assertEqual(plans(workload, 16, 5), plans(workload, 16, 5))
                self.assertNotEqual(plans(workload, 16, 5), plans(workload, 16, 6))

    def test_plans_keep_to_the_keys_and_to_the_most_events(self) -> None:
        for workload in Workload:
            for keys in (2, 3, 16):
                with self.subTest(workload=workload, keys=keys):
                    for made in plans(workload, keys, 1):
                        self.assertTrue(1 <= len(made) and events(made) <= MOST_EVENTS, made)
                        self.assertTrue(all(0 <= key < keys for step in made for key in keys_of(step)), made)

    def test_counters_write_what_they_have_just_read(self) -> None:
        for made in plans(Workload.COUNTERS, 16, 2):
            for before, step in zip((None, *made), made):
                if isinstance(step, Put):
                    self.assertEqual(before, Look(step.key))

    def test_skew_reads_a_pair_and_writes_one_of_it(self) -> None:
        written = set()
        for one, two, put in plans(Workload.SKEW, 16, 3):
            self.assertEqual((one, two), (Look(one.key), Look(one.key + 1)))
            self.assertEqual(one.key % 2, 0)
            written.add(put.key - one.key)
        self.assertEqual(written, {0, 1})

    def test_ranges_insert_and_delete_within_what_they_read(self) -> None:
        flips = 0
        for scan, *rest in plans(Workload.RANGES, 16, 4):
            self.assertLess(scan.low, scan.high)
            for step in rest:
                if isinstance(step, Flip):
                    flips += 1
                    self.assertTrue(scan.low <= step.key <= scan.high)
        self.assertGreater(flips, 0)

    def test_blind_writers_read_nothing(self) -> None:
        kinds = {frozenset(type(step) for step in made) for made in plans(Workload.BLIND, 16, 5)}
        self.assertEqual(kinds, {frozenset({Put}), frozenset({Look}), frozenset({Scan})})

    def test_a_mix_has_steps_of_every_kind(self) -> None:
        kinds = {type(step) for made in plans(Workload.MIX, 16, 6) for step in made}
        self.assertEqual(kinds, {Look, Scan, Put, Flip})

    def test_the_general_workload_has_all_steps_and_readers_that_give_up(self) -> None:
        made = plans(Workload.GENERAL, 16, 7, 2000)
        self.assertEqual({type(step) for steps in made for step in steps}, {Look, Scan, Put, Flip, Bump, GiveUp})
        self.assertTrue(all(not isinstance(step, GiveUp) for steps in made for step in steps[:-1]))
        readers = [isinstance(steps[-1], GiveUp) for steps in made if is_reader(steps)]
        writers = [isinstance(steps[-1], GiveUp) for steps in made if not is_reader(steps)]
        self.assertAlmostEqual(sum(readers) / len(readers), 0.5, delta=0.08)
        self.assertAlmostEqual(sum(writers) / len(writers), 0.04, delta=0.02)

    def test_transfers_write_both_accounts_that_they_read(self) -> None:
        writers = [steps for steps in plans(Workload.TRANSFERS, 16, 8) if not is_reader(steps)]
        for one, other, *puts in writers:
            self.assertEqual([put.key for put in puts], [one.key, other.key])
        self.assertGreater(len(writers), 0)

    def test_rows_at_first_may_be_all_or_none(self) -> None:
        self.assertEqual((rows_at_first(range(3), Rows.ALL), rows_at_first(range(3), Rows.NONE)), ([0, 1, 2], []))

    def test_every_second_key_has_a_row_at_first(self) -> None:
        self.assertEqual(rows_at_first(range(5)), [0, 2, 4])


if __name__ == "__main__":
    unittest.main()
