"""The order of commits that PostgreSQL's snapshots tell."""

from __future__ import annotations

import random
import unittest

from si_history.record.model import Moment, Point, StoreFault
from si_history.record.snapshots import Gap, Snapshot, gaps, timeline


def start(number: int) -> Point:
    return Point(Moment.START, number)


def commit(number: int) -> Point:
    return Point(Moment.COMMIT, number)


class SnapshotTexts(unittest.TestCase):
    def test_a_snapshot_is_read(self) -> None:
        self.assertEqual(Snapshot.parse("10:12:10,11"), Snapshot(12, frozenset({10, 11})))
        self.assertEqual(Snapshot.parse("10:10:"), Snapshot(10, frozenset()))

    def test_what_is_no_snapshot_is_refused(self) -> None:
        for text in ("", "10:12", "10:12:x", "10:12:10,", "10:12:12"):
            with self.subTest(text), self.assertRaises(StoreFault):
                Snapshot.parse(text)


class Orders(unittest.TestCase):
    def test_a_greater_id_may_commit_first(self) -> None:
        # T1 has id 10 and T2 id 11. T3's snapshot sees 11 and not 10, T4's sees both: 11 committed first.
        snapshots = {1: Snapshot.parse("10:10:"), 2: Snapshot.parse("10:10:"), 3: Snapshot.parse("10:12:10"),
                     4: Snapshot.parse("13:13:")}
        found = gaps(snapshots, {1: 10, 2: 11, 3: 12, 4: 13})
        self.assertEqual(found, [Gap([], [1, 2]), Gap([2], [3]), Gap([1, 3], [4]), Gap([4], [])])

    def test_ids_that_are_not_recorded_make_no_difference(self) -> None:
        snapshots = {1: Snapshot.parse("5:9:5,7"), 2: Snapshot.parse("5:30:5,20")}
        self.assertEqual(gaps(snapshots, {1: 9}), [Gap([], [1]), Gap([1], [2]), Gap([], [])])

    def test_a_run_without_commits_has_an_order(self) -> None:
        self.assertEqual(gaps({1: Snapshot.parse("5:5:")}, {}), [Gap([], [1]), Gap([], [])])

    def test_snapshots_of_which_neither_sees_all_of_the_other_are_refused(self) -> None:
        snapshots = {1: Snapshot.parse("5:5:"), 2: Snapshot.parse("5:5:"), 3: Snapshot.parse("10:12:10"),
                     4: Snapshot.parse("10:12:11")}
        with self.assertRaisesRegex(StoreFault, "in no order"):
            gaps(snapshots, {1: 10, 2: 11})

    def test_a_snapshot_that_sees_more_though_its_end_is_less_is_refused(self) -> None:
        # T3 sees id 12 and neither 10 nor 11; T4 sees 10 and 11 and not 12.
        snapshots = {1: Snapshot(5, frozenset()), 3: Snapshot(13, frozenset({10, 11})), 4: Snapshot(12, frozenset())}
        with self.assertRaisesRegex(StoreFault, "in no order"):
            gaps(snapshots, {5: 10, 6: 11, 7: 12})

    def test_a_snapshot_of_its_own_commit_is_refused(self) -> None:
        with self.assertRaisesRegex(StoreFault, "its own transaction, T1"):
            gaps({1: Snapshot.parse("11:11:")}, {1: 10})

    def test_every_snapshot_of_a_random_store_sees_what_stands_before_it(self) -> None:
        for seed in range(200):
            with self.subTest(seed):
                self.check_random_store(random.Random(seed))

    def check_random_store(self, dice: random.Random) -> None:
        """Runs a store that takes snapshots as PostgreSQL does: what is running, and one more than the last that ended."""
        next_id, last_ended, running = 100, 99, set[int]()
        numbers: dict[int, int] = {}
        snapshots: dict[int, Snapshot] = {}
        seen: dict[int, set[int]] = {}
        ids: dict[int, int] = {}
        over: list[int] = []
        for _ in range(60):
            if running and dice.random() < 0.5:
                ended = dice.choice(sorted(running))
                running.remove(ended)
                last_ended = max(last_ended, ended)
                if dice.random() < 0.8:
                    ids[numbers[ended]] = ended
                    over.append(numbers[ended])
            else:
                number = len(snapshots) + 1
                end = last_ended + 1
                snapshots[number] = Snapshot(end, frozenset(one for one in running if one < end))
                seen[number] = set(over)
                numbers[next_id] = number
                running.add(next_id)
                next_id += 1
        before: set[int] = set()
        points = timeline(gaps(snapshots, ids), dict.fromkeys(ids, 0), {})
        for moment, number in points:
            if moment is Moment.COMMIT:
                before.add(number)
            else:
                self.assertEqual(before, seen[number])
        self.assertEqual(before, set(over))
        self.assertEqual(len(points), len(snapshots) + len(over))


class Ties(unittest.TestCase):
    def test_commits_that_no_snapshot_parts_go_by_their_times(self) -> None:
        self.assertEqual(timeline([Gap([1, 2], [3])], {1: 2000, 2: 1000}, {1: {7}, 2: {7}}), [commit(2), commit(1), start(3)])

    def test_without_times_they_go_by_their_numbers(self) -> None:
        self.assertEqual(timeline([Gap([2, 1], [3])], {}, {1: {7}, 2: {8}}), [commit(1), commit(2), start(3)])

    def test_without_times_two_writers_of_one_key_are_refused(self) -> None:
        with self.assertRaisesRegex(StoreFault, "T1 and T2 both wrote key 7.*track_commit_timestamp"):
            timeline([Gap([1, 2], [3])], {1: 5}, {1: {6, 7}, 2: {7}})


if __name__ == "__main__":
    unittest.main()
