"""The order of commits that MariaDB's binary log tells, and where the marks of a snapshot cut it."""

from __future__ import annotations

import random
import unittest

from si_history.record.cuts import Place, timeline
from si_history.record.model import NOBODY, Moment, Point, StoreFault


def start(number: int) -> Point:
    return Point(Moment.START, number)


def commit(number: int) -> Point:
    return Point(Moment.COMMIT, number)


def place(number: int) -> Place:
    return Place("0-1", number)


class Places(unittest.TestCase):
    def test_a_gtid_is_read(self) -> None:
        self.assertEqual(Place.parse("0-1-345"), Place("0-1", 345))

    def test_what_is_no_gtid_is_refused(self) -> None:
        for text in ("", "0-1", "0-1-2,1-1-7"):
            with self.subTest(text), self.assertRaises(StoreFault):
                Place.parse(text)


class Orders(unittest.TestCase):
    def test_a_snapshot_stands_behind_the_commits_that_its_marks_show(self) -> None:
        # Sessions 1 and 2. T2 of session 2 is in the log before T1 of session 1. T3 sees T2 alone.
        places = {1: place(11), 2: place(10), 3: place(12)}
        marks = {1: {1: NOBODY, 2: NOBODY}, 2: {1: NOBODY, 2: NOBODY}, 3: {1: NOBODY, 2: 2}}
        self.assertEqual(timeline(places, {1: 1, 2: 2, 3: 2}, marks),
                         [start(1), start(2), commit(2), start(3), commit(1), commit(3)])

    def test_a_transaction_without_a_commit_has_a_start_alone(self) -> None:
        self.assertEqual(timeline({1: place(5)}, {1: 1, 2: 1}, {1: {}, 2: {1: 1}}), [start(1), commit(1), start(2)])

    def test_a_snapshot_that_leaves_out_an_earlier_commit_is_refused(self) -> None:
        marks = {1: {1: NOBODY, 2: NOBODY}, 2: {1: NOBODY, 2: NOBODY}, 3: {1: 1, 2: NOBODY}}
        with self.assertRaisesRegex(StoreFault, "T3 that sees a commit of the binary log and not all before it"):
            timeline({1: place(11), 2: place(10)}, {1: 1, 2: 2, 3: 1}, marks)

    def test_a_mark_of_no_commit_is_refused(self) -> None:
        with self.assertRaisesRegex(StoreFault, "shows T2, which did not commit"):
            timeline({1: place(10)}, {1: 1, 2: 2, 3: 1}, {1: {}, 2: {}, 3: {1: 1, 2: 2}})

    def test_a_mark_in_the_row_of_another_session_is_refused(self) -> None:
        with self.assertRaisesRegex(StoreFault, "did not commit in session 2"):
            timeline({1: place(10)}, {1: 1, 2: 2}, {1: {}, 2: {2: 1}})

    def test_a_snapshot_of_its_own_commit_is_refused(self) -> None:
        with self.assertRaisesRegex(StoreFault, "its own transaction, T1"):
            timeline({1: place(10)}, {1: 1}, {1: {1: 1}})

    def test_two_transactions_at_one_place_are_refused(self) -> None:
        with self.assertRaisesRegex(StoreFault, "one GTID of two transactions"):
            timeline({1: place(10), 2: place(10)}, {1: 1, 2: 2}, {1: {}, 2: {}})

    def test_places_of_two_streams_are_refused(self) -> None:
        with self.assertRaisesRegex(StoreFault, "several domains or servers"):
            timeline({1: place(10), 2: Place("1-1", 3)}, {1: 1, 2: 2}, {1: {}, 2: {}})

    def test_every_snapshot_of_a_random_store_stands_behind_what_it_saw(self) -> None:
        for seed in range(200):
            with self.subTest(seed):
                self.check_random_store(random.Random(seed))

    def check_random_store(self, dice: random.Random) -> None:
        """Runs a store of four sessions, of which each has a row of marks."""
        shown = dict.fromkeys(range(4), NOBODY)
        running: dict[int, int] = {}
        marks: dict[int, dict[int, int]] = {}
        sessions: dict[int, int] = {}
        places: dict[int, Place] = {}
        wanted: list[Point] = []
        for number in range(1, 60):
            session = dice.randrange(4)
            if session in running:
                ended = running.pop(session)
                if dice.random() < 0.8:
                    places[ended], shown[session] = place(number), ended
                    wanted.append(commit(ended))
            else:
                running[session], sessions[number], marks[number] = number, session, dict(shown)
                wanted.append(start(number))
        self.assertEqual(timeline(places, sessions, marks), wanted)


if __name__ == "__main__":
    unittest.main()
