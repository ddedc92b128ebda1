"""The logs that a recorded run is written as."""

from __future__ import annotations

import json
import unittest

from si_history import from_events, from_transactions
from si_history.record.log import events_log, transactions_log
from si_history.record.model import NOBODY, Moment, Point, RangeDone, ReadDone, Recorded, WriteDone
from tests.support import converted, history_line

# T1 and T2 begin; T1 writes key 5 and commits, and its commit is noted late: only after T3, which sees it, has begun to read.
# T2 saw nothing of it and aborts.
RECORDS = [
    Recorded(1, 1, [WriteDone(3, 5)], ended=4, is_committed=True),
    Recorded(2, 2, [ReadDone(6, 5, NOBODY), WriteDone(7, 5)], ended=9),
    Recorded(3, 5, [RangeDone(8, 4, 6, ((5, 1),))], ended=10, is_committed=True),
]
TIMELINE = [Point(Moment.START, 1), Point(Moment.START, 2), Point(Moment.COMMIT, 1), Point(Moment.START, 3),
            Point(Moment.COMMIT, 3)]


def lines(log: str) -> list[object]:
    return [json.loads(line) for line in log.splitlines()]


class Logs(unittest.TestCase):
    def test_the_log_of_transactions(self) -> None:
        self.assertEqual(lines(transactions_log(RECORDS, TIMELINE)), [
            {"txn": "T1", "start": 1, "commit": 3, "aborted": False, "ops": [["w", 5]]},
            {"txn": "T2", "start": 2, "commit": None, "aborted": True, "ops": [["r", 5, None], ["w", 5]]},
            {"txn": "T3", "start": 4, "commit": 5, "aborted": False, "ops": [["range", 4, 6, [[5, "T1"]]]]},
        ])

    def test_the_log_of_events(self) -> None:
        self.assertEqual(lines(events_log(RECORDS, TIMELINE)), [
            {"txn": "T1", "op": "begin", "start": 0},
            {"txn": "T2", "op": "begin", "start": 0},
            {"txn": "T1", "op": "write", "key": 5},
            {"txn": "T1", "op": "commit"},
            {"txn": "T3", "op": "begin", "start": 1},
            {"txn": "T2", "op": "read", "key": 5, "saw": None},
            {"txn": "T2", "op": "write", "key": 5},
            {"txn": "T3", "op": "range", "from": 4, "to": 6, "found": [[5, "T1"]]},
            {"txn": "T2", "op": "abort"},
            {"txn": "T3", "op": "commit"},
        ])

    def test_the_history_of_the_log_of_events(self) -> None:
        self.assertEqual(history_line(converted(from_events.convert, lines(events_log(RECORDS, TIMELINE)))),
                         "b1@0 b2@0 w1[5] c1 b3@4 r2[5:0] w2[5] r3[4..6;5:1] a2 c3")

    def test_commits_stand_in_the_order_of_the_store(self) -> None:
        # T2 asked for its commit first, and T1's was the first that others saw.
        records = [Recorded(1, 1, [], ended=4, is_committed=True), Recorded(2, 2, [], ended=3, is_committed=True)]
        timeline = [Point(Moment.START, 1), Point(Moment.START, 2), Point(Moment.COMMIT, 1), Point(Moment.COMMIT, 2)]
        self.assertEqual([(line["op"], line["txn"]) for line in lines(events_log(records, timeline))],
                         [("begin", "T1"), ("begin", "T2"), ("commit", "T1"), ("commit", "T2")])

    def test_both_logs_have_the_same_findings(self) -> None:
        events = history_line(converted(from_events.convert, lines(events_log(RECORDS, TIMELINE)))).split()
        times = history_line(converted(from_transactions.convert, lines(transactions_log(RECORDS, TIMELINE)))).split()
        self.assertEqual([one for one in events if one[0] in "rwa"], ["w1[5]", "r2[5:0]", "w2[5]", "r3[4..6;5:1]", "a2"])
        self.assertEqual(sorted(one for one in times if one[0] in "rwac"), sorted(one for one in events if one[0] in "rwac"))


if __name__ == "__main__":
    unittest.main()
