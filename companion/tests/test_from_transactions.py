"""Logs of transactions with timestamps: how they are put into order, and what is refused."""

import unittest

from si_history.errors import BadInput
from si_history.from_transactions import convert
from tests.support import converted, history_line


def txn(name: object, start: object, commit: object, *ops: object, aborted: object = False) -> dict[str, object]:
    """One line of a log."""
    return {"txn": name, "start": start, "commit": commit, "aborted": aborted, "ops": list(ops)}


def history(*lines: object) -> str:
    """The history of a log, on one line."""
    return history_line(converted(convert, list(lines)))


class HistoryTest(unittest.TestCase):
    def test_each_kind_of_operation(self) -> None:
        self.assertEqual(
            history(
                txn("A", 1, 2, ["w", "b"]),
                txn("B", 3, 4, ["r", "b", "A"], ["range", "a", "c", [["b", "A"]]], ["r", "c", None]),
            ),
            "b1@0 w1[1] c1 b2@3 r2[1:1] r2[0..2;1:1] r2[2:0] c2",
        )

    def test_an_empty_log_has_no_event(self) -> None:
        self.assertEqual(history(), "")

    def test_ends(self) -> None:
        self.assertEqual(
            history(txn("A", 1, None), txn("B", 2, None, aborted=True), txn("C", 3, 4)), "b1@0 b2@0 a2 b3@0 c3"
        )

    def test_lines_in_any_order_and_any_whole_timestamps(self) -> None:
        self.assertEqual(
            history(txn("B", 10**30, 10**31, ["r", 5, "A"]), txn("A", -7, 0, ["w", 5])),
            "b2@0 w2[5] c2 b1@3 r1[5:2] c1",
        )

    def test_commits_go_by_their_timestamps(self) -> None:
        # C's snapshot has both commits. D's has that of B alone, and E's none.
        self.assertEqual(
            history(txn("A", 1, 9, ["w", 1]), txn("B", 1, 5, ["w", 2]), txn("C", 9, 20), txn("D", 8, 21), txn("E", 4, 22)),
            "b1@0 w1[1] b2@0 w2[2] b5@0 c2 b4@6 c1 b3@8 c3 c4 c5",
        )

    def test_a_snapshot_has_the_commit_of_its_own_timestamp(self) -> None:
        self.assertEqual(history(txn("A", 1, 5, ["w", 1]), txn("B", 5, 6, ["r", 1, "A"])), "b1@0 w1[1] c1 b2@3 r2[1:1] c2")
        self.assertEqual(history(txn("A", 1, 5, ["w", 1]), txn("B", 4, 6, ["r", 1, None])), "b1@0 w1[1] b2@0 r2[1:0] c1 c2")

    def test_readers_commit_after_a_writer_of_the_same_timestamp(self) -> None:
        # R and Q commit at their start, and see A; of the two, R's line is first.
        self.assertEqual(
            history(txn("R", 5, 5, ["r", 1, "A"]), txn("A", 1, 5, ["w", 1]), txn("Q", 5, 5, ["r", 1, "A"])),
            "b2@0 w2[1] c2 b1@3 r1[1:2] c1 b3@6 r3[1:2] c3",
        )

    def test_writers_of_one_timestamp_that_have_nothing_to_do_with_each_other(self) -> None:
        # Each reads and covers its own keys alone, so it makes no difference that the first line counts as the first commit.
        self.assertEqual(
            history(
                txn("A", 1, 5, ["w", 1], ["w", 3], ["range", 3, 4, [[3, "A"]]]), txn("B", 1, 5, ["r", 2, None], ["w", 2]),
                txn("C", 5, 6, ["r", 1, "A"], ["r", 2, "B"]),
            ),
            "b1@0 w1[1] w1[3] r1[3..4;3:1] b2@0 r2[2:0] w2[2] c1 c2 b3@9 r3[1:1] r3[2:2] c3",
        )

    def test_a_version_of_a_later_writer_is_written_first(self) -> None:
        # B saw what A wrote, before A committed and before A started by the timestamps.
        self.assertEqual(
            history(txn("A", 4, 8, ["w", 1]), txn("B", 2, 6, ["r", 2, None], ["r", 1, "A"])),
            "b2@0 r2[2:0] b1@0 w1[1] r2[1:1] c2 c1",
        )

    def test_a_version_of_a_writer_that_never_committed(self) -> None:
        self.assertEqual(
            history(
                txn("B", 2, 6, ["r", 1, "A"], ["r", 2, "O"]),
                txn("A", 4, None, ["w", 1], aborted=True),
                txn("O", 5, None, ["w", 2]),
            ),
            "b1@0 b2@0 w2[1] r1[1:2] a2 b3@0 w3[2] r1[2:3] c1",
        )

    def test_two_that_saw_each_other(self) -> None:
        # Each wrote before it read, so both writes can be put first.
        self.assertEqual(
            history(txn("A", 1, 8, ["w", 1], ["r", 2, "B"]), txn("B", 2, 9, ["w", 2], ["r", 1, "A"])),
            "b1@0 w1[1] b2@0 w2[2] r1[2:2] r2[1:1] c1 c2",
        )

    def test_a_chain_of_waiting_reads(self) -> None:
        # A waits for B's write, which stands behind B's read, which waits for C's write.
        self.assertEqual(
            history(
                txn("A", 1, 10, ["r", 2, "B"]), txn("B", 2, 11, ["r", 3, "C"], ["w", 2]), txn("C", 3, 12, ["w", 3]),
            ),
            "b1@0 b2@0 b3@0 w3[3] r2[3:3] w2[2] r1[2:2] c1 c2 c3",
        )

    def test_the_legend(self) -> None:
        legend = converted(convert, [txn("B", 5, 6, ["r", "k", "A"]), txn("A", 1, 2, ["w", "k"])]).legend
        self.assertEqual((legend.transactions, legend.keys), ({1: "B", 2: "A"}, {0: "k"}))
        self.assertEqual(legend.events, [2, 2, 2, 1, 1, 1])


class RefusalTest(unittest.TestCase):
    def refused(self, said: str, *lines: object) -> None:
        """The log is refused with exactly these words, which tell the line."""
        with self.assertRaises(BadInput) as caught:
            converted(convert, list(lines))
        self.assertEqual(str(caught.exception), said)

    def test_fields(self) -> None:
        good = txn("A", 1, 2)
        for field in ("txn", "start", "commit", "ops"):
            left_out = {name: value for name, value in good.items() if name != field}
            self.refused(f'line 1: the field "{field}" is missing', left_out)
        self.refused('line 1: the field "aborted" is missing', {"txn": "A", "start": 1, "commit": None, "ops": []})
        self.refused('line 1: "start" is no whole number', txn("A", 1.5, 2))
        self.refused('line 1: "start" is no whole number', txn("A", None, 2))
        for commit in ("2", 2.5, True, "Unknown"):
            self.refused('line 1: "commit" is no whole number, and neither null nor "unknown"', txn("A", 1, commit))
        self.refused('line 1: "aborted" is neither true nor false', txn("A", 1, None, aborted=0))
        self.refused('line 1: "aborted" is neither true nor false', txn("A", 1, None, aborted=None))
        self.refused('line 1: "ops" is no list', good | {"ops": {}})
        self.refused('line 1: "txn" is no name: a string that isn\'t empty, or a whole number', txn(None, 1, 2))
        self.refused("line 2: no JSON object", good, b"7")

    def test_operations(self) -> None:
        said = 'line 1: operation 2 is none of ["r", key, writer], ["w", key] or ["range", from, to, [[key, writer], ..]]'
        for item in ("r", {}, [], [{}], ["r", 1], ["range", 1, 2], ["x", 1], ["R", 1, None], ["r", 1, None, 2]):
            self.refused(said, txn("A", 1, 2, ["w", 1], item))
        hint = '; values in place of writers need "values": "unique" in a header, or --values unique'
        self.refused(said + hint, txn("A", 1, 2, ["w", 1], ["w", 1, 5]))
        self.refused(
            "line 1: the key of operation 1 is no key: a string, a number, true, false, null, or a list of these",
            txn("A", 1, 2, ["w", [[1]]]),
        )
        self.refused(
            "line 1: the writer of operation 1 is no name: a string that isn't empty, or a whole number",
            txn("A", 1, 2, ["r", 1, 0.5]),
        )
        self.refused("line 1: what operation 1 found is no list of pairs [key, writer]", txn("A", 1, 2, ["range", 1, 2, [3]]))
        self.refused("line 1: the range is empty: 2 comes after 1", txn("A", 1, 2, ["range", 2, 1, []]))
        self.refused("line 1: the key 3 was found outside the range", txn("A", 1, 2, ["range", 1, 2, [[3, None]]]))

    def test_one_transaction_twice(self) -> None:
        self.refused('line 3: the transaction "7" is that of line 1', txn("7", 1, 2), txn("A", 1, 2), txn(7, 3, 4))

    def test_timestamps_that_no_transaction_has(self) -> None:
        self.refused('line 1: it has "commit" and is "aborted"', txn("A", 1, 2, aborted=True))
        self.refused("line 1: it committed at 4, before its start at 5", txn("A", 5, 4))
        self.refused(
            "line 1: it wrote and committed at 5, which is its start: its own commit can't be in its snapshot",
            txn("A", 5, 5, ["w", 1]),
        )

    def test_two_writers_of_one_commit_timestamp(self) -> None:
        both = 'line 3: "C" and "A" (line 1) both wrote and both committed at 5: nothing tells which was first, and '
        first, reader = txn("A", 1, 5, ["w", "k"]), txn("B", 1, 5)
        self.refused(both + 'both wrote "k"', first, reader, txn("C", 2, 5, ["w", "j"], ["w", "k"]))
        read = both + '"C" read "k", which the other one wrote'
        self.refused(read, first, reader, txn("C", 2, 5, ["w", "j"], ["r", "k", None]))
        self.refused(read, first, reader, txn("C", 2, 5, ["w", "j"], ["range", "j", "l", []]))

    def test_versions_from_nowhere(self) -> None:
        self.refused(
            'line 2: "B" saw a version of "k" from nowhere: "A" never wrote that key',
            txn("A", 1, 2, ["w", "j"]), txn("B", 3, 4, ["r", "k", "A"]),
        )
        self.refused(
            'line 1: "B" saw a version of "k" from nowhere: "X" never wrote that key',
            txn("B", 3, 4, ["range", "a", "z", [["k", "X"]]]),
        )
        self.refused('line 1: "A" saw its own version of 5 before it wrote that key', txn("A", 1, 2, ["r", 5, "A"], ["w", 5]))

    def test_a_writer_that_started_after_the_reader_committed(self) -> None:
        self.refused(
            'line 1: "A" saw the version of "k" that "B" (line 2) wrote, and that write can\'t be put before the read: '
            'after this read, "A" committed at 4, "B" started at 5, and only then did "B" write it',
            txn("A", 1, 4, ["r", "k", "B"]), txn("B", 5, 6, ["w", "k"]),
        )

    def test_a_writer_that_started_after_a_later_commit(self) -> None:
        self.refused(
            'line 1: "A" saw the version of "k" that "B" (line 3) wrote, and that write can\'t be put before the read: '
            'after this read, "A" committed at 4, "B" started at 9, and only then did "B" write it',
            txn("A", 1, 4, ["r", "k", "B"]), txn("C", 2, 6), txn("B", 9, 10, ["w", "k"]), txn("D", 2, 8),
        )

    def test_two_that_saw_each_other_before_they_wrote(self) -> None:
        self.refused(
            'line 1: "A" saw the version of 2 that "B" (line 2) wrote, and that write can\'t be put before the read: '
            'after this read, "B" saw the version of 1 that "A" wrote, and only then did "B" write it',
            txn("A", 1, 8, ["r", 2, "B"], ["w", 1]), txn("B", 2, 9, ["r", 1, "A"], ["w", 2]),
        )

    def test_a_ring_of_three(self) -> None:
        self.refused(
            'line 1: "A" saw the version of 2 that "B" (line 2) wrote, and that write can\'t be put before the read: '
            'after this read, "C" saw the version of 1 that "A" wrote, "B" saw the version of 3 that "C" wrote, '
            'and only then did "B" write it',
            txn("A", 1, 10, ["r", 2, "B"], ["w", 1]),
            txn("B", 2, 11, ["r", 3, "C"], ["w", 2]),
            txn("C", 3, 12, ["r", 1, "A"], ["w", 3]),
        )

    def test_the_limit_of_events(self) -> None:
        # Each line makes a begin, four writes and a commit.
        lines = [txn(n, n, n + 1, *[["w", n]] * 4) for n in range(16_666)]
        self.assertEqual(len(converted(convert, [*lines, txn("X", 1, None, *[["w", 1]] * 3)]).events), 100_000)
        self.refused(
            "line 16667: too many events: the limit of events of a history is 100,000, which --max-events changes",
            *lines, txn("X", 1, None, *[["w", 1]] * 3, aborted=True),
        )

    def test_a_long_chain_ends(self) -> None:
        # Each transaction saw what the next one wrote, before it wrote itself. The last one only writes.
        count = 24_999
        lines = [txn(n, 1, 10 + n, ["r", n + 1, str(n + 1)], ["w", n]) for n in range(count)]
        made = converted(convert, [*lines, txn(count, 2, None, ["w", count])])
        self.assertEqual(len(made.events), 4 * count + 2)
        # Where the last one's snapshot has the first one's commit, there is no order.
        self.refused(
            'line 1: "0" saw the version of 1 that "1" (line 2) wrote, and that write can\'t be put before the read: '
            'after this read, "0" committed at 10, "24999" started at 10, '
            '"24998" saw the version of 24999 that "24999" wrote, and so on for 24,995 steps, '
            '"2" saw the version of 3 that "3" wrote, "1" saw the version of 2 that "2" wrote, '
            'and only then did "1" write it',
            *lines, txn(count, 10, None, ["w", count]),
        )


if __name__ == "__main__":
    unittest.main()
