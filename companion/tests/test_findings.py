"""Findings in sentences: what they say, in which order, and that a report's form changes no more than the names of bad reads."""

from __future__ import annotations

import re
import unittest

from si_history.cycles import allowing_steps
from si_history.errors import BadInput
from si_history.facts import Facts
from si_history.findings import Finding, Kind, Look
from si_history.history import parse
from si_history.legend import Legend
from si_history.matching import check_report
from si_history.naming import Names
from si_history.report import Edge, EdgeKind
from si_history.report_text import ReportText, read_report
from si_history.wording import Wording
from tests.pages import LOST_UPDATE_HISTORY, Told, example, told
from tests.support import REPOSITORY
from tests.test_report import LOST_UPDATE, lines, text_of


def only(found: Told) -> Finding:
    """The one finding."""
    (finding,) = found.findings
    return finding


def step(source: int, kind: str, target: int, key: int = 1) -> Edge:
    return Edge(source, EdgeKind(kind), target, key)


class FactsTest(unittest.TestCase):
    def test_the_events_of_an_edge(self) -> None:
        # 1 wrote key 5 at 1 and committed at 2; 2 read its version at 4, after the first version of key 6 at 3, and wrote key 5 at 5.
        facts = Facts(parse("w1[5] c1 r2[6:0] r2[0..9;5:1] w2[5] w3[6] c3 c2"))
        self.assertEqual(facts.ends_of(step(1, "ww", 2, 5)), (1, 5))
        self.assertEqual(facts.ends_of(step(1, "wr", 2, 5)), (1, 4))
        self.assertEqual(facts.ends_of(step(2, "rw", 3, 6)), (3, 6))

    def test_starts(self) -> None:
        facts = Facts(parse("w1[1] c1 b2@0 r2[1:0] c2 r3[1:1]"))
        self.assertEqual([facts.transaction(number).start for number in (1, 2, 3)], [0, 0, 5])

    def test_overlaps(self) -> None:
        """Two committed transactions overlap if the start of each is less than the place of the other's commit."""
        facts = Facts(parse("b1 b2 c1 b3 c2 c3 b4@2 c4 b5"))
        self.assertEqual([facts.overlap(1, 2), facts.overlap(2, 1), facts.overlap(2, 3), facts.overlap(4, 1)], [True] * 4)
        self.assertEqual([facts.overlap(1, 3), facts.overlap(3, 1)], [False] * 2)
        with self.assertRaisesRegex(BadInput, "transaction 5 doesn't commit there"):
            facts.overlap(4, 5)


class CyclesTest(unittest.TestCase):
    """Two rw steps between overlapping transactions that follow one another let snapshot isolation allow a cycle."""

    ALL_OVERLAP = "b1 b2 b3 c1 c2 c3"

    def allowing(self, history: str, *steps: Edge) -> tuple[Edge, Edge] | None:
        return allowing_steps(steps, Facts(parse(history)))

    def test_write_skew(self) -> None:
        one, two = step(1, "rw", 2), step(2, "rw", 1)
        self.assertEqual(self.allowing(self.ALL_OVERLAP, one, two), (one, two))

    def test_the_first_step_follows_the_last(self) -> None:
        steps = step(1, "rw", 2), step(2, "ww", 3), step(3, "rw", 1)
        self.assertEqual(self.allowing(self.ALL_OVERLAP, *steps), (steps[2], steps[0]))

    def test_two_rw_steps_with_another_between_them(self) -> None:
        history = "b1 b2 b3 b4 c1 c2 c3 c4"
        self.assertIsNone(self.allowing(history, step(1, "rw", 2), step(2, "wr", 3), step(3, "rw", 4), step(4, "ww", 1)))

    def test_one_rw_step(self) -> None:
        self.assertIsNone(self.allowing(self.ALL_OVERLAP, step(1, "rw", 2), step(2, "ww", 1)))

    def test_rw_steps_between_transactions_that_do_not_overlap(self) -> None:
        """1 and 3 overlap 2 but not one another."""
        history = "b1 b2 c1 b3 c2 c3"
        one, two, three = step(1, "rw", 2), step(2, "rw", 3), step(3, "rw", 1)
        self.assertEqual(self.allowing(history, one, two, three), (one, two))
        self.assertIsNone(self.allowing(history, step(1, "ww", 2), two, three))

    def test_examples(self) -> None:
        """Snapshot isolation was kept in the first two, so that it allows their cycles; a lost update it doesn't allow."""
        for name, said in (("write_skew", "allows"), ("read_only_anomaly", "allows"), ("lost_update", "does not allow")):
            with self.subTest(name=name):
                (cycle,) = (finding for finding in example(name).findings if finding.kind is Kind.CYCLE)
                self.assertTrue(cycle.title.startswith(f"A cycle that snapshot isolation {said}: "), cycle.title)


class WordingTest(unittest.TestCase):
    def test_names_stand_alone_and_numbers_with_their_word(self) -> None:
        say = Wording(Names(Legend({1: "w7-2", 2: "17", 3: "0", 4: "a b"}, {1: "acct/02", 2: "7"}, [])))
        self.assertEqual([say.transaction(n) for n in (1, 2, 3, 4)], ["w7-2", "transaction 17", "transaction 0", '"a b"'])
        self.assertEqual([say.opening(1), say.opening(2)], ["w7-2", "Transaction 17"])
        self.assertEqual([say.key(1), say.key(2)], ["acct/02", "key 7"])
        self.assertEqual([say.version(0), say.version(1)], ["the initial version", "w7-2's version"])

    def test_long_rows(self) -> None:
        say = Wording(Names())
        self.assertEqual(say.listed(range(1, 10)), ", ".join(f"transaction {n}" for n in range(1, 9)) + " and 1 more")
        self.assertEqual(say.path((1, 2, 1)), "1 → 2 → 1")
        self.assertEqual(say.path((1, 2, 1), 1200), "1 → 2 → 1,200 more → 1")


class SentencesTest(unittest.TestCase):
    def test_a_bad_read(self) -> None:
        finding = only(example("stale_read"))
        self.assertEqual(
            finding.title, "Bad read: transaction 4 read key 1 and saw transaction 2's version, where transaction 3's version was due."
        )
        self.assertEqual(finding.reasons, (
            "The read is event 7.",
            "Transaction 4 started after event 6.",
            "Transaction 3 wrote key 1 at event 5 and committed at event 6: the last to commit a version of it by then.",
            "Transaction 2 wrote the version that was seen, at event 3, and committed at event 4.",
        ))
        self.assertEqual((finding.transactions, finding.places), ((4, 2, 3), (7, 3, 5)))
        self.assertEqual([(arrow.source_place, arrow.target_place, arrow.look) for arrow in finding.arrows], [
            (3, 7, Look.SAW), (5, 7, Look.DUE),
        ])

    def test_a_bad_read_with_names(self) -> None:
        """The name of what went wrong is the explained report's."""
        legend = Legend({2: "w7-2", 3: "w1-4", 4: "r9", 1: "load"}, {1: "acct/02"}, list(range(11, 19)))
        base = REPOSITORY / "examples" / "stale_read"
        for suffix, name in ((".report", "Bad read"), (".explained", "Stale read")):
            found = told(base.with_suffix(".history").read_text(), ReportText.from_path(str(base.with_suffix(suffix))), legend)
            self.assertEqual(only(found).title, f"{name}: r9 read acct/02 and saw w7-2's version, where w1-4's version was due.")
            self.assertEqual(only(found).reasons[:2], (
                "The read is event 7 (line 17 of the log).", "r9 started after event 6 (line 16 of the log).",
            ))

    def test_what_a_later_report_says_more(self) -> None:
        """A name that is not known here, a line more, and which snapshots fit the reader."""
        head = "events 8 committed 3 aborted 0 open 0", "isolation broken", "bad-read 7 3 1 saw 2 due 0"
        foot = "ssi fail", "serializable no", "cycle 1 >wr:1> 3 >rw:2> 1"
        below = ["  intermediate read: event 7 r3[1:2]", "  saw: event 5 w2[1], event 6 c2"]
        for snapshot, said in (
            (["snapshot 3 from 6 to 7"], ["A snapshot that was taken from after event 6 to after event 7 would fit transaction 3."]),
            (["snapshot 3 from 0 to 7"], ["A snapshot that was taken from before all events to after event 7 would fit transaction 3."]),
            (["snapshot 3 from 6 to 6", "  of 3: event 6 c2"], [
                "A snapshot that was taken after event 6 would fit transaction 3.", "of 3: event 6 c2",
            ]),
            (["snapshot 3 none", "  not without event 4 c1: event 7 r3[1:2]", "  not after event 1 r3[2:0]"], [
                "No snapshot would fit transaction 3.",
                "It would have to have the commit of transaction 1 at event 4: its read at event 7 asks for that.",
                "It would have to be taken before its read at event 1, the first thing that it did.",
            ]),
            (["snapshot 3 none", "  not without event 6 c2: event 7 r3[1:2]", "  not with event 4 c1: event 1 r3[2:0]"], [
                "No snapshot would fit transaction 3.",
                "It would have to have the commit of transaction 2 at event 6: its read at event 7 asks for that.",
                "It would have to be without the commit of transaction 1 at event 4: its read at event 1 excludes that.",
            ]),
            (["snapshot 3 none", "  in no snapshot: event 7 r3[1:2]"], [
                "No snapshot would fit transaction 3.", "No snapshot has what it saw at event 7.",
            ]),
        ):
            found = told("r3[2:0] w1[1] w1[2] c1 w2[1] c2 r3[1:2] c3", lines(*head, *below, *snapshot, *foot)).findings[0]
            self.assertTrue(found.title.startswith("Intermediate read: transaction 3 read key 1"), found.title)
            self.assertEqual(sorted(found.reasons[-len(said) - 1 :]), sorted([*said, "intermediate read: event 7 r3[1:2]"]))

    def test_which_snapshots_would_fit_the_second_writer(self) -> None:
        """A write asks for the commit; the transaction acts before that."""
        write = example("lost_update", ".explained").findings[0]
        self.assertEqual(write.more, (
            "No snapshot would fit transaction 2.",
            "It would have to have the commit of transaction 1 at event 5: its write at event 4 asks for that.",
            "It would have to be taken before its read at event 2, the first thing that it did.",
        ))
        assert write.snapshot is not None
        self.assertEqual((write.snapshot.transaction, write.snapshot.fitting), (2, None))

    def test_another_history_of_snapshots(self) -> None:
        """A reason of a snapshot names an event that is another one in the history."""
        history = (REPOSITORY / "examples" / "lost_update.history").read_text()
        text = (REPOSITORY / "examples" / "lost_update.explained").read_text()
        for one, other, said in (
            ("not without event 5 c1", "not without event 6 c1", "event 6 is c2, and in the report c1"),
            ("  not after event 2 r2[1:0]", "  not after event 3 r2[1:0]", "event 3 is w1[1], and in the report r2[1:0]"),
        ):
            self.assertIn(one, text)
            with self.subTest(other=other), self.assertRaisesRegex(BadInput, re.escape(said)):
                check_report(read_report(ReportText(text.replace(one, other).encode())), Facts(parse(history)))

    def test_a_range_read(self) -> None:
        bad = example("missed_key", ".explained").findings[0]
        self.assertEqual(bad.title, (
            "Phantom: transaction 2 read key 10 to key 20 and saw the initial version of key 15, where transaction 1's version was due."
        ))
        self.assertEqual([arrow.look for arrow in bad.arrows], [Look.DUE])

    def test_a_bad_write_comes_before_the_cycle(self) -> None:
        write, cycle, *pivots = example("lost_update").findings
        self.assertEqual(
            write.title, "Bad write: transaction 1 and transaction 2 overlap, both wrote key 1, and both committed."
        )
        self.assertEqual(write.reasons, (
            "Transaction 1 wrote it at event 3, and transaction 2 at event 4.",
            "Transaction 2 started after event 1.",
            "Transaction 1 committed at event 5, after that start, so the two overlap.",
            "Transaction 2 committed at event 6, where it had to abort: the first committer wins.",
        ))
        self.assertEqual(cycle.title, (
            "A cycle that snapshot isolation does not allow: 1 → 2 → 1. Each has to come before the next in a serial order."
        ))
        self.assertEqual(cycle.reasons[1:], (
            "Transaction 1 before transaction 2 (ww): both wrote key 1, transaction 1 at event 3 and transaction 2 at event 4,"
            " and transaction 1 committed first.",
            "Transaction 2 before transaction 1 (rw): at event 2 transaction 2 read key 1 and saw the initial version,"
            " which is older than the one that transaction 1 wrote at event 3.",
        ))
        self.assertIn("This one has no such steps.", cycle.reasons[0])
        self.assertEqual([finding.transactions for finding in pivots], [(2, 1), (1, 2)])

    def test_a_cycle_that_is_allowed(self) -> None:
        """The read-only anomaly: 1 must come before 3 by what 3 read, and 3 → 2 → 1 are rw steps of overlapping transactions."""
        cycle = example("read_only_anomaly").findings[0]
        self.assertEqual(cycle.reasons[0], (
            "Snapshot isolation allows it: 3 → 2 → 1 are two rw steps, one after the other, between transactions that overlap."
        ))
        self.assertIn(
            "Transaction 1 before transaction 3 (wr): transaction 1 wrote key 2 at event 4;"
            " at event 7 transaction 3 read key 2 and saw transaction 1's version.", cycle.reasons,
        )

    def test_a_later_version(self) -> None:
        """3 saw version 2 of key 1, which comes after 1's; and it saw key 2 before 1 wrote it."""
        history = "r3[2:0] w1[1] w1[2] c1 w2[1] c2 r3[1:2] c3"
        report = lines(
            "events 8 committed 3 aborted 0 open 0", "isolation broken", "bad-read 7 3 1 saw 2 due 0", "ssi fail",
            "serializable no", "cycle 1 >wr:1> 3 >rw:2> 1",
        )
        read, cycle = told(history, report).findings
        self.assertEqual(read.reasons[-1], "Transaction 2 wrote the version that was seen, at event 5, and committed at event 6, after that start.")
        self.assertEqual(cycle.reasons[1], (
            "Transaction 1 before transaction 3 (wr): transaction 1 wrote key 1 at event 2; at event 7 transaction 3 read key 1"
            " and saw transaction 2's version, and so one that is later than transaction 1's."
        ))

    def test_an_aborted_version(self) -> None:
        bad, unexplained = example("aborted_read").findings
        aborted = "Transaction 1 wrote the version that was seen, at event 1, and aborted at event 4."
        self.assertEqual(bad.reasons[1:], (
            "Transaction 2 started after event 1.",
            "No transaction that wrote key 1 had committed by then, so the initial version was due.", aborted,
        ))
        self.assertEqual(unexplained.reasons, ("The read is event 2.", aborted))

    def test_an_own_write(self) -> None:
        report = lines(
            "events 3 committed 1 aborted 0 open 0", "isolation broken", "bad-read 2 1 1 saw 0 due 1", "unexplained 2 1 1 0",
            "ssi fail", "serializable no", "order 1",
        )
        bad, unexplained = told("w1[1] r1[1:0] c1", report).findings
        self.assertEqual(bad.reasons[1:], ("Transaction 1 had written key 1 itself before, at event 1: its own version was due.",))
        self.assertEqual(
            unexplained.reasons[1:], ("Transaction 1 had written key 1 itself before, at event 1, and in a serial order sees that.",)
        )

    def test_a_dangerous_structure(self) -> None:
        report = lines(
            "events 7 committed 3 aborted 0 open 0", "isolation kept", "ssi fail", "dangerous 1 >rw:1> 2 >rw:2> 3",
            "serializable yes", "order 1 2 3",
        )
        finding = only(told("r1[1:0] r2[2:0] w2[1] w3[2] c3 c2 c1", report))
        self.assertEqual(finding.title, (
            "A dangerous structure: 1 → 2 → 3, two rw steps between overlapping transactions. Of them transaction 3 committed first."
        ))
        self.assertEqual((finding.transactions, finding.places), ((1, 2, 3), (1, 3, 2, 4)))
        self.assertEqual([(arrow.source_place, arrow.target_place, arrow.label) for arrow in finding.arrows], [(1, 3, "rw 1"), (2, 4, "rw 2")])

    def test_a_long_cycle(self) -> None:
        """50 transactions: n reads key n and writes key n+1, all at once. Each has an rw edge to the one that writes its key."""
        count = 50
        reads = " ".join(f"r{n}[{n}:0]" for n in range(1, count + 1))
        writes = " ".join(f"w{n}[{n % count + 1}]" for n in range(1, count + 1))
        ends = " ".join(f"c{n}" for n in range(1, count + 1))
        steps = " ".join(f">rw:{n}> {n - 1 or count}" for n in [1, *range(count, 1, -1)])
        report = lines(f"events {3 * count} committed {count} aborted 0 open 0", "isolation kept", "ssi fail", "serializable no", f"cycle 1 {steps}")
        finding = only(told(f"{reads} {writes} {ends}", report))
        self.assertTrue(finding.title.startswith("A cycle that snapshot isolation allows: 1 → 50 → 49 → "))
        self.assertIn(" → 12 → 10 more → 1. ", finding.title)
        self.assertEqual((len(finding.reasons), finding.reasons[-1]), (42, "And 10 steps more, which the report names."))

    def test_every_explained_example(self) -> None:
        """A report's form changes no sentence but for the names of bad reads; each of those names is the explained report's."""
        seen = 0
        for path in sorted(REPOSITORY.glob("examples/**/*.explained")):
            if path.stem.startswith("refused"):
                continue
            with self.subTest(path=path.name):
                history, text = path.with_suffix(".history").read_text(), path.read_text()
                explained = told(history, ReportText(text.encode())).findings
                full = told(history, ReportText.from_path(str(path.with_suffix(".report")))).findings
                for one, other in zip(
                    (finding for finding in explained if finding.kind is not Kind.STRUCTURE),
                    (finding for finding in full if finding.kind is not Kind.PIVOT), strict=True,
                ):
                    reasons = one.reasons[: len(one.reasons) - len(one.more)]
                    self.assertEqual((one.kind, reasons, one.transactions, one.places), (other.kind, other.reasons, other.transactions, other.places))
                    self.assertEqual(bool(one.more), one.kind in (Kind.BAD_READ, Kind.BAD_WRITE))
                    self.assertEqual(one.title.partition(": ")[2], other.title.partition(": ")[2])
                names = [finding.title.partition(":")[0].lower() for finding in explained if finding.kind is Kind.BAD_READ]
                listed = text.splitlines()
                self.assertEqual(names, [below.strip().partition(":")[0] for line, below in zip(listed, listed[1:]) if line.startswith("bad-read ")])
                seen += len(names)
        self.assertGreater(seen, 5)

    def test_another_history(self) -> None:
        """What doesn't fit the report is refused, a commit of a cycle's transaction too."""
        for history, said in (
            ("r1[1:0] r2[1:0] w1[1] w2[2] c1 c2", "transaction 2 doesn't write key 1"),
            ("r1[1:0] r2[2:0] w1[1] w2[1] c1 c2", "transaction 2 has no read of key 1 that gives its edge"),
        ):
            with self.subTest(said=said), self.assertRaisesRegex(BadInput, said):
                told(history, text_of(LOST_UPDATE))
        self.assertEqual(len(told(LOST_UPDATE_HISTORY, text_of(LOST_UPDATE)).findings), 4)


if __name__ == "__main__":
    unittest.main()
