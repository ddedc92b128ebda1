"""Reports: each line is read, lines may be left out or explained, and what is no report is refused."""

from __future__ import annotations

import unittest

from si_history.errors import BadInput
from si_history.history import Commit, RangeRead, Read, Write
from si_history.reasons import is_class, is_counts
from si_history.report import (
    BadRead, BadWrite, Counts, Cycle, Edge, EdgeKind, Order, Pivot, Placed, ReadName, Reason, Role, Started, Unexplained, Verdict,
    Version,
)
from si_history.report_text import ReportText, edges_in, read_report
from tests.support import REPOSITORY

LOST_UPDATE = """\
events 6 committed 2 aborted 0 open 0
isolation broken
bad-write 1 1 2
edge 1 ww 2 1
edge 1 rw 2 1
edge 2 rw 1 1
pivot 1 in 2 out 2
pivot 2 in 1 out 1 first 1
ssi fail
serializable no
cycle 1 >ww:1> 2 >rw:1> 1
"""

EXPLAINED = [
    "events 8 committed 3 aborted 0 open 0",
    "isolation broken",
    "bad-read 5 1 2 saw 2 due 3",
    "  future read: event 5 r1[0..9;2:2]; transaction 1 starts after event 0",
    "  saw: event 3 w2[2], event 4 c2",
    "  due: event 1 w3[2], event 2 c3",
    "bad-write 2 3 2",
    "  both write and overlap: transaction 2 starts after event 7; event 1 w3[2], event 2 c3; event 3 w2[2], event 4 c2",
    "unexplained 5 1 2 3",
    "  uncommitted read: event 5 r1[0..9;2:2]; transaction 1 starts after event 0",
    "  saw: event 1 w3[2]",
    "ssi fail",
    "serializable no",
    "cycle 1 >wr:2> 2 >rw:1> 1",
    "  1 >wr:2> 2: event 1 w3[2], event 2 c3; event 5 r1[0..9;2:2]; event 3 w2[2], event 4 c2",
    "  2 >rw:1> 1: event 6 r2[1:0]; event 7 w1[1], event 8 c1",
]
"""Lines of reasons of each form. No history has just these."""

PLAIN = ["events 0 committed 0 aborted 0 open 0", "isolation kept", "ssi pass", "serializable yes", "order"]


def text_of(text: str) -> ReportText:
    """The text of a report, as if it came from a file r."""
    return ReportText(text.encode(), "r")


def lines(*words: str) -> ReportText:
    """A report of these lines."""
    return text_of("".join(f"{line}\n" for line in words))


class ReadTest(unittest.TestCase):
    def test_a_lost_update(self) -> None:
        report = read_report(text_of(LOST_UPDATE))
        self.assertEqual(report.counts, Counts(6, 2, 0, 0))
        self.assertEqual(report.isolation, Verdict(False))
        self.assertEqual(report.bad_writes, [BadWrite(1, 1, 2)])
        self.assertEqual(report.edge_count, 3)
        self.assertEqual(report.pivots, [Pivot(1, (2,), (2,), ()), Pivot(2, (1,), (1,), (1,))])
        self.assertEqual((report.ssi, report.serializable), (Verdict(False), Verdict(False)))
        self.assertEqual(report.outcome, Cycle((Edge(1, EdgeKind.WW, 2, 1), Edge(2, EdgeKind.RW, 1, 1))))
        self.assertIs(report.cycle, report.outcome)

    def test_edges_one_by_one(self) -> None:
        self.assertEqual(
            list(edges_in(text_of(LOST_UPDATE))),
            [Edge(1, EdgeKind.WW, 2, 1), Edge(1, EdgeKind.RW, 2, 1), Edge(2, EdgeKind.RW, 1, 1)],
        )

    def test_reads_and_an_order(self) -> None:
        report = read_report(lines(
            "events 7 committed 2 aborted 1 open 1", "isolation broken", "bad-read 3 4294967295 18446744073709551615 saw 0 due 9",
            "bad-read 5 4 1 saw 2 due 3", "unexplained 5 4 1 2", "ssi fail", "serializable no", "order 4 2",
        ))
        self.assertEqual(report.bad_reads, [BadRead(3, 2**32 - 1, 2**64 - 1, 0, 9), BadRead(5, 4, 1, 2, 3)])
        self.assertEqual(report.unexplained, [Unexplained(5, 4, 1, 2)])
        self.assertEqual((report.outcome, report.cycle), (Order((4, 2)), None))

    def test_no_transaction(self) -> None:
        report = read_report(lines(*PLAIN))
        self.assertEqual((report.outcome, report.isolation, report.edge_count), (Order(()), Verdict(True), 0))

    def test_a_pivot_of_many(self) -> None:
        report = read_report(lines(*PLAIN[:2], "pivot 5 in 1 2 3 out 4 6 first 4", *PLAIN[2:]))
        self.assertEqual(report.pivots, [Pivot(5, (1, 2, 3), (4, 6), (4,))])

    def test_edges_and_pivots_may_be_left_out(self) -> None:
        brief = [line for line in LOST_UPDATE.splitlines() if not line.startswith(("edge", "pivot"))]
        report = read_report(lines(*brief))
        self.assertEqual((report.edge_count, report.pivots), (0, []))
        self.assertEqual(report.cycle, read_report(text_of(LOST_UPDATE)).cycle)

    def test_lines_that_explain(self) -> None:
        report = read_report(lines(*EXPLAINED))
        read = Placed(5, RangeRead(1, 0, 9, ((2, 2),)))
        first, second = (Version(Placed(at, Write(t, k)), Placed(end, Commit(t))) for at, t, k, end in ((3, 2, 2, 4), (1, 3, 2, 2)))
        named = Reason(ReadName.FUTURE_READ, (read, Started(1, 0)))
        self.assertEqual(report.bad_reads[0].reasons, [named, Reason(Role.SAW, (first,)), Reason(Role.DUE, (second,))])
        opened = Version(Placed(1, Write(3, 2)), None)
        self.assertEqual(report.unexplained[0].reasons, [Reason(ReadName.UNCOMMITTED_READ, named.parts), Reason(Role.SAW, (opened,))])
        self.assertEqual(report.bad_writes[0].reasons, [Reason(Role.BOTH_WRITE, (Started(2, 7), second, first))])
        to, back = Edge(1, EdgeKind.WR, 2, 2), Edge(2, EdgeKind.RW, 1, 1)
        assert report.cycle is not None
        self.assertEqual((report.cycle.steps, [reason.head for reason in report.cycle.reasons]), ((to, back), [to, back]))
        self.assertEqual(report.cycle.reasons[0].parts, (second, read, first))
        self.assertEqual((report.structure, report.steps), (None, (to, back)))

    def test_a_dangerous_structure(self) -> None:
        text = ReportText.from_path(str(REPOSITORY / "examples" / "read_only_anomaly.explained"))
        report = read_report(text)
        assert report.structure is not None
        self.assertEqual(report.structure.steps, (Edge(3, EdgeKind.RW, 2, 1), Edge(2, EdgeKind.RW, 1, 2)))
        self.assertEqual(report.structure.transactions, (3, 2, 1))
        self.assertEqual([reason.head for reason in report.structure.reasons], list(report.structure.steps))
        bare = read_report(lines(*PLAIN[:2], "ssi fail", "dangerous 3 >rw:1> 2 >rw:2> 1", *PLAIN[3:]))
        assert bare.structure is not None
        self.assertEqual((bare.structure.steps, bare.structure.reasons), (report.structure.steps, []))
        self.assertEqual((bare.cycle, bare.steps), (None, report.structure.steps))

    def test_every_explained_example(self) -> None:
        """An explained report says what the report says, and each line with two spaces is a reason somewhere."""
        for path in sorted(REPOSITORY.glob("examples/**/*.explained")):
            if path.stem.startswith("refused"):
                continue
            with self.subTest(path=path.name):
                text = path.read_text()
                report = read_report(ReportText(text.encode()))
                brief = read_report(ReportText.from_path(str(path.with_suffix(".report"))))
                explained = [*report.bad_reads, *report.bad_writes, *report.unexplained, *report.snapshots]
                explained += [each for each in (report.structure, report.cycle) if each is not None]
                below = [line[2:] for line in text.splitlines() if line.startswith("  ")]
                self.assertEqual(
                    sum(len(each.reasons) for each in explained),
                    sum(not is_counts(line) and not is_class(line) for line in below),
                )
                for each in explained:
                    each.reasons.clear()
                told = [one.transaction for one in report.snapshots]
                self.assertEqual(set(told), {read.transaction for read in report.bad_reads} | {write.second for write in report.bad_writes})
                self.assertEqual(told, sorted(told))
                brief.edge_count, brief.pivots, brief.structure, brief.snapshots = 0, [], report.structure, report.snapshots
                self.assertEqual(report, brief)

    def test_every_example(self) -> None:
        """Each report under examples is read, and its counts and its kind of outcome are those of its lines."""
        paths = [path for path in sorted(REPOSITORY.glob("examples/**/*.report")) if not path.stem.startswith("refused")]
        self.assertGreater(len(paths), 8)
        for path in paths:
            with self.subTest(path=path.name):
                words = path.read_text().splitlines()
                text = ReportText.from_path(str(path))
                report = read_report(text)
                edges = sum(line.startswith("edge ") for line in words)
                self.assertEqual((report.edge_count, len(list(edges_in(text)))), (edges, edges))
                self.assertEqual(report.isolation.holds, words[1] == "isolation kept")
                self.assertEqual(report.cycle is None, words[-1].startswith("order"))


class RefusedTest(unittest.TestCase):
    def check(self, text: ReportText, said: str) -> None:
        """The text is refused, with these words."""
        with self.assertRaises(BadInput) as caught:
            read_report(text)
        self.assertEqual(str(caught.exception), said)

    def test_no_report(self) -> None:
        self.check(text_of(""), "r: line 1: this is no report: it ends before its line 'events ..'")
        self.check(text_of("w1[7] c1\n"), "r: line 1: this is no report: no line of a report starts with 'w1[7]'")
        self.check(ReportText(b"\xff\x00\n", "r"), "r: line 1: this is no report: no line of a report starts with '\\ufffd\\x00'")
        self.check(lines("isolation kept"), "r: line 1: this is no report: a line 'events ..' must stand before this one")
        self.check(lines("  indented"), "r: line 1: this is no report: no line of a report starts with ''")

    def test_a_refusal(self) -> None:
        self.check(
            lines("refused: token 7: version not written"),
            "r: the auditor refused the history and made no report (at event 7: version not written)",
        )
        self.check(lines("refused: text too long"), "r: the auditor refused the history and made no report (the text was too long)")
        self.check(lines("refused: nonsense \x1b[31m"), "r: this is no report, and no refusal either")

    def test_an_explained_refusal(self) -> None:
        line = "refused: token 7: bad event"
        self.check(
            lines(line, r"  line 3, column 5: r2[cl\xc3\xa9:1]"),
            "r: the auditor refused the history and made no report"
            r" (at event 7, in line 3 from column 5: bad event: r2[cl\xc3\xa9:1])",
        )
        for below in (
            ["line 3, column 5: x"], ["  line 3, column 5: "], ["  line 0, column 5: x"], ["  line 3, column 5: x\x1b"],
            [r"  line 3, column 5: \xC3"], [r"  line 3, column 5: \n"], ["  line 3: x"], ["  line 1, column 1: x"] * 2, PLAIN,
        ):
            with self.subTest(below=below):
                self.check(lines(line, *below), "r: this is no report, and no refusal either")
        self.check(lines("refused: text too long", "  line 1, column 1: x"), "r: this is no report, and no refusal either")
        for path in sorted(REPOSITORY.glob("examples/refused*.explained")):
            with self.subTest(path=path.name), self.assertRaisesRegex(BadInput, "in line [13] from column [15]: "):
                read_report(ReportText.from_path(str(path)))

    def test_lines_that_are_missing_or_doubled(self) -> None:
        self.check(lines(*PLAIN[:-1]), "r: line 4: this is no report: it ends before its line 'order ..'")
        self.check(lines(*PLAIN[:2], *PLAIN[3:]), "r: line 3: this is no report: a line 'ssi ..' must stand before this one")
        self.check(lines(*PLAIN[:2], *PLAIN[1:]), "r: line 3: this is no report: a line 'isolation ..' can't stand here")
        self.check(lines(*PLAIN, "order"), "r: line 6: this is no report: a line 'order ..' can't stand here")
        swapped = [*PLAIN[:2], "edge 1 ww 2 1", "bad-write 1 1 2", *PLAIN[2:]]
        self.check(lines(*swapped), "r: line 4: this is no report: a line 'bad-write ..' can't stand here")

    def test_faulty_lines(self) -> None:
        for at, line in (
            (0, "events 1 committed 0 aborted 0"), (0, "events 01 committed 0 aborted 0 open 0"),
            (0, "events 1 committed 0 aborted 0 open 0 "), (0, "events \u0661 committed 0 aborted 0 open 0"),
            (0, "events -1 committed 0 aborted 0 open 0"), (0, f"events {'9' * 5000} committed 0 aborted 0 open 0"),
            (1, "isolation maybe"), (1, "isolation"), (2, "ssi yes"), (3, "serializable pass"), (4, "order 1 x"), (4, "order "),
            (4, "cycle"), (4, "cycle 1 >ww:1> 1 2"), (4, "cycle 1 >ww:1> 2 >rw:1> 3"), (4, "cycle 1 ww:1 2 >rw:1> 1"),
            (4, "cycle 1 >xx:1> 2 >rw:1> 1"), (4, "cycle 1 >ww> 2 >rw:1> 1"), (4, "cycle 1 >ww:k> 2 >rw:1> 1"),
        ):
            with self.subTest(line=line[:50]), self.assertRaisesRegex(BadInput, f"^r: line {at + 1}: this is no report: "):
                read_report(lines(*PLAIN[:at], line, *PLAIN[at + 1 :]))

    def test_faulty_findings(self) -> None:
        for line in (
            "bad-read 1 1 1 saw 2", "bad-read 1 1 1 due 2 saw 3", "bad-write 1 1", "unexplained 1 1 1 x",
            "pivot 1 in 2", "pivot 1 out 2 in 3", "pivot 1 in out 2", "pivot 1 in 2 out", "pivot 1 in 2 out first 3",
            "pivot 1 in 2 out 3 first", "pivot 1 in 2 first 3 out 3", "pivot in 2 out 3",
        ):
            with self.subTest(line=line), self.assertRaisesRegex(BadInput, "^r: line 3: this is no report: "):
                read_report(lines(*PLAIN[:2], line, *PLAIN[2:]))

    def test_reasons_that_explain_nothing(self) -> None:
        """A line of reasons that no explained report has, or not there."""
        version, read = "event 3 w2[2], event 4 c2", "event 5 r1[2:2]"
        for at, line in (
            (1, f"  saw: {version}"), (2, f"  saw: {version}"), (3, EXPLAINED[3]), (3, f"  due: {version}; {version}"), (3, "  saw: "),
            (3, "  saw: event 3 w2[2], event 4 c9"), (3, f"  saw: {read}"), (3, "  saw: event 3 w2[2],event 4 c2"), (3, "  saw: event 3 w2[2], "),
            (3, "   saw: event 3 w2[2]"), (3, "  saw: event 3 w2[2] "), (3, "  Seen: event 3 w2[2]"), (3, "  saw: event x w2[2]"),
            (3, "  saw: event 3 w02[2]"), (3, "  saw: event 03 w2[2]"), (3, f"  saw: event {'9' * 21} w2[2]"), (4, f"  saw: {version}"),
            (5, f"  due: {version}"), (2, f"  stale read: {read}"), (2, f"  stale read: transaction 1 starts after event 0; {read}"),
            (3, "  odd read: event 5 r1[2:]; transaction 1 starts after event 0"), (3, "  odd  read: event 5 c1"), (3, "  odd read"),
            (3, "  odd read: "), (3, "  odd read: x "), (3, "  odd read: event 05 c1"), (3, "  odd read: \u00e9"), (3, "  5 odd: event 5 c1"),
            (1, f"  odd read: {read}; transaction 1 starts after event 0"), (2, "  stale read: event 5 w1[2]; transaction 1 starts after event 0"),
            (2, "  stale read: event 5 r1[0..9;2:2,3:2]; transaction 1 starts after event 0"), (7, EXPLAINED[7]), (6, "  1 >ww:2> 2: " + version),
            (8, "  " + version), (13, EXPLAINED[15]), (13, f"  1 >wr:2> 2: {version}"), (13, f"  1 >wr:2> 2: {read}; {version}"),
            (13, f"  1 >xx:2> 2: {version}; {read}"), (13, f"  1 >wr:2>: {version}; {read}"), (15, EXPLAINED[15]),
        ):
            with self.subTest(at=at, line=line), self.assertRaisesRegex(BadInput, f"^r: line {at + 2}: this is no report: "):
                read_report(lines(*EXPLAINED[: at + 1], line, *EXPLAINED[at + 1 :]))
        self.check(lines(*EXPLAINED[:-1]), "r: line 15: this is no report: of the steps above some are explained and some are not")

    def test_names_of_bad_writes_counts_and_a_class(self) -> None:
        """What earlier auditors didn't write, and not at other lines."""
        counts = "  1 future read, 2 lost update, 13 write conflict"
        forbidden = "  forbidden under snapshot isolation: no two rw steps between overlapping transactions follow one another"
        later = [line.replace("both write and overlap", "write conflict") for line in EXPLAINED]
        report = read_report(lines(*later[:2], counts, *later[2:], forbidden))
        self.assertIs(report.bad_writes[0].reasons[0].head, Role.WRITE_CONFLICT)
        report.bad_writes[0].reasons.clear()
        plain = read_report(lines(*EXPLAINED[:7], *EXPLAINED[8:]))
        self.assertEqual(report, plain)
        read = "event 5 r2[0..9;2:0]; "
        lost = EXPLAINED[7].replace("both write and overlap", "lost update").replace("event 1", f"{read}event 1", 1)
        report = read_report(lines(*EXPLAINED[:7], lost, *EXPLAINED[8:]))
        self.assertEqual(report.bad_writes[0].reasons[0].parts[1], Placed(5, RangeRead(2, 0, 9, ((2, 0),))))
        for at, line in (
            (0, counts), (0, forbidden), (1, "  0 phantom"), (1, "  1 bad write"), (1, forbidden), (2, counts), (7, lost.replace(read, "")),
        ):
            with self.subTest(at=at, line=line), self.assertRaises(BadInput):
                read_report(lines(*EXPLAINED[: at + 1], line, *EXPLAINED[at + 1 :]))
        with self.assertRaises(BadInput):
            read_report(lines(*PLAIN[:2], counts, *PLAIN[2:]))

    def test_what_is_not_known_is_kept(self) -> None:
        """Lines that a later auditor may write below a finding: they stand beside the reasons, and disturb none of them."""
        remarks = ["intermediate read: event 5 r1[0..9;2:2]; transaction 1 starts after event 0", "not by event 4 c2: event 5 r1[2:2]",
                   "others: 17", "seen: event 3 w2[2]"]
        for at in (2, 3, 4, 5):
            lines = [*EXPLAINED[: at + 1], *(f"  {remark}" for remark in remarks), *EXPLAINED[at + 1 :]]
            report = read_report(text_of("\n".join(lines) + "\n"))
            plain = read_report(text_of("\n".join(EXPLAINED) + "\n"))
            self.assertEqual(report.bad_reads[0].remarks, remarks)
            report.bad_reads[0].remarks.clear()
            self.assertEqual(report, plain)
        nameless = [line for line in EXPLAINED if not line.startswith("  future read")]
        report = read_report(text_of("\n".join([*nameless[:3], "  intermediate read: event 5 r1[2:2]", *nameless[3:]]) + "\n"))
        self.assertEqual([reason.head for reason in report.bad_reads[0].reasons], [Role.SAW, Role.DUE])

    def test_findings_that_are_left_out(self) -> None:
        """What is counted and what is kept are together what the report has, and the rest of it is the same."""
        for path in sorted(REPOSITORY.glob("examples/**/*.explained")):
            if path.stem.startswith("refused"):
                continue
            whole = read_report(ReportText.from_path(str(path)))
            for most in (0, 1, 2, 1000):
                with self.subTest(path=path.name, most=most):
                    some = read_report(ReportText.from_path(str(path)), most)
                    for head, kept, every in (
                        ("bad-read", some.bad_reads, whole.bad_reads), ("bad-write", some.bad_writes, whole.bad_writes),
                        ("unexplained", some.unexplained, whole.unexplained),
                    ):
                        self.assertEqual(kept, every[:most])
                        self.assertEqual(some.count_left_out(head), len(every[most:]))
                    self.assertEqual(some.torn_count, whole.torn_count)
                    self.assertEqual(some.meets("gsi"), whole.meets("gsi"))
                    parties = {read.transaction for read in some.bad_reads} | {write.second for write in some.bad_writes}
                    kept_too = [one for at, one in enumerate(whole.snapshots) if at < most or one.transaction in parties]
                    self.assertEqual(some.snapshots, kept_too)
                    names = [read.reasons[0].head.value for read in whole.bad_reads[most:]]
                    self.assertEqual({name: some.left_out["bad-read", name] for name in names}, {name: names.count(name) for name in names})
                    self.assertEqual((some.counts, some.isolation, some.outcome), (whole.counts, whole.isolation, whole.outcome))

    def test_faults_of_findings_that_are_left_out(self) -> None:
        for at, line in (
            (2, "bad-read 5 1 2 saw 2 due"), (2, "bad-read 5 1 2 saw 02 due 3"), (2, "bad-read  5 1 2 saw 2 due 3"), (6, "bad-write 2 3"),
            (8, "unexplained 5 1 2 x"), (3, "  future read: event 5"), (3, "  future read: event 5 r1[0..9;2:2] "), (4, "  saw: "),
            (4, "  saw: event 3 w2[2]; "), (3, "   future read: event 5 r1[2:2]"), (3, "  Future read: event 5 r1[2:2]"),
        ):
            lines = [*EXPLAINED[:at], line, *EXPLAINED[at + 1 :]]
            with self.subTest(line=line), self.assertRaisesRegex(BadInput, f"^r: line {at + 1}: this is no report: "):
                read_report(text_of("\n".join(lines) + "\n"), 0)

    def test_snapshots(self) -> None:
        """Lines of the snapshots that fit a transaction stand behind the unexplained reads, with their reasons."""
        at = EXPLAINED.index("ssi fail")
        lines = ["snapshot 1 none", "  not without event 4 c2: event 5 r1[2:2]", "  not with event 2 c3: event 5 r1[2:2]", "snapshot 2 from 0 to 7"]
        report = read_report(text_of("\n".join([*EXPLAINED[:at], *lines, *EXPLAINED[at:]]) + "\n"))
        self.assertEqual([(one.transaction, one.fitting, len(one.reasons)) for one in report.snapshots], [(1, None, 2), (2, (0, 7), 0)])
        commit, read = Placed(4, Commit(2)), Placed(5, Read(1, 2, 2))
        self.assertEqual(report.snapshots[0].reasons[0], Reason(Role.NOT_WITHOUT, (commit, read)))
        self.assertEqual((report.tells_snapshots, report.torn_count, report.meets("gsi")), (True, 1, False))
        report.snapshots.pop(0)
        self.assertTrue(report.meets("gsi"))
        report.snapshots.clear()
        self.assertEqual((report.tells_snapshots, report.meets("gsi")), (False, False))

    def test_why_no_snapshot_fits(self) -> None:
        """Each of the reasons, alone and with the one that may follow it; and what is none, or not there."""
        at = EXPLAINED.index("ssi fail")

        def reading(*lines: str) -> list[Reason]:
            return read_report(text_of("\n".join([*EXPLAINED[:at], *lines, *EXPLAINED[at:]]) + "\n")).snapshots[0].reasons

        torn, never = "snapshot 1 none", "  in no snapshot: event 5 r1[0..9;2:2]"
        asked, without, after = "  not without event 4 c2: event 5 w1[2]", "  not with event 4 c2: event 5 r1[2:0]", "  not after event 5 r1[0..9]"
        for below, heads in (
            ([never], [Role.IN_NO_SNAPSHOT]), ([asked, without], [Role.NOT_WITHOUT, Role.NOT_WITH]),
            ([asked, after], [Role.NOT_WITHOUT, Role.NOT_AFTER]), ([], []),
        ):
            with self.subTest(below=below):
                self.assertEqual([reason.head for reason in reading(torn, *below)], heads)
        for lines in (
            [torn, without], [torn, after], [torn, asked], [torn, never, without], [torn, asked, asked], [torn, asked, without, after],
            ["snapshot 1 from 0 to 2", never], ["snapshot 2 none", never], [torn, "  in no snapshot: event 5 w1[2]"],
            [torn, "  in no snapshot: event 5 r1[2:2]; transaction 1 starts after event 0"],
            [torn, asked.replace("w1[2]", "c1"), without], [torn, asked.replace("c2", "a2"), without], [torn, asked, without.replace("r1[2:0]", "w1[2]")],
            [torn, asked, after.replace("9]", "9;2:2]")], [torn, asked, after.replace("r1[0..9]", "b1")], [torn, asked.replace(":", ""), without],
            [torn, asked, "  not after event 5"], [torn, asked, after.replace("5", "05")],
        ):
            with self.subTest(lines=lines), self.assertRaises(BadInput):
                reading(*lines)

    def test_faulty_snapshots(self) -> None:
        at = EXPLAINED.index("ssi fail")
        for faulty in ("snapshot 1", "snapshot 1 from 2", "snapshot 1 to 2", "snapshot x none", "snapshot 1 from 1 to 2 to 3", "snapshot 01 none"):
            with self.subTest(faulty=faulty), self.assertRaises(BadInput):
                read_report(text_of("\n".join([*EXPLAINED[:at], faulty, *EXPLAINED[at:]]) + "\n"))
            with self.subTest(faulty=faulty), self.assertRaises(BadInput):
                read_report(text_of("\n".join([*EXPLAINED[:at], faulty, *EXPLAINED[at:]]) + "\n"), 0)

    def test_faulty_structures(self) -> None:
        for at, line in (
            (3, "dangerous"), (3, "dangerous 1 >rw:1> 2"), (3, "dangerous 1 >rw:1> 2 >wr:1> 3"), (3, "dangerous 1 >rw:1> 2 >rw:1> 3 >rw:1> 1"),
            (3, "dangerous 1 >rw:1> x >rw:1> 3"), (2, "dangerous 1 >rw:1> 2 >rw:1> 3"), (4, "dangerous 1 >rw:1> 2 >rw:1> 3"),
        ):
            with self.subTest(line=line), self.assertRaisesRegex(BadInput, f"^r: line {at + 1}: this is no report: "):
                head = [*PLAIN[:2], "ssi fail", *PLAIN[3:]]
                read_report(lines(*head[:at], line, *head[at:]))
        structure = "dangerous 1 >rw:1> 2 >rw:1> 3"
        for words in ([*PLAIN[:3], structure], [PLAIN[0], "isolation broken", "ssi fail", structure], [*PLAIN[:2], "ssi fail", *[structure] * 2]):
            with self.subTest(words=words), self.assertRaisesRegex(BadInput, f"^r: line {len(words)}: this is no report: a line 'dangerous"):
                read_report(lines(*words, *PLAIN[3:]))

    def test_faulty_edges_are_told_when_they_are_wanted(self) -> None:
        for line in ("edge 1 ww 2", "edge 1 xx 2 1", "edge 01 ww 2 1", "edge 1 ww 2 1 ", f"edge 1 ww 2 {'9' * 21}"):
            with self.subTest(line=line), self.assertRaisesRegex(BadInput, "^r: line 3: this is no report: 'edge T KIND U KEY' is wanted$"):
                list(edges_in(lines(*PLAIN[:2], line, *PLAIN[2:])))


if __name__ == "__main__":
    unittest.main()
