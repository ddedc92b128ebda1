"""Tests of the definitions: reports that docs/FORMAT.md works out, by both ways to make them, and the sizes of the texts.

    PYTHONPATH=tools python3 -m unittest oracle.tests
"""

import re
import unittest
from collections import Counter
from itertools import takewhile
from pathlib import Path
from random import Random

import hard
from oracle import explaining, larger, narrow, small, taking, trying
from oracle.account import LEVELS, RW, SERIALIZABLE, WR, WW, Account, Edge
from oracle.events import Event
from oracle.reading import GREATEST, Limits, Refusal, read
from oracle.runs import Case, Form, Line
from oracle.tables import Tables
from oracle.tally import REASONS, shapes_of

ROOT = Path(__file__).resolve().parents[2]
EXAMPLES, PAGE = ROOT / "examples", ROOT / "docs" / "FORMAT.md"
WAYS = (trying.account_of, taking.account_of)


def events_of(text: str) -> list[Event]:
    events = read(text.encode())
    assert not isinstance(events, Refusal), events.line
    return events


def refusal_of(text: bytes) -> Refusal:
    refusal = read(text)
    assert isinstance(refusal, Refusal), text
    return refusal


class Reports(unittest.TestCase):
    """What docs/FORMAT.md says of a text, and more worked out from its rules by hand."""

    def lines(self, text: str) -> list[str]:
        """The lines of the report, which both ways must give."""
        first, second = (way(events_of(text)) for way in WAYS)
        self.assertEqual(first, second)
        return list(first.lines())

    def assert_has(self, text: str, *wanted: str) -> None:
        lines = self.lines(text)
        for line in wanted:
            self.assertIn(line, lines)

    def assert_report(self, text: str, *wanted: str) -> None:
        self.assertEqual(self.lines(text), list(wanted))

    def test_no_event(self) -> None:
        verdicts = "isolation kept", "ssi pass", "serializable yes", "order"
        self.assert_report(" \n", "events 0 committed 0 aborted 0 open 0", *verdicts)

    def test_first_example(self) -> None:
        self.assert_report(
            "w1[7] c1 r2[7:1] w2[7] c2",
            "events 5 committed 2 aborted 0 open 0",
            "isolation kept",
            "edge 1 ww 2 7",
            "edge 1 wr 2 7",
            "ssi pass",
            "serializable yes",
            "order 1 2",
        )

    def test_write_skew(self) -> None:
        self.assert_report(
            "r1[1:0] r1[2:0] r2[1:0] r2[2:0] w1[2] w2[1] c1 c2",
            "events 8 committed 2 aborted 0 open 0",
            "isolation kept",
            "edge 1 rw 2 1",
            "edge 2 rw 1 2",
            "pivot 1 in 2 out 2",
            "pivot 2 in 1 out 1 first 1",
            "ssi fail",
            "serializable no",
            "cycle 1 >rw:1> 2 >rw:2> 1",
        )

    def test_stale_read(self) -> None:
        self.assert_report(
            "w1[1] c1 w2[1] c2 w3[1] c3 r4[1:2] c4",
            "events 8 committed 4 aborted 0 open 0",
            "isolation broken",
            "bad-read 7 4 1 saw 2 due 3",
            "edge 1 ww 2 1",
            "edge 1 ww 3 1",
            "edge 1 wr 4 1",
            "edge 2 ww 3 1",
            "edge 2 wr 4 1",
            "edge 4 rw 3 1",
            "ssi fail",
            "serializable yes",
            "order 1 2 4 3",
        )

    def test_bad_write(self) -> None:
        self.assert_has("w1[1] w2[1] c1 c2", "isolation broken", "bad-write 1 1 2", "serializable yes")

    def test_unexplained(self) -> None:
        aborted = "w1[1] r2[1:1] c2 a1"
        self.assert_has(aborted, "bad-read 2 2 1 saw 1 due 0", "unexplained 2 2 1 1", "serializable no", "order 2")
        self.assert_has("w1[1] r1[1:0] c1", "unexplained 2 1 1 0", "serializable no", "order 1")

    def test_first_to_commit(self) -> None:
        text = "r1[1:0] r2[2:0] w2[1] w3[2]"
        self.assert_has(f"{text} c3 c2 c1", "pivot 2 in 1 out 3 first 3", "ssi fail", "serializable yes")
        self.assert_has(f"{text} c1 c3 c2", "pivot 2 in 1 out 3", "ssi pass", "serializable yes")

    def test_cycle_without_the_least(self) -> None:
        text = "r2[1:0] r2[2:0] r3[1:0] r3[2:0] w2[2] w3[1] c2 c3 r1[1:3] c1"
        self.assert_has(text, "edge 3 wr 1 1", "serializable no", "cycle 2 >rw:1> 3 >rw:2> 2")

    def test_least_edge_of_a_step(self) -> None:
        # From 1 to 2 there are an rw edge on key 1 and a ww edge on key 9, and ww comes first.
        text = "r1[1:0] r2[2:0] w1[2] w1[9] c1 w2[1] w2[9] c2"
        self.assert_has(text, "edge 1 ww 2 9", "edge 1 rw 2 1", "edge 2 rw 1 2", "cycle 1 >ww:9> 2 >rw:2> 1")

    def test_named_start(self) -> None:
        self.assert_has("w1[1] c1 b2@0 r2[1:0] c2", "isolation kept", "edge 2 rw 1 1", "order 2 1")
        self.assert_has("w1[1] c1 b2 r2[1:0] c2", "bad-read 4 2 1 saw 0 due 1")

    def test_ranges(self) -> None:
        text = "w1[5] w1[9] c1 r2[3..9;5:1] c2 r3[6..8] c3"
        self.assert_has(text, "bad-read 4 2 9 saw 0 due 1", "edge 1 wr 2 5", "edge 2 rw 1 9", "cycle 1 >wr:5> 2 >rw:9> 1")

    def test_replay(self) -> None:
        tables = Tables(events_of("w1[1] c1 r2[1:1] w2[1] c2"))
        self.assertTrue(taking.replays(tables, [1, 2]))
        self.assertFalse(taking.replays(tables, [2, 1]))

    def test_status(self) -> None:
        pivot = "r1[1:0] r2[2:0] w2[1] w3[2] c3 c2 c1"
        skew = "r1[1:0] r1[2:0] r2[1:0] r2[2:0] w1[2] w2[1] c1 c2"
        for text, statuses in (
            ("c1", (0, 0, 0, 0)),
            ("w1[1] w2[1] c1 c2", (1, 1, 1, 1)),
            ("w1[1] r1[1:0] c1", (1, 1, 1, 1)),
            ("w1[1] c1 r2[1:0] c2", (1, 1, 1, 0)),
            ("b1 w2[1] c2 w1[1] c1", (1, 1, 1, 0)),
            ("w1[1] c1 r2[1:0] c2 r3[1:0] r3[1:1]", (1, 1, 1, 1)),
            (pivot, (0, 1, 0, 0)),
            (skew, (1, 1, 0, 0)),
        ):
            account: Account = taking.account_of(events_of(text))
            self.assertEqual(tuple(map(account.status, LEVELS)), statuses)

    def test_brief_report(self) -> None:
        account = taking.account_of(events_of("r1[1:0] r1[2:0] r2[1:0] r2[2:0] w1[2] w2[1] c1 c2"))
        lines = [line.split()[0] for line in account.report(brief=True).decode().splitlines()]
        self.assertEqual(lines, ["events", "isolation", "ssi", "serializable", "cycle"])


class Refusals(unittest.TestCase):
    """The table of refusals, and texts beside it."""

    def test_lines(self) -> None:
        for text, line in (
            ("r01[1:0]", "token 1: bad event"),
            ("r1[0..5;]", "token 1: bad event"),
            ("b1@", "token 1: bad event"),
            ("c1 r0[9..3]", "token 2: number out of range"),
            ("r1[18446744073709551616:0]", "token 1: number out of range"),
            ("b1@4294967296", "token 1: number out of range"),
            ("r1[1:0] c1 b1", "token 3: transaction already ended"),
            ("r1[1:0] b1", "token 2: transaction already begun"),
            ("r1[9..3;1:0]", "token 1: empty range"),
            ("r1[3..9;5:0,5:0]", "token 1: bad list"),
            ("r1[3..9;10:0]", "token 1: bad list"),
            ("r1[5:2] w2[5]", "token 1: version not written"),
            ("c1 b2@2", "token 2: start too late"),
        ):
            self.assertEqual(refusal_of(text.encode()).line, f"refused: {line}", text)

    def test_where(self) -> None:
        for text, where in (
            (b"r01[1:0]", r"line 1, column 1: r01[1:0]"),
            (b"r1[5:2] w2[5]", r"line 1, column 1: r1[5:2]"),
            (b"w1[7] c1\nr2[7:1]\n\tx c2", r"line 3, column 2: x"),
            (b"\n\nx", r"line 3, column 1: x"),
            (b"b1\r\n c1\r\n b1", r"line 3, column 2: b1"),
            (b"b1 \r \tx\nx", r"line 1, column 7: x"),
            (b"b1 r1[cl\xc3\xa9:0]", r"line 1, column 4: r1[cl\xc3\xa9:0]"),
            (b"\x00\x0b\x1f!~\x7f\x80\xff", r"line 1, column 1: \x00\x0b\x1f!~\x7f\x80\xff"),
            (b"\\x41", r"line 1, column 1: \x5cx41"),
            (b"\xc3\xa9 x", r"line 1, column 1: \xc3\xa9"),
            (b"b1 \xc3\xa9\n" + 60 * b"y", r"line 1, column 4: \xc3\xa9"),
            (60 * b"y", "line 1, column 1: " + 60 * "y"),
            (59 * b"y" + b"\\\\", "line 1, column 1: " + 59 * "y" + r"\x5c"),
            (b"c1 " + 61 * b"\xff", "line 1, column 4: " + 60 * r"\xff"),
        ):
            refusal = refusal_of(text)
            self.assertEqual(refusal.where, where, text)
            self.assertEqual(refusal.report(explained=True), f"{refusal.line}\n  {where}\n".encode())
            self.assertEqual(refusal.report(), f"{refusal.line}\n".encode())

    def test_too_long(self) -> None:
        self.assertEqual(read(b" " * 16_777_216), [])
        refusal = refusal_of(b" " * 16_777_217)
        self.assertEqual(refusal.report(), b"refused: text too long\n")
        self.assertEqual(refusal.report(explained=True), b"refused: text too long\n")

    def test_too_many_events(self) -> None:
        text = "r1[1:0] " * 100_000
        self.assertEqual(len(events_of(text)), 100_000)
        refusal = refusal_of(f"{text}x".encode())
        self.assertEqual(refusal, Refusal("refused: token 100001: too many events", "line 1, column 800001: x"))

    def test_other_limits(self) -> None:
        """A limit is met by as much as it says, and missed by one more; the length of the text is judged first."""
        text = b"w1[1]\nc1 x"
        self.assertEqual(read(text, Limits(1, 10)), Refusal("refused: token 2: too many events", "line 2, column 1: c1"))
        self.assertEqual(read(text, Limits(2, 10)), Refusal("refused: token 3: too many events", "line 2, column 4: x"))
        self.assertEqual(read(text, GREATEST), Refusal("refused: token 3: bad event", "line 2, column 4: x"))
        self.assertEqual(read(text, Limits(1, 9)), Refusal("refused: text too long"))
        self.assertEqual(read(b"r1[1:0] " * 100_001, Limits(100_001)), events_of("r1[1:0] " * 100_000) + events_of("r1[1:0]"))


class Explained(unittest.TestCase):
    """What docs/FORMAT.md says of the explained report of a text, and more worked out from its rules by hand."""

    def lines(self, text: str) -> list[str]:
        events = events_of(text)
        return explaining.report(events, taking.account_of(events)).decode().splitlines()

    def assert_below(self, text: str, line: str, *wanted: str) -> None:
        """Exactly these lines stand below a line of the report, each after two spaces."""
        lines = self.lines(text)
        below = lines[lines.index(line) + 1 :]
        reasons = list(takewhile(lambda it: it.startswith("  "), below))
        self.assertEqual(reasons, [f"  {it}" for it in wanted])

    def test_the_other_lines_are_those_of_the_brief_report(self) -> None:
        for number in range(300):
            events = read(small.text_of(Random(f"explained {number}")))
            if isinstance(events, Refusal):
                continue
            account = taking.account_of(events)
            lines = explaining.report(events, account).decode().splitlines()
            others = [it for it in lines if not it.startswith(("  ", "snapshot ", "dangerous "))]
            self.assertEqual(others, list(account.lines(brief=True)))

    def test_own_write_missed(self) -> None:
        read = "own write missed: event 2 r1[1:0]; transaction 1 starts after event 0"
        self.assert_below("w1[1] r1[1:0] c1", "bad-read 2 1 1 saw 0 due 1", read, "due: event 1 w1[1], event 3 c1")
        self.assert_below("w1[1] r1[1:0] c1", "unexplained 2 1 1 0", read, "due: event 1 w1[1], event 3 c1")
        self.assert_below(
            "w1[1] w2[1] r2[1:1] a1",
            "bad-read 3 2 1 saw 1 due 2",
            "own write missed: event 3 r2[1:1]; transaction 2 starts after event 1",
            "saw: event 1 w1[1], event 4 a1",
            "due: event 2 w2[1]",
        )
        ranged = "own write missed: event 3 r1[0..9]; transaction 1 starts after event 0"
        self.assert_below("w1[5] w1[5] r1[0..9] c1", "bad-read 3 1 5 saw 0 due 1", ranged, "due: event 1 w1[5], event 4 c1")

    def test_aborted_read(self) -> None:
        read, saw = "aborted read: event 2 r2[1:1]; transaction 2 starts after event 1", "saw: event 1 w1[1], event 4 a1"
        self.assert_below("w1[1] r2[1:1] c2 a1", "bad-read 2 2 1 saw 1 due 0", read, saw)
        self.assert_below("w1[1] r2[1:1] c2 a1", "unexplained 2 2 1 1", read, saw)

    def test_uncommitted_read(self) -> None:
        read = "uncommitted read: event 2 r2[1:1]; transaction 2 starts after event 1"
        self.assert_below("w1[1] r2[1:1] c2", "bad-read 2 2 1 saw 1 due 0", read, "saw: event 1 w1[1]")

    def test_future_read(self) -> None:
        self.assert_below(
            "r1[1:0] w2[1] w2[2] c2 r1[2:2] c1",
            "bad-read 5 1 2 saw 2 due 0",
            "future read: event 5 r1[2:2]; transaction 1 starts after event 0",
            "saw: event 3 w2[2], event 4 c2",
        )
        # The version is committed right behind the start, and before the read's own transaction begins.
        self.assert_below(
            "w1[1] c1 b2@1 r2[1:1]",
            "bad-read 4 2 1 saw 1 due 0",
            "future read: event 4 r2[1:1]; transaction 2 starts after event 1",
            "saw: event 1 w1[1], event 2 c1",
        )

    def test_phantom(self) -> None:
        self.assert_below(
            "w1[12] w1[15] c1 r2[10..20;12:1] c2",
            "bad-read 4 2 15 saw 0 due 1",
            "phantom: event 4 r2[10..20]; transaction 2 starts after event 3",
            "due: event 2 w1[15], event 3 c1",
        )

    def test_stale_read(self) -> None:
        self.assert_below(
            "w1[1] c1 w2[1] c2 w3[1] c3 r4[1:2] c4",
            "bad-read 7 4 1 saw 2 due 3",
            "stale read: event 7 r4[1:2]; transaction 4 starts after event 6",
            "saw: event 3 w2[1], event 4 c2",
            "due: event 5 w3[1], event 6 c3",
        )
        # A key that is listed at version 0 is no phantom, and the other pair is left out.
        self.assert_below(
            "w1[5] w1[7] c1 r2[0..9;5:0,7:1] c2",
            "bad-read 4 2 5 saw 0 due 1",
            "stale read: event 4 r2[0..9;5:0]; transaction 2 starts after event 3",
            "due: event 1 w1[5], event 3 c1",
        )

    def test_the_table_of_the_page(self) -> None:
        rows = re.findall(r"^\| `([a-z ]+)` \| `([^`]+)` \| `([^|]+)` \|$", PAGE.read_text(), re.MULTILINE)
        self.assertEqual([name for name, _, _ in rows], list(explaining.NAMES))
        for name, text, reasons in rows:
            (line,) = (it for it in self.lines(text) if it.startswith("bad-read "))
            self.assertTrue(reasons.startswith(f"{name}: "))
            self.assert_below(text, line, *reasons.split("` <br> `"))

    def test_bad_write(self) -> None:
        self.assert_below(
            "r2[1:0] w1[1] w1[1] w2[1] c1 c2",
            "bad-write 1 1 2",
            "lost update: transaction 2 starts after event 0; event 1 r2[1:0]; event 2 w1[1], event 5 c1; event 4 w2[1], event 6 c2",
        )
        # 2 sees key 1 only when it has written it.
        self.assert_below(
            "w2[1] r2[1:0] w1[1] c1 c2",
            "bad-write 1 1 2",
            "write conflict: transaction 2 starts after event 0; event 3 w1[1], event 4 c1; event 1 w2[1], event 5 c2",
        )

    def test_counts(self) -> None:
        self.assert_below(
            "r2[1:0] r1[1:0] w1[1] w2[1] w3[1] c1 c2 c3 r4[1:0] c4",
            "isolation broken",
            "1 stale read, 1 lost update, 2 write conflict",
        )
        self.assert_below("r1[1:0] r2[2:0] w1[2] w2[1] c1 c2", "isolation kept")

    def test_steps(self) -> None:
        self.assert_below(
            "r1[1:0] r2[1:0] w1[1] w2[1] c1 c2",
            "cycle 1 >ww:1> 2 >rw:1> 1",
            "1 >ww:1> 2: event 3 w1[1], event 5 c1; event 4 w2[1], event 6 c2",
            "2 >rw:1> 1: event 2 r2[1:0]; event 3 w1[1], event 5 c1",
            explaining.FORBIDDEN,
        )
        self.assert_below(
            "r3[2:0] w1[1] w1[2] c1 w2[1] c2 r3[1:2] c3",
            "cycle 1 >wr:1> 3 >rw:2> 1",
            "1 >wr:1> 3: event 2 w1[1], event 4 c1; event 7 r3[1:2]; event 5 w2[1], event 6 c2",
            "3 >rw:2> 1: event 1 r3[2:0]; event 3 w1[2], event 4 c1",
            explaining.FORBIDDEN,
        )

    def test_the_first_sight_that_makes_the_edge(self) -> None:
        self.assert_below(
            "w1[1] c1 w2[1] c2 r3[1:2] r3[1:1] r3[1:1] c3",
            "cycle 2 >wr:1> 3 >rw:1> 2",
            "2 >wr:1> 3: event 3 w2[1], event 4 c2; event 5 r3[1:2]",
            "3 >rw:1> 2: event 6 r3[1:1]; event 1 w1[1], event 2 c1; event 3 w2[1], event 4 c2",
            explaining.FORBIDDEN,
        )
        # 2 sees of key 1 the version of 4, which aborts, then its own, and then that of 1; of key 2 that of 5, which stays open.
        self.assert_below(
            "w4[1] w5[2] r2[1:4] a4 r2[2:5] r2[2:0] w2[1] r2[1:2] w1[1] w1[2] r2[1:1] c1 c2",
            "cycle 1 >ww:1> 2 >rw:2> 1",
            "1 >ww:1> 2: event 9 w1[1], event 12 c1; event 7 w2[1], event 13 c2",
            "2 >rw:2> 1: event 6 r2[2:0]; event 10 w1[2], event 12 c1",
            explaining.FORBIDDEN,
        )

    def test_dangerous(self) -> None:
        text = "r1[1:0] r2[2:0] w2[1] w3[2]"
        lines = "1 >rw:1> 2: event 1 r1[1:0]; event 3 w2[1], event 6 c2", "2 >rw:2> 3: event 2 r2[2:0]; event 4 w3[2], event 5 c3"
        self.assert_below(f"{text} c3 c2 c1", "dangerous 1 >rw:1> 2 >rw:2> 3", *lines)
        kept = self.lines(f"{text} c3 c2 c1")
        self.assertEqual(kept[2:4], ["ssi fail", "dangerous 1 >rw:1> 2 >rw:2> 3"])
        self.assertEqual(kept[6:], ["serializable yes", "order 1 2 3"])
        # No such line where no T3 is first, nor where isolation was broken.
        for other in (f"{text} c1 c3 c2", "r1[1:0] r2[1:0] w1[1] w2[1] c1 c2"):
            self.assertFalse([it for it in self.lines(other) if it.startswith("dangerous")], other)

    def test_which_dangerous_structure(self) -> None:
        # 1 commits before 4 and so can't stand before it in a structure; 5 comes after 4. Keys 1 and 3 are the least ones.
        text = "r1[1:0] r5[1:0] r5[2:0] r3[3:0] r3[4:0] w3[1] w3[2] w4[4] w4[3] c1 c4 c3 c5"
        self.assert_below(
            text,
            "dangerous 5 >rw:1> 3 >rw:3> 4",
            "5 >rw:1> 3: event 2 r5[1:0]; event 6 w3[1], event 12 c3",
            "3 >rw:3> 4: event 4 r3[3:0]; event 9 w4[3], event 11 c4",
        )

    def assert_snapshots(self, text: str, *wanted: str) -> None:
        """Exactly these are the lines of snapshots, with what explains them; they stand before the line ssi. Both ways say which
        starts fit."""
        events = events_of(text)
        self.assertEqual(trying.account_of(events), taking.account_of(events))
        lines = self.lines(text)
        at = next(at for at, it in enumerate(lines) if it.startswith("ssi "))
        self.assertEqual(lines[at - len(wanted) : at], list(wanted))
        self.assertEqual(sum(it.startswith("snapshot ") for it in lines), sum(it.startswith("snapshot ") for it in wanted))

    def test_a_snapshot_before_the_start(self) -> None:
        self.assert_snapshots("w1[1] c1 w2[1] c2 w3[1] c3 r4[1:2] c4", "snapshot 4 from 4 to 5")
        self.assert_snapshots("w1[1] c1 r2[0..9] c2", "snapshot 2 from 0 to 1")
        # What it wrote asks for the commit of 2, and its read excludes that of 3.
        self.assert_snapshots("w2[1] c2 w3[2] c3 r1[2:0] w1[1] c1", "snapshot 1 from 2 to 3")
        self.assert_snapshots("w2[1] c2 w3[2] c3 r1[2:0] w1[1] a1", "snapshot 1 from 0 to 3")

    def test_a_snapshot_after_the_start(self) -> None:
        self.assert_snapshots("b1 w2[1] c2 r1[1:2] c1", "snapshot 1 from 3 to 3")
        self.assert_snapshots("b1 w2[1] c2 w1[1] c1", "snapshot 1 from 3 to 3")
        self.assert_snapshots("b1 w2[1] c2 w3[1] c3 b4 w1[2] r1[1:2] w1[1]", "snapshot 1 from 3 to 4")
        # What an open transaction wrote asks for nothing, and what it wrote itself no commit.
        self.assert_snapshots("b1 w2[1] c2 w1[1] r1[1:1]")
        self.assert_snapshots("b1@0 c1 w2[1] c2 b3@0 a3")

    def test_in_no_snapshot(self) -> None:
        self.assert_snapshots("w1[1] r1[1:0] c1", "snapshot 1 none", "  in no snapshot: event 2 r1[1:0]")
        self.assert_snapshots("w1[1] r2[1:1] c2 a1", "snapshot 2 none", "  in no snapshot: event 2 r2[1:1]")
        self.assert_snapshots("w1[1] r2[1:1] c2", "snapshot 2 none", "  in no snapshot: event 2 r2[1:1]")
        # A range has two such keys, and 3 reads the version of 1 that is no longer due before the one that is in no snapshot.
        self.assert_snapshots(
            "w1[5] w1[7] c1 w2[7] w2[5] r2[0..9;5:1,7:1]", "snapshot 2 none", "  in no snapshot: event 6 r2[0..9;5:1]"
        )
        self.assert_snapshots(
            "w1[1] c1 w2[1] c2 r3[1:1] w4[1] r3[1..2;1:4] c3", "snapshot 3 none", "  in no snapshot: event 7 r3[1..2;1:4]"
        )

    def test_no_snapshot_by_two_reads(self) -> None:
        both = "snapshot 3 none", "  not without event 6 c2: event 8 r3[2:2]", "  not with event 6 c2: event 7 r3[1:1]"
        self.assert_snapshots("w1[1] w1[2] c1 w2[1] w2[2] c2 r3[1:1] r3[2:2] c3", *both)
        # One event asks for the commit that it excludes. The last read says the same.
        both = "snapshot 3 none", "  not without event 3 c1: event 4 r3[1..2;1:1]", "  not with event 3 c1: event 4 r3[1..2]"
        self.assert_snapshots("w1[1] w1[2] c1 r3[1..2;1:1] r3[1:1] r3[2:0] c3", *both)
        both = "snapshot 1 none", "  not without event 3 c2: event 4 r1[1:2]", "  not after event 1 r1[2:0]"
        self.assert_snapshots("r1[2:0] w2[1] c2 r1[1:2] c1", *both)
        # It acts by a range, and excludes the commit of 2 only behind that.
        both = "snapshot 1 none", "  not without event 6 c2: event 8 r1[1:2]", "  not after event 3 r1[2..3]"
        self.assert_snapshots("w3[2] c3 r1[2..3;2:3] w2[4] w2[1] c2 r1[4:0] r1[1:2] c1", *both)

    def test_no_snapshot_by_a_write(self) -> None:
        both = "snapshot 1 none", "  not without event 4 c2: event 6 w1[1]", "  not with event 2 c3: event 5 r1[2:0]"
        self.assert_snapshots("w3[2] c3 w2[1] c2 r1[2:0] w1[1] w1[1] c1", *both)
        both = "snapshot 2 none", "  not without event 5 c1: event 4 w2[1]", "  not after event 2 r2[1:0]"
        self.assert_snapshots("r1[1:0] r2[1:0] w1[1] w2[1] c1 c2", *both)
        # A read that asks for the same commit comes before a write, and a later commit before both.
        both = "snapshot 2 none", "  not without event 4 c1: event 5 r2[2:1]", "  not after event 1 w2[1]"
        self.assert_snapshots("w2[1] w1[1] w1[2] c1 r2[2:1] c2", *both)
        both = "snapshot 2 none", "  not without event 6 c3: event 8 w2[3]", "  not after event 1 w2[1]"
        self.assert_snapshots("w2[1] w1[1] w1[2] c1 w3[3] c3 r2[2:1] w2[3] c2", *both)

    def test_fitting_starts_are_an_interval(self) -> None:
        for number in range(500):
            events = read(small.text_of(Random(f"interval {number}")))
            if not isinstance(events, Refusal):
                history = trying.History(events)
                for txn in history.txns:
                    fitting = history.fitting(txn)
                    self.assertEqual(fitting, list(range(min(fitting), max(fitting) + 1)) if fitting else [])

    def test_each_level_implies_the_weaker_ones(self) -> None:
        for number in range(500):
            events = read(small.text_of(Random(f"levels {number}")))
            if not isinstance(events, Refusal):
                account = taking.account_of(events)
                serializable, ssi, si, gsi = map(account.status, LEVELS)
                self.assertGreaterEqual(ssi, serializable)
                self.assertGreaterEqual(serializable, si)
                self.assertGreaterEqual(si, gsi)

    def test_what_small_texts_show(self) -> None:
        shown: Counter[str] = Counter()
        for number in range(4000):
            text = small.text_of(Random(f"small {number}"))
            events = read(text)
            case = Case(text, events, events if isinstance(events, Refusal) else taking.account_of(events))
            shown.update(set(shapes_of(case.explained)))
        self.assertEqual([it for it in REASONS if not shown[it]], [])


class Examples(unittest.TestCase):
    """The reports and the explained reports of the examples, which were written by hand."""

    def test_reports(self) -> None:
        texts = sorted(EXAMPLES.rglob("*.history"))
        self.assertGreaterEqual(len(texts), 21)
        for path in texts:
            text = path.read_bytes()
            events = read(text)
            case = Case(text, events, events if isinstance(events, Refusal) else taking.account_of(events))
            for suffix, form in ((".report", Form.FULL), (".explained", Form.EXPLAINED)):
                with self.subTest(path=path.name, form=form.name):
                    report, status = case.wanted(Line(1, [], form, SERIALIZABLE))
                    self.assertEqual(report, path.with_suffix(suffix).read_bytes())
                    kept = path.with_suffix(".status")
                    self.assertEqual(status, int(kept.read_text()) if kept.exists() else 0)

    def test_each_name_has_an_example(self) -> None:
        lines = [line for path in EXAMPLES.glob("*.explained") for line in path.read_text().splitlines()]
        for name in explaining.NAMES:
            self.assertTrue(any(it.startswith(f"  {name}: ") for it in lines), name)


class NarrowEdges(unittest.TestCase):
    """That narrow edges are edges and lead where all edges lead, on small texts."""

    def test_worked(self) -> None:
        # 3 looked at versions 0 and 2, and 4 at version 1. The version after 0 is 1, and the one after 1 is 2.
        history = trying.History(events_of("r3[1:0] w1[1] c1 r4[1:1] w2[1] c2 r3[1:2] c3 w4[1] c4"))
        edges = {(it.source, it.kind, it.target) for it in narrow.narrow_edges(history)}
        ww, wr, rw = {(1, WW, 2), (2, WW, 4)}, {(2, WR, 3), (1, WR, 4)}, {(3, RW, 1), (4, RW, 2)}
        self.assertEqual(edges, ww | wr | rw)

    def test_own_version_is_next(self) -> None:
        history = trying.History(events_of("r1[1..3] w1[2] c1 w2[2] c2"))
        self.assertEqual(narrow.narrow_edges(history), {Edge(1, 2, WW, 2)})
        self.assertEqual(set(history.edges()), {Edge(1, 2, WW, 2), Edge(1, 2, RW, 2)})

    def test_closure(self) -> None:
        left_out = 0
        for number in range(500):
            events = read(small.text_of(Random(f"narrow {number}")))
            if isinstance(events, Refusal):
                continue
            history = trying.History(events)
            few, edges = narrow.narrow_edges(history), set(history.edges())
            self.assertLessEqual(few, edges)
            self.assertEqual(narrow.closure(few), narrow.closure(edges))
            left_out += len(edges - few)
        self.assertGreater(left_out, 50)


class Sizes(unittest.TestCase):
    """That the kinds of larger texts reach what they are for."""

    def tables(self, kind: str, count: int = 6) -> list[Tables]:
        texts = [larger.KINDS[kind](Random(f"{kind} {number}")) for number in range(count)]
        return [Tables(events_of(" ".join(it))) for it in texts]

    def edges(self, kind: str, count: int) -> list[set[Edge]]:
        return [taking.edges(it) for it in self.tables(kind, count)]

    def test_many_transactions(self) -> None:
        for it in self.tables("crowd"):
            self.assertGreaterEqual(len(it.starts), 40)

    def test_many_versions(self) -> None:
        for it in self.tables("versions"):
            self.assertGreaterEqual(max(map(len, it.writes.values())), 15)

    def test_many_keys(self) -> None:
        counts = [len(it.keys) for it in self.tables("ranges")]
        self.assertGreaterEqual(min(counts), 64)
        self.assertGreaterEqual(max(counts), 4096)

    def test_many_edges(self) -> None:
        self.assertTrue(all(len(it) > 12_000 for it in self.edges("edges", 4)))
        self.assertTrue(all(len(it) > 131_072 for it in self.edges("most_edges", 2)))

    def test_long_cycles(self) -> None:
        for it in self.tables("rings"):
            cycle = taking.account_of([event for _, event in it.at]).cycle
            self.assertGreaterEqual(len(cycle), 20)


class Hard(unittest.TestCase):
    """That the formulas of the hard kinds give the reports, of small histories."""

    def test_reports(self) -> None:
        for name, make in (hard.KINDS | hard.OLD_SNAPSHOTS).items():
            with self.subTest(kind=name):
                case = make(505)
                events = events_of(case.text.decode())
                account = taking.account_of(events)
                self.assertEqual(account.report(brief=True), case.report)
                self.assertEqual(explaining.report(events, account), case.explained)
                self.assertEqual(account.status(), case.status)


if __name__ == "__main__":
    unittest.main()
