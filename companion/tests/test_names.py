"""Names: a report comes out with the log's names and lines, and none of them can be misread."""

from __future__ import annotations

import json
import re
import tempfile
import unittest
from pathlib import Path

from si_history.errors import BadInput
from si_history.legend import Legend
from si_history.names import named_line
from si_history.named_reasons import told
from si_history.naming import Names, shown
from si_history.reasons import is_class, is_counts, reason_of
from tests.pages import LOST_UPDATE_HISTORY
from tests.support import REPOSITORY, run_command
from tests.test_report import LOST_UPDATE

LEGEND = Legend({1: "T7", 2: "7f3a", 3: "late one", 4: "out"}, {1: "acct/5", 2: 'a"b'}, [11, 12, 13, 14, 15, 16])

STALE_HISTORY = "w1[2] w3[1] c3 a1 r4[1..2;1:0] r4[2:1]"
STALE = """\
events 6 committed 1 aborted 1 open 1
isolation broken
bad-read 5 4 1 saw 0 due 3
  stale read: event 5 r4[1..2;1:0]; transaction 4 starts after event 4
  due: event 2 w3[1], event 3 c3
unexplained 6 4 2 1
  aborted read: event 6 r4[2:1]; transaction 4 starts after event 4
  saw: event 1 w1[2], event 4 a1
ssi fail
serializable no
order 3
"""

NAMED_STALE = """\
events 6 committed 1 aborted 1 open 1
isolation broken
bad-read line 15 "out" acct/5 saw 0 due "late one"
  stale read: event 5 (line 15) "out" read acct/5 to "a\\"b" and saw the initial version of acct/5; transaction "out" starts after event 4 (line 14)
  due: event 2 (line 12) "late one" wrote acct/5, event 3 (line 13) "late one" committed
unexplained line 16 "out" "a\\"b" T7
  aborted read: event 6 (line 16) "out" read "a\\"b" and saw T7's version; transaction "out" starts after event 4 (line 14)
  saw: event 1 (line 11) T7 wrote "a\\"b", event 4 (line 14) T7 aborted
ssi fail
serializable no
order "late one"
"""

NAMED_LOST_UPDATE = """\
events 6 committed 2 aborted 0 open 0
isolation broken
bad-write acct/5 T7 7f3a
edge T7 ww 7f3a acct/5
edge T7 rw 7f3a acct/5
edge 7f3a rw T7 acct/5
pivot T7 in 7f3a out 7f3a
pivot 7f3a in T7 out T7 first T7
ssi fail
serializable no
cycle T7 >ww:acct/5> 7f3a >rw:acct/5> T7
"""


class ShownTest(unittest.TestCase):
    def test_plain_names_stand_as_they_are(self) -> None:
        for name in ("T7", "acct/5", "7f3a-b", "a:b", "счёт", "口座", "00", "a'b", "&amp;"):
            with self.subTest(name=name):
                self.assertEqual(shown(name), name)

    def test_names_that_could_be_misread_are_json(self) -> None:
        for name, wanted in (
            ("", '""'), ("0", '"0"'), ("in", '"in"'), ("first", '"first"'), ("line", '"line"'), ("a b", '"a b"'),
            ('a"b', '"a\\"b"'), ("a\\n", '"a\\\\n"'), ("a\nb", '"a\\nb"'), ("<b>", '"<b>"'), (">ww:1>", '">ww:1>"'),
            ("\u202eabc", '"\\u202eabc"'), ("\ud800", '"\\ud800"'), ("\u2028", '"\\u2028"'), ("\x00", '"\\u0000"'),
        ):
            with self.subTest(wanted=wanted):
                self.assertEqual(shown(name), wanted)
                self.assertEqual(json.loads(wanted), name)
                self.assertTrue(wanted.isprintable())


def without_words(named: str) -> str:
    """A line with names such as T7 and K5, as the report has it: its sentences are tokens again, and its names numbers."""
    for sentence, token in (
        (r"T(\d+) read K(\d+) to K(\d+) and saw the initial version of K(\d+)", r"r\1[\2..\3;\4:0]"),
        (r"T(\d+) read K(\d+) to K(\d+) and saw T(\d+)'s version of K(\d+)", r"r\1[\2..\3;\5:\4]"),
        (r"T(\d+) read K(\d+) to K(\d+)", r"r\1[\2..\3]"), (r"T(\d+) read K(\d+) and saw the initial version", r"r\1[\2:0]"),
        (r"T(\d+) read K(\d+) and saw T(\d+)'s version", r"r\1[\2:\3]"), (r"T(\d+) wrote K(\d+)", r"w\1[\2]"),
        (r"T(\d+) committed", r"c\1"), (r"T(\d+) aborted", r"a\1"), (r"[TK](?=\d)", ""),
    ):
        named = re.sub(sentence, token, named)
    return named


class LineTest(unittest.TestCase):
    def test_a_step_and_its_reason(self) -> None:
        names = Names(LEGEND)
        self.assertEqual(
            named_line("dangerous 1 >rw:2> 3 >rw:1> 2", names), 'dangerous T7 >rw:"a\\"b"> "late one" >rw:acct/5> 7f3a'
        )
        reason = reason_of("1 >wr:1> 3: event 2 w1[1], event 4 c1; event 6 r3[1:2]; event 3 w2[1], event 5 c2")
        self.assertEqual(told(reason, names), (
            'T7 >wr:acct/5> "late one": event 2 (line 12) T7 wrote acct/5, event 4 (line 14) T7 committed; event 6 (line 16)'
            ' "late one" read acct/5 and saw 7f3a\'s version; event 3 (line 13) 7f3a wrote acct/5, event 5 (line 15) 7f3a committed'
        ))

    def test_names_with_the_signs_of_events(self) -> None:
        """Where names stand within events, those are JSON that hold a sign of an event."""
        names = Names(Legend({1: "a:b", 2: "x;y", 3: "f(1)"}, {1: "t[1]", 2: "1..2", 3: "a,b"}, [7, 8, 9]))
        for line, wanted in (
            ("saw: event 2 w1[1]", 'saw: event 2 (line 8) "a:b" wrote "t[1]"'),
            ("saw: event 1 w2[2], event 3 a2", 'saw: event 1 (line 7) "x;y" wrote "1..2", event 3 (line 9) "x;y" aborted'),
            (
                "phantom: event 3 r3[1..2]; transaction 3 starts after event 2",
                'phantom: event 3 (line 9) "f(1)" read "t[1]" to "1..2"; transaction "f(1)" starts after event 2 (line 8)',
            ),
            ("2 >rw:3> 1: event 1 r2[3:0]; event 2 w1[3], event 3 c1",
             '"x;y" >rw:"a,b"> "a:b": event 1 (line 7) "x;y" read "a,b" and saw the initial version; event 2 (line 8) "a:b" wrote "a,b",'
             ' event 3 (line 9) "a:b" committed'),
        ):
            with self.subTest(line=line):
                self.assertEqual(told(reason_of(line), names), wanted)

    def test_nothing_of_an_explained_example_is_lost(self) -> None:
        """Without a legend each line is as it was, and with names it is so when the names are taken away again."""
        paths = [path for path in sorted(REPOSITORY.glob("examples/**/*.explained")) if not path.stem.startswith("refused")]
        self.assertGreater(len(paths), 18)
        numbers = range(1, 100)
        legend = Legend({n: f"T{n}" for n in numbers}, {n: f"K{n}" for n in range(100)}, list(numbers))
        for path in paths:
            for line in path.read_text().splitlines():
                if not line.startswith("  ") or is_counts(line[2:]) or is_class(line[2:]):
                    continue
                with self.subTest(path=path.name, line=line):
                    reason = reason_of(line[2:])
                    self.assertEqual(told(reason, Names()), line[2:])
                    named = told(reason, Names(legend))
                    self.assertNotIn(named, line)
                    self.assertEqual(without_words(re.sub(r" \(line [0-9]+\)", "", named)), line[2:])

    def test_names_that_are_missing(self) -> None:
        for line, said in (
            ("edge 1 ww 9 1", "the legend has no name for transaction 9"), ("edge 1 ww 2 7", "the legend has no name for key 7"),
            ("bad-read 7 1 1 saw 2 due 0", "the legend has no line for event 7"), ("order 1 2 9", "the legend has no name for transaction 9"),
            ("cycle 1 >ww:8> 2 >rw:1> 1", "the legend has no name for key 8"),
            ("dangerous 1 >rw:1> 7 >rw:1> 2", "the legend has no name for transaction 7"),
        ):
            with self.subTest(line=line), self.assertRaisesRegex(BadInput, f"^{said}$"):
                named_line(line, Names(LEGEND))
        for line, said in (
            ("saw: event 7 w1[1]", "the legend has no line for event 7"), ("saw: event 6 w9[1]", "the legend has no name for transaction 9"),
            ("due: event 6 w1[3]", "the legend has no name for key 3"),
        ):
            with self.subTest(line=line), self.assertRaisesRegex(BadInput, f"^{said}$"):
                told(reason_of(line), Names(LEGEND))


class CommandTest(unittest.TestCase):
    def run_names(self, report: str, legend: str | None = None, history: str = LOST_UPDATE_HISTORY) -> tuple[int, str, str]:
        """The status and both outputs of the command."""
        with tempfile.TemporaryDirectory() as directory:
            path, of = Path(directory) / "L", Path(directory) / "H"
            of.write_text(history)
            path.write_text(LEGEND.to_json(history.encode()) if legend is None else legend)
            done = run_command("names", "--legend", str(path), "--history", str(of), given=report.encode())
            return done.returncode, done.stdout.decode(), done.stderr.decode().replace(f"{directory}/", "")

    def test_reports_with_names(self) -> None:
        self.assertEqual(self.run_names(LOST_UPDATE), (0, NAMED_LOST_UPDATE, ""))
        self.assertEqual(self.run_names(STALE, history=STALE_HISTORY), (0, NAMED_STALE, ""))

    def test_bad_input(self) -> None:
        lacking = Legend({1: "T7"}, LEGEND.keys, LEGEND.events).to_json(LOST_UPDATE_HISTORY.encode())
        prefix = "si-history: standard input: "
        self.assertEqual(self.run_names(STALE.replace("stale read", "stale  read"), history=STALE_HISTORY), (
            2, "", prefix + "line 4: this is no report: no report explains a finding by the line 'stale  read: event 5 r4[1..2;1:0]; trans..'\n",
        ))
        for report, legend, said in (
            ("w1[1] c1\n", None, prefix + "line 1: this is no report: no line of a report starts with 'w1[1]'\n"),
            ("refused: token 2: bad list\n", None, prefix + "the auditor refused the history and made no report (at event 2: bad list)\n"),
            (LOST_UPDATE.replace("rw 1 1", "rw 1"), None, prefix + "line 6: this is no report: 'edge T KIND U KEY' is wanted\n"),
            (LOST_UPDATE, lacking, "si-history: the legend has no name for transaction 2\n"),
            (LOST_UPDATE, "{", "si-history: L: the legend is not JSON\n"),
        ):
            with self.subTest(said=said):
                self.assertEqual(self.run_names(report, legend), (2, "", said))

    def test_what_is_not_known(self) -> None:
        """Of a line that a later auditor may write, the events and the transactions have names, and the rest is as it was."""
        at = STALE.index("unexplained")
        later = "  intermediate read: event 5 r4[1..2;1:0], 17 of transaction 3; event 3 c3; after event 4\n"
        named = (
            '  intermediate read: event 5 (line 15) "out" read acct/5 to "a\\"b" and saw the initial version of acct/5, 17 of transaction'
            ' "late one"; event 3 (line 13) "late one" committed; after event 4 (line 14)\n'
        )
        snapshot = 'snapshot 4 from 0 to 2\n  fits not: event 3 c3, event 5 r4[1..2;1:0]\n'
        named_snapshot = (
            'snapshot "out" from event 0 to event 2 (line 12)\n  fits not: event 3 (line 13) "late one" committed,'
            ' event 5 (line 15) "out" read acct/5 to "a\\"b" and saw the initial version of acct/5\n'
        )
        at_ssi, named_at = STALE.index("ssi fail"), NAMED_STALE.index("unexplained")
        report = STALE[:at] + later + STALE[at:at_ssi] + snapshot + STALE[at_ssi:]
        wanted = NAMED_STALE[:named_at] + named + NAMED_STALE[named_at:].replace("ssi fail\n", named_snapshot + "ssi fail\n")
        self.assertEqual(self.run_names(report, history=STALE_HISTORY), (0, wanted, ""))

    def test_snapshots(self) -> None:
        """Which snapshots fit, and why none does: events in words, and where in the log they are."""
        range_read = '"out" read acct/5 to "a\\"b"'
        for below, wanted in (
            ("snapshot 4 from 0 to 2\n", 'snapshot "out" from event 0 to event 2 (line 12)\n'),
            ("snapshot 4 none\n  in no snapshot: event 6 r4[2:1]\n",
             'snapshot "out" none\n  in no snapshot: event 6 (line 16) "out" read "a\\"b" and saw T7\'s version\n'),
            ("snapshot 4 none\n  not without event 3 c3: event 6 r4[2:1]\n  not with event 3 c3: event 5 r4[1..2;1:0]\n",
             'snapshot "out" none\n  not without event 3 (line 13) "late one" committed: event 6 (line 16) "out" read "a\\"b" and saw T7\'s version\n'
             '  not with event 3 (line 13) "late one" committed: '
             f'event 5 (line 15) {range_read} and saw the initial version of acct/5\n'),
            ("snapshot 4 none\n  not without event 3 c3: event 6 r4[2:1]\n  not after event 5 r4[1..2]\n",
             'snapshot "out" none\n  not without event 3 (line 13) "late one" committed: event 6 (line 16) "out" read "a\\"b" and saw T7\'s version\n'
             f'  not after event 5 (line 15) {range_read}\n'),
        ):
            with self.subTest(below=below):
                report, named = STALE.replace("ssi fail\n", below + "ssi fail\n"), NAMED_STALE.replace("ssi fail\n", wanted + "ssi fail\n")
                self.assertEqual(self.run_names(report, history=STALE_HISTORY), (0, named, ""))

    def test_a_legend_of_another_history(self) -> None:
        said = "si-history: H: the legend is of another history: it was not written with this text\n"
        for other in ("r1[1:0] r2[1:0] w1[1] w2[1] c2 c1", LOST_UPDATE_HISTORY + "\n"):
            self.assertEqual(self.run_names(LOST_UPDATE, LEGEND.to_json(other.encode())), (2, "", said))

    def test_a_report_of_another_history(self) -> None:
        """A report whose history is another one is refused, also where both have as many events and transactions."""
        for report, history, why in (
            (LOST_UPDATE, STALE_HISTORY, "it has 6 events and 1 committed, 1 aborted, 1 open transactions, and the report 6 events"
             " and 2 committed, 0 aborted, 0 open transactions"),
            (LOST_UPDATE, "r1[1:0] r2[1:0] w1[1] w2[2] c1 c2", "transaction 2 doesn't write key 1"),
            (STALE, STALE_HISTORY.replace("1:0]", "1:3]"), "at event 5 transaction 4 doesn't see version 0 of key 1"),
            (STALE, STALE_HISTORY.replace("w3[1] c3 a1", "c3 w1[1] a1"), "event 2 is c3, and in the report w3[1]"),
            (STALE.replace("2:1", "2:1"), "b4@3 w1[2] w3[1] c3 a1 r4[2:1]", "at event 5 transaction 4 doesn't see version 0 of key 1"),
            (STALE.replace("starts after event 4\n  due", "starts after event 3\n  due"), STALE_HISTORY,
             "transaction 4 does not start after event 3"),
            (STALE.replace("[1..2;1:0]", "[1..3;1:0]"), STALE_HISTORY, "event 5 is r4[1..2;1:0], and in the report r4[1..3;1:0]"),
        ):
            with self.subTest(why=why):
                said = f"si-history: H: the history is not the one of the report: {why}\n"
                self.assertEqual(self.run_names(report, history=history), (2, "", said))

    def test_one_standard_input_for_two(self) -> None:
        done = run_command("names", "--legend", "-", "--history", "nosuch", given=LOST_UPDATE.encode())
        self.assertEqual((done.returncode, done.stdout, done.stderr.count(b"\n")), (2, b"", 1))


if __name__ == "__main__":
    unittest.main()
