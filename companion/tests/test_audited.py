"""A log from its bytes to the auditor's report: what it is, and each way in which there is no verdict."""

from __future__ import annotations

import re
import tempfile
import unittest

from si_history.audited import Audited, Log, audited, log_of
from si_history.auditor import LEVELS, Auditor, Ending
from si_history.errors import BadInput
from si_history.log_kinds import LogKind, kind_of
from tests.fake_auditor import fake_auditor
from tests.support import NO_PROGRAM, PROGRAM, REPOSITORY
from tests.support import log_of as lines_of

EVENTS = lines_of([{"txn": "A", "op": "write", "key": "k"}, {"txn": "A", "op": "commit"}])
TRANSACTIONS = lines_of([{"txn": "A", "start": 1, "commit": 2, "aborted": False, "ops": [["w", "k"]]}])
REPORT = "events 2 committed 1 aborted 0 open 0\\nisolation kept\\nssi pass\\nserializable yes\\norder 1\\n"


class KindTest(unittest.TestCase):
    def test_kinds(self) -> None:
        for content, kind in (
            (b"w1[1] c1\n", LogKind.HISTORY), (b"\n \t b1@0\n", LogKind.HISTORY), (b"a1", LogKind.HISTORY),
            (EVENTS, LogKind.EVENTS), (b"\n " + EVENTS, LogKind.EVENTS), (TRANSACTIONS, LogKind.TRANSACTIONS),
            (b'{"values": "unique"}\n' + EVENTS, LogKind.EVENTS), (b"[{:process 0, :type :ok}]", LogKind.JEPSEN),
            (b"\n{ :index 0 }\n", LogKind.JEPSEN), (b"#jepsen.history.Op{:index 0}", LogKind.JEPSEN), (b"", None), (b" \n\t\r\n", None),
        ):
            with self.subTest(content=content):
                self.assertIs(kind_of(content), kind)

    def test_examples(self) -> None:
        for path in sorted(REPOSITORY.glob("examples/**/*.history")):
            self.assertIs(kind_of(path.read_bytes()), LogKind.HISTORY, path.name)
        for kind in (LogKind.EVENTS, LogKind.TRANSACTIONS):
            paths = sorted(REPOSITORY.glob(f"examples/**/*.{kind.value}.jsonl"))
            self.assertGreater(len(paths), 1)
            for path in paths:
                self.assertIs(kind_of(path.read_bytes()), kind, path.name)

    def test_others(self) -> None:
        for content in (b"hello\n", b"[]\n", b"{}\n{}\n", b"{", b"\xff", b"[" * 100_000, b"!incomplete\n", b"-- SQL\n", b"bc1\n"):
            with self.subTest(content=content[:20]), self.assertRaisesRegex(BadInput, "--as tells what it is$"):
                kind_of(content)


class LogTest(unittest.TestCase):
    def refused(self, said: str, content: bytes, kind: LogKind | None = None) -> None:
        with self.assertRaises(BadInput) as caught:
            log_of(content, "run", kind)
        self.assertEqual(str(caught.exception), said)

    def test_histories(self) -> None:
        self.assertEqual(log_of(b"w1[1]\r\nc1 ", "run"), Log("run", LogKind.HISTORY, b"w1[1]\r\nc1 "))
        self.assertEqual(log_of(EVENTS, "run").history, b"w1[0]\nc1\n")
        self.assertEqual(log_of(TRANSACTIONS, "run").history, b"b1@0\nw1[0]\nc1\n")
        self.assertEqual(log_of(b"", "run").history, b"")

    def test_names(self) -> None:
        names = log_of(TRANSACTIONS, "run").names
        self.assertEqual((names.transaction(1), names.key(0), names.line(3)), ("A", "k", 1))
        self.assertEqual(log_of(b"w7[9]\n", "run").names.transaction(7), "7")

    def test_a_kind_that_is_told(self) -> None:
        self.refused("run: line 1: not JSON: Expecting value at column 1", b"w1[1]\n", LogKind.EVENTS)
        self.refused('run: line 1: the field "start" is missing', EVENTS, LogKind.TRANSACTIONS)
        self.assertEqual(log_of(EVENTS, "run", LogKind.HISTORY).history, EVENTS)

    def test_ends_in_the_middle_of_a_line(self) -> None:
        cut = " (the log ends in the middle of this line)"
        words = "run: it ends in the middle of a line; where that line is whole, put a line's end behind it"
        self.refused(words, b"w1[1]\nc1")
        self.refused(words, b"w12[3] r1")
        for content in (EVENTS[:-3], TRANSACTIONS[:-9]):
            with self.assertRaisesRegex(BadInput, "^run: line [12]: not JSON: .*" + re.escape(cut)):
                log_of(content, "run")
        self.refused(f'run: line 3: the field "txn" is missing{cut}', EVENTS + b"{}")
        self.refused('run: line 3: the field "txn" is missing', EVENTS + b"{}\n")
        self.assertEqual(log_of(EVENTS[:-1], "run").history, b"w1[0]\nc1\n")


class FakeTest(unittest.TestCase):
    """What an auditor says that doesn't go together is a fault, and no verdict."""

    def audited(self, body: str, content: bytes = b"w1[1]\nc1\n", takes_nothing: bool = False) -> Audited:
        with tempfile.TemporaryDirectory() as directory:
            return audited(log_of(content, "run"), Auditor.found(fake_auditor(directory, body)), "si", takes_nothing)

    def ends(self, body: str, status: int, problem: str | None, content: bytes = b"w1[1]\nc1\n") -> None:
        found = self.audited(body, content)
        self.assertEqual((found.status, found.problem, found.has_verdict), (status, problem, status < 2))

    def test_verdicts(self) -> None:
        self.ends(f"printf '{REPORT}'", 0, None)
        self.ends(f"printf '{REPORT.replace('kept', 'broken').replace('pass', 'fail')}'; exit 1", 1, None)

    def test_a_report_and_a_status_that_differ(self) -> None:
        self.ends(f"printf '{REPORT}'; exit 1", 4, "the auditor's status is 1, and its report says otherwise")
        self.ends(f"printf '{REPORT.replace('kept', 'broken')}'", 4, "the auditor's status is 0, and its report says otherwise")

    def test_a_report_of_another_history(self) -> None:
        self.ends(
            f"printf '{REPORT.replace('events 2', 'events 3')}'", 4,
            "the auditor made a report that can't be used: the history is not the one of the report: it has 2 events and"
            " 1 committed, 0 aborted, 0 open transactions, and the report 3 events and 1 committed, 0 aborted, 0 open transactions",
        )

    def test_a_report_whose_events_are_others(self) -> None:
        """Its counts are those of the history, and what it says of an event is not so."""
        broken = REPORT.replace("kept\\n", "broken\\nbad-write 1 1 2\\n").replace("pass", "fail").replace("2 committed 1", "4 committed 2")
        content = b"b1@0 w1[1] c1 c2\n"
        self.ends(
            f"printf '{broken.replace('order 1', 'order 1 2')}'; exit 1", 4,
            "the auditor made a report that can't be used: the history is not the one of the report: transaction 2 doesn't write key 1",
            content,
        )

    def test_a_report_that_is_cut(self) -> None:
        self.ends(
            "echo 'events 2 committed 1 aborted 0 open 0'", 4,
            "the auditor made a report that can't be used: the auditor's report: line 1: this is no report:"
            " it ends before its line 'isolation ..'",
        )

    def test_no_report(self) -> None:
        self.ends("exit 0", 4, "the auditor ended with status 0 and no report")
        self.ends("kill -9 $$", 4, "the auditor was ended by the signal SIGKILL, as a system does where memory runs out")
        self.ends("exit 2", 2, "the auditor refused its arguments, so it is too old or too new")

    def test_nothing(self) -> None:
        for content, report, problem in (
            (b"", REPORT.replace("events 2 committed 1", "events 0 committed 0").replace("order 1", "order"), "it has no event"),
            (b"w1[1]\na1\n", REPORT.replace("committed 1 aborted 0", "committed 0 aborted 1").replace("order 1", "order"),
             "no transaction committed"),
        ):
            self.ends(f"printf '{report}'", 5, f"nothing to audit: {problem}", content)
            self.assertEqual(self.audited(f"printf '{report}'", content, True).status, 0)


@unittest.skipUnless(PROGRAM.exists(), NO_PROGRAM)
class ProgramTest(unittest.TestCase):
    def test_examples(self) -> None:
        """Each log and history of the examples has the status beside it, and its levels go together."""
        auditor = Auditor.found(str(PROGRAM))
        logs = [*REPOSITORY.glob("examples/**/*.jsonl"), *REPOSITORY.glob("examples/**/*.history")]
        self.assertGreater(len(logs), 20)
        for path in logs:
            base = path.with_name(path.name.split(".")[0])
            wanted = int(base.with_suffix(".status").read_text()) if base.with_suffix(".status").exists() else 0
            with self.subTest(path=path.name):
                log = log_of(path.read_bytes(), path.name)
                by_level = {level: audited(log, auditor, level) for level in LEVELS}
                self.assertEqual(by_level["serializable"].status, wanted)
                self.assertLessEqual(by_level["si"].status, wanted)

    def test_a_refusal(self) -> None:
        log = log_of(b"w1[1]\nr2[cl:1]\n", "run")
        found = audited(log, Auditor.found(str(PROGRAM)), "si")
        self.assertEqual((found.status, found.outcome.ending), (3, Ending.REFUSAL))
        self.assertEqual(
            found.problem,
            "the auditor refused the history and made no report (at event 2, in line 2 from column 1: bad event: r2[cl:1])",
        )

    def test_nothing(self) -> None:
        auditor = Auditor.found(str(PROGRAM))
        for content in (b"", b"\n", b"w1[1] a1\n", b"w1[1]\n", b"b1\n"):
            for takes_nothing, status in ((False, 5), (True, 0)):
                with self.subTest(content=content, takes_nothing=takes_nothing):
                    self.assertEqual(audited(log_of(content, "run"), auditor, "serializable", takes_nothing).status, status)


if __name__ == "__main__":
    unittest.main()
