"""What an audit is told in: the text for people, the JSON of docs/audit.schema.json, and JUnit's XML."""

from __future__ import annotations

import json
import tempfile
import unittest
from collections.abc import Iterator
from pathlib import Path
from typing import Any
from xml.etree import ElementTree

from si_history.account import account_of
from si_history.audit_json import json_of_audit, json_of_fault
from si_history.audit_junit import junit_of_audit, junit_of_fault
from si_history.audit_text import Style, text_of_audit
from si_history.audited import Audited, audited, log_of
from si_history.auditor import LEVELS, Auditor
from tests.fake_auditor import fake_auditor
from tests.json_schema import Schema
from tests.support import NO_PROGRAM, PROGRAM, REPOSITORY
from tests.support import log_of as lines_of

SCHEMA = Schema(json.loads((REPOSITORY / "docs" / "audit.schema.json").read_text()))
SHOP = REPOSITORY / "examples" / "logs" / "shop.transactions.jsonl"
EXPLAINED = REPOSITORY / "examples" / "logs" / "shop.explained"

SHOP_TEXT = """\
shop falls short of snapshot isolation (level si): isolation was broken.

  23 events; transactions: 4 committed, 1 aborted, 1 without an end
  isolation broken, ssi fail, serializable yes
  1 future read

1. Future read: order-1 read stock/tea and saw order-2's version, where load's version was due.
   No snapshot would fit order-1.
   It would have to have the commit of order-2 at event 20 (line 3 of the log): its read at event 13 (line 2 of the log) asks for that.
   It would have to be taken before its read at event 9 (line 2 of the log), the first thing that it did.
   load     started                                   line 1, timestamp 100
   load     wrote stock/tea                           line 1, operation 2, event 3
   load     committed                                 line 1, timestamp 101, event 4
   order-1  started                                   line 2, timestamp 105
   order-2  started                                   line 3, timestamp 110
   order-2  wrote stock/tea                           line 3, operation 2, event 12
   order-1  read stock/tea and saw order-2's version  line 2, operation 2, event 13
   order-1  committed                                 line 2, timestamp 120, event 15
   order-2  committed                                 line 3, timestamp 130, event 20
"""

# Each of 30 transactions reads the initial version of the key, which the one before it wrote and committed.
MANY = b"".join(b"b%d@%d r%d[1:0] w%d[1] c%d\n" % (n, 0, n, n, n) for n in range(1, 31))
SKEW = b"b1 b2 r1[1:0] r2[2:0] w1[2] w2[1] c1 c2\n"


def by_report(report: str, status: int, content: bytes, level: str = "si") -> Audited:
    """A log that was audited by an auditor that gives this report."""
    with tempfile.TemporaryDirectory() as directory:
        path = Path(directory) / "report"
        path.write_text(report)
        program = fake_auditor(directory, f"cat '{path}'; exit {status}")
        return audited(log_of(content, "shop"), Auditor.found(program), level)


def shop(level: str = "si") -> Audited:
    return by_report(EXPLAINED.read_text(), 1, SHOP.read_bytes(), level)


def by_program(content: bytes, level: str = "si", source: str = "run") -> Audited:
    return audited(log_of(content, source), Auditor.found(str(PROGRAM)), level)


class TextTest(unittest.TestCase):
    def test_the_shop(self) -> None:
        one = shop()
        self.assertEqual(text_of_audit(one, account_of(one, 20), Style()), SHOP_TEXT)

    def test_colours(self) -> None:
        """Without its colours the text is the plain one."""
        one = shop()
        coloured = text_of_audit(one, account_of(one, 20), Style(True))
        self.assertIn("\x1b[1;31mfalls short of\x1b[0m", coloured)
        for code in ("1;31", "1", "2", "0"):
            coloured = coloured.replace(f"\x1b[{code}m", "")
        self.assertEqual(coloured, SHOP_TEXT)

    @unittest.skipUnless(PROGRAM.exists(), NO_PROGRAM)
    def test_the_first_ones_and_how_many_more(self) -> None:
        """Of 30 transactions that each overlap all others any two give a bad write: 435, and the cycle."""
        one = by_program(MANY)
        for most, told, more in ((20, 20, "And 416 findings more: --all tells them all.\n"), (None, 436, "")):
            text = text_of_audit(one, account_of(one, most), Style())
            self.assertIn("\n  435 bad writes, 1 cycle\n", text)
            self.assertEqual(sum(line.split(".")[0].isdigit() for line in text.splitlines()), told)
            self.assertEqual(text.endswith(more), True)
            self.assertEqual("more: --all" in text, most is not None)

    @unittest.skipUnless(PROGRAM.exists(), NO_PROGRAM)
    def test_what_the_level_does_not_ask_for_comes_last(self) -> None:
        """Write skew keeps snapshot isolation: its cycle and its dangerous structure stand apart."""
        for level, apart, before in (("si", 1, 0), ("serializable", 1, 1), ("ssi", 0, 2)):
            one = by_program(SKEW, level)
            text = text_of_audit(one, account_of(one, 20), Style())
            heading = f"Also found, for which level {level} does not ask:"
            front = text.partition(heading)[0]
            with self.subTest(level=level):
                self.assertEqual((text.count(heading), sum(line[:2] in ("1.", "2.") for line in front.splitlines())), (apart, before))

    @unittest.skipUnless(PROGRAM.exists(), NO_PROGRAM)
    def test_no_finding(self) -> None:
        one = by_program(b"w1[1] c1\n")
        self.assertEqual(text_of_audit(one, account_of(one, 20), Style()), (
            "run meets snapshot isolation (level si): isolation was kept.\n\n  2 events; transactions: 1 committed, 0 aborted,"
            " 0 without an end\n  isolation kept, ssi pass, serializable yes\n  no finding\n"
        ))

    @unittest.skipUnless(PROGRAM.exists(), NO_PROGRAM)
    def test_names_that_upset_a_terminal(self) -> None:
        lines = lines_of([{"txn": "\x1b[31m", "op": "write", "key": "\r\n"}, {"txn": "B", "op": "read", "key": "\r\n", "saw": "\x1b[31m"},
                          {"txn": "B", "op": "commit"}])
        one = by_program(lines, source="a\x1b]b")
        text = text_of_audit(one, account_of(one, 20), Style())
        self.assertFalse(set(text) & set("\x1b\r"))
        self.assertIn("uncommitted read", text)

    @unittest.skipUnless(PROGRAM.exists(), NO_PROGRAM)
    def test_what_else_the_log_says(self) -> None:
        """Fields beside events, such as a clock's times, stand beside what happened; of a start those of its begin."""
        lines = lines_of([
            {"txn": "A", "op": "write", "key": "k", "time": "10:01", "session": 3}, {"txn": "A", "op": "commit", "time": "10:02"},
            {"txn": "B", "op": "begin", "time": "10:03"}, {"txn": "B", "op": "read", "key": "k", "saw": None, "time": "10:04", "by": {}},
            {"txn": "B", "op": "commit", "time": "10:05"},
        ])
        one = by_program(lines)
        self.assertEqual(text_of_audit(one, account_of(one, 20), Style()).partition("was due.\n")[2], (
            "   A snapshot that was taken from before all events to after event 1 (line 1 of the log) would fit B.\n"
            "   A  started                             line 1\n"
            "   A  wrote k                             line 1, time 10:01, session 3\n"
            "   A  committed                           line 2, time 10:02\n"
            "   B  started                             line 3, time 10:03\n"
            "   B  read k and saw the initial version  line 4, time 10:04\n"
            "   B  committed                           line 5, time 10:05\n"
        ))

    def test_what_else_the_report_says(self) -> None:
        """A report of a later auditor: a name that is not known, and a snapshot that fits."""
        report = EXPLAINED.read_text().replace("  future read: ", "  early read: ")
        torn = report[report.index("snapshot 2 none"):report.index("ssi fail")]
        report = report.replace(torn, "snapshot 2 from 20 to 22\n")
        one = by_report(report, 1, SHOP.read_bytes())
        text = text_of_audit(one, account_of(one, 20), Style())
        self.assertIn("\n  1 early read\n", text)
        self.assertIn("\n   A snapshot that was taken from after event 20 (line 3 of the log) to after event 22 (line 6 of the log) would fit", text)
        made = json_of(one)
        finding = made["findings"][0]
        self.assertEqual((SCHEMA.faults(made), made["counts"], finding["name"]), ([], {"early read": 1}, "early read"))
        self.assertEqual(finding["snapshot"], {"transaction": "order-1", "from": 20, "to": 22})
        self.assertEqual((finding["breaks"], made["levels"]["gsi"]), (["si", "ssi", "serializable"], True))

    def test_the_level_gsi(self) -> None:
        """It is told by the lines of snapshots alone, and has to go with the auditor's status."""
        report = EXPLAINED.read_text()
        torn = report[report.index("snapshot 2 none"):report.index("ssi fail")]
        fitting = report.replace(torn, "snapshot 2 from 20 to 22\n")
        for text, status, front, apart in (
            (report, 1, "shop falls short of generalized snapshot isolation (level gsi): no snapshot fits 1 transaction.\n", 0),
            (fitting, 0, "shop meets generalized snapshot isolation (level gsi): each transaction has a snapshot that fits it.\n", 1),
        ):
            one = by_report(text, status, SHOP.read_bytes(), "gsi")
            told = text_of_audit(one, account_of(one, 20), Style())
            self.assertTrue(told.startswith(front), told)
            self.assertEqual(told.count("Also found, for which level gsi does not ask:"), apart)
        for text, status in ((report, 0), (fitting, 1), (report.replace(torn, ""), 0)):
            one = by_report(text, status, SHOP.read_bytes(), "gsi")
            self.assertEqual((one.status, one.problem), (4, f"the auditor's status is {status}, and its report says otherwise"))

    def test_an_auditor_that_tells_no_snapshots(self) -> None:
        """Of gsi the report of an earlier auditor tells nothing, where isolation was broken."""
        report = EXPLAINED.read_text()
        torn = report[report.index("snapshot 2 none"):report.index("ssi fail")]
        one = by_report(report.replace(torn, ""), 1, SHOP.read_bytes())
        made = json_of(one)
        self.assertEqual((SCHEMA.faults(made), made["levels"]), ([], {"gsi": None, "si": False, "ssi": False, "serializable": False}))
        self.assertIsNone(made["findings"][0]["snapshot"])
        text = junit_of_audit(one, account_of(one, 20))
        self.assertIn('<skipped message="the auditor\'s report does not tell which snapshots would fit"/>', text)
        self.assertIn(' failures="1" ', text)

    def test_unknown_outcomes(self) -> None:
        """A finding that depends on an outcome that nobody knows says so."""
        one = shop()
        assert one.log.legend is not None
        one.log.legend.outcomes[3] = "unknown"
        self.assertIn("\n   It depends on an outcome that the log does not tell.\n", text_of_audit(one, account_of(one, 20), Style()))


def json_of(one: Audited, most: int | None = 20) -> dict[str, Any]:
    made: dict[str, Any] = json.loads(json_of_audit(one, account_of(one, most), "0.2.0"))
    return made


class JsonTest(unittest.TestCase):
    def check(self, made: dict[str, Any]) -> dict[str, Any]:
        self.assertEqual(SCHEMA.faults(made), [])
        return made

    def test_the_shop(self) -> None:
        made = self.check(json_of(shop()))
        self.assertEqual((made["status"], made["outcome"], made["kind"], made["level"]), (1, "falls short", "transactions", "si"))
        self.assertEqual(made["verdicts"], {"isolation_kept": False, "ssi_pass": False, "serializable": True})
        self.assertEqual(made["levels"], {"gsi": False, "si": False, "ssi": False, "serializable": False})
        self.assertEqual(made["findings"][0]["snapshot"], {"transaction": "order-1", "from": None, "to": None})
        self.assertEqual(made["findings"][0]["breaks"], ["gsi", "si", "ssi", "serializable"])
        self.assertEqual((made["counts"], made["left_out"]), ({"future read": 1}, 0))
        finding = made["findings"][0]
        about = {"event": 13, "transaction": "order-1", "key": "stock/tea", "saw": "order-2", "due": "load"}
        self.assertEqual((finding["name"], finding["about"]), ("future read", about))
        read = next(moment for moment in finding["moments"] if moment["what"] == "read")
        self.assertEqual((read["line"], read["operation"], read["event"], read["timestamp"]), (2, 2, 13, None))
        times = {(moment["transaction"], moment["what"]): moment["timestamp"] for moment in finding["moments"]}
        self.assertEqual((times["order-1", "start"], times["order-2", "commit"]), (105, 130))

    def test_faults(self) -> None:
        made = self.check(json.loads(json_of_fault("run", "ssi", "no such file")))
        self.assertEqual((made["status"], made["outcome"], made["problem"], made["levels"]), (2, "not audited", "no such file", None))
        for body, status, outcome in (("kill -9 $$", 4, "fault"), ("echo 'refused: text too long'; exit 3", 3, "refused"), ("exit 2", 2, "not audited")):
            with tempfile.TemporaryDirectory() as directory:
                one = audited(log_of(b"w1[1]\n", "run"), Auditor.found(fake_auditor(directory, body)), "si")
            made = self.check(json_of(one))
            self.assertEqual((made["status"], made["outcome"], made["verdicts"], made["levels"]), (status, outcome, None, None))
            self.assertIsInstance(made["problem"], str)

    @unittest.skipUnless(PROGRAM.exists(), NO_PROGRAM)
    def test_nothing(self) -> None:
        """Where there was nothing to audit there is no verdict to be read, whatever the report says."""
        made = self.check(json_of(by_program(b"w1[1]\n")))
        self.assertEqual((made["status"], made["outcome"], made["verdicts"], made["levels"]), (5, "nothing to audit", None, None))
        self.assertEqual(made["history"]["open"], 1)

    @unittest.skipUnless(PROGRAM.exists(), NO_PROGRAM)
    def test_examples(self) -> None:
        logs = [*REPOSITORY.glob("examples/**/*.jsonl"), *REPOSITORY.glob("examples/**/*.history")]
        names: set[str] = set()
        for path in logs:
            for level in LEVELS:
                with self.subTest(path=path.name, level=level):
                    made = self.check(json_of(by_program(path.read_bytes(), level), None))
                    names |= set(made["counts"])
                    self.assertEqual((made["left_out"], len(made["findings"])), (0, sum(made["counts"].values())))
                    breaks = [level in finding["breaks"] for finding in made["findings"]]
                    self.assertEqual(breaks, sorted(breaks, reverse=True))
                    if made["status"] in (0, 1):
                        self.assertEqual(made["levels"][level], made["status"] == 0)
        self.assertEqual(names, {
            "own write missed", "aborted read", "uncommitted read", "future read", "phantom", "stale read", "bad write",
            "unexplained read", "cycle", "dangerous structure",
        })

    @unittest.skipUnless(PROGRAM.exists(), NO_PROGRAM)
    def test_the_first_ones(self) -> None:
        made = self.check(json_of(by_program(MANY)))
        self.assertEqual((len(made["findings"]), made["left_out"], made["counts"]), (20, 416, {"bad write": 435, "cycle": 1}))

    def test_the_schema_refuses(self) -> None:
        """Each value that is taken away, added or of another type is a fault, so that the schema says something."""
        good = json_of(shop())
        for what, made in spoilt(good):
            with self.subTest(what=what):
                self.assertNotEqual(SCHEMA.faults(made), [])


FREE = {"counts", "fields"}
"""Objects whose names are free."""


def spoilt(value: Any, where: str = "$") -> Iterator[tuple[str, Any]]:
    """A value with each of its parts spoilt in turn, and which one it is."""
    yield f"{where} is a fraction", 0.5
    if isinstance(value, dict):
        if where.rpartition(".")[2] not in FREE:
            yield f"{where} has more", {**value, "more": 1}
            for name in value:
                if name not in ("events", "committed", "aborted", "open", "due"):
                    yield f"{where} lacks {name}", {other: each for other, each in value.items() if other != name}
        for name, item in value.items():
            yield from ((what, {**value, name: made}) for what, made in spoilt(item, f"{where}.{name}"))
    elif isinstance(value, list):
        for at, item in enumerate(value):
            yield from ((what, [*value[:at], made, *value[at + 1 :]]) for what, made in spoilt(item, f"{where}[{at}]"))


class JunitTest(unittest.TestCase):
    def cases(self, text: str) -> dict[str, list[tuple[str, str | None]]]:
        """Of each level what stands in its test case."""
        root = ElementTree.fromstring(text)
        suite = root[0]
        for element in (root, suite):
            for name, tag in (("failures", "failure"), ("errors", "error"), ("skipped", "skipped")):
                self.assertEqual(int(element.attrib[name]), len(suite.findall(f"./testcase/{tag}")))
            self.assertEqual(int(element.attrib["tests"]), len(suite))
        return {case.attrib["name"].split(":")[0]: [(each.tag, each.attrib["message"]) for each in case] for case in suite}

    def test_the_shop(self) -> None:
        text = junit_of_audit(shop(), account_of(shop(), 20))
        self.assertEqual(self.cases(text), {
            "gsi": [("failure", "no snapshot fits 1 transaction")],
            "si": [("failure", "isolation was broken")],
            "serializable": [("skipped", "not asked for: isolation was broken, and some serial order explains the committed transactions")],
            "ssi": [("skipped", "not asked for: isolation was broken, and the ssi test is failed")],
        })
        for failure in ElementTree.fromstring(text).findall(".//failure"):
            self.assertEqual(failure.text, "Future read: order-1 read stock/tea and saw order-2's version, where load's version was due.")

    @unittest.skipUnless(PROGRAM.exists(), NO_PROGRAM)
    def test_levels(self) -> None:
        """Of write skew the level that is asked for fails, and those that it holds; those beyond it are skipped."""
        for level, wanted in (
            ("gsi", {"gsi": "", "si": "", "serializable": "skipped", "ssi": "skipped"}),
            ("si", {"gsi": "", "si": "", "serializable": "skipped", "ssi": "skipped"}),
            ("serializable", {"gsi": "", "si": "", "serializable": "failure", "ssi": "skipped"}),
            ("ssi", {"gsi": "", "si": "", "serializable": "failure", "ssi": "failure"}),
        ):
            one = by_program(SKEW, level)
            found = self.cases(junit_of_audit(one, account_of(one, 20)))
            self.assertEqual({name: each[0][0] if each else "" for name, each in found.items()}, wanted)

    def test_faults(self) -> None:
        self.assertEqual(self.cases(junit_of_fault("a<\x00&\ud800>'\"b", "ssi", "no \x1b & <file>")), {"ssi": [("error", "no \ufffd & <file>")]})
        one = by_report("events 1 committed 0 aborted 0 open 1\nisolation kept\nssi pass\nserializable yes\norder\n", 0, b"w1[1]\n")
        text = junit_of_audit(one, account_of(one, 20))
        self.assertEqual(self.cases(text), {"si": [("error", "nothing to audit: no transaction committed")]})


if __name__ == "__main__":
    unittest.main()
