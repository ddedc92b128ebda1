"""The command audit: from a log to a status, a text, a page and data; and each way to fail, none of which ends with 0."""

from __future__ import annotations

import contextlib
import io
import json
import os
import pty
import subprocess
import sys
import tempfile
import unittest
from pathlib import Path
from unittest import mock
from xml.etree import ElementTree

from si_history.cli import main
from tests.fake_auditor import fake_auditor
from tests.support import COMPANION, LONG_SECONDS, NO_PROGRAM, PROGRAM, log_of
from tests.test_audit_outputs import MANY, SCHEMA, SHOP, SKEW

EVENTS = log_of([{"txn": "A", "op": "write", "key": "k"}, {"txn": "A", "op": "commit"}])
ENVIRONMENT = {**os.environ, "PYTHONPATH": str(COMPANION)}
FULL = "/dev/full"


def _writer(to: io.BytesIO) -> io.TextIOWrapper:
    return io.TextIOWrapper(to, encoding="utf-8", write_through=True)


class AuditTest(unittest.TestCase):
    """A test with a directory of its own, in which the command runs."""

    def setUp(self) -> None:
        directory = tempfile.TemporaryDirectory()
        self.addCleanup(directory.cleanup)
        self.place = Path(directory.name)
        self.auditor = str(PROGRAM)

    def write(self, name: str, content: bytes) -> None:
        (self.place / name).write_bytes(content)

    def run_audit(self, *words: str, given: bytes = b"", output: int = subprocess.PIPE) -> subprocess.CompletedProcess[bytes]:
        return subprocess.run(
            [sys.executable, "-m", "si_history", "audit", "--auditor", self.auditor, *words], input=given, stdout=output,
            stderr=subprocess.PIPE, cwd=self.place, env=ENVIRONMENT, timeout=LONG_SECONDS,
        )

    def ends(self, status: int, said: str, *words: str, given: bytes = b"") -> str:
        """The text of a run within this process, whose status and standard error are these."""
        output, error = io.BytesIO(), io.BytesIO()
        with (
            mock.patch("sys.stdin", io.TextIOWrapper(io.BytesIO(given))), mock.patch("sys.stdout", _writer(output)),
            mock.patch("sys.stderr", _writer(error)), contextlib.chdir(self.place),
        ):
            done = main(["audit", "--auditor", self.auditor, *words])
            told = error.getvalue().decode().replace(str(self.place), "D")
            self.assertEqual((done, told), (status, said))
            return output.getvalue().decode()

    def fails(self, status: int, said: str, *words: str, given: bytes = EVENTS) -> None:
        """A run without a verdict: it writes no text, and its data and its test case say why."""
        text = self.ends(status, f"si-history: {said}\n", *words, "--json", "json", "--junit", "junit", "-", given=given)
        self.assertEqual(text, "")
        made = json.loads((self.place / "json").read_text())
        self.assertEqual((SCHEMA.faults(made), made["status"], made["levels"]), ([], status, None))
        problem = made["problem"].replace(str(self.place), "D")
        self.assertIn(said, (problem, f"standard input: {problem}"))
        error = ElementTree.fromstring((self.place / "junit").read_text()).find(".//error")
        assert error is not None
        self.assertEqual(error.attrib["message"], made["problem"])


@unittest.skipUnless(PROGRAM.exists(), NO_PROGRAM)
class VerdictTest(AuditTest):
    def test_levels(self) -> None:
        for level, status in (("gsi", 0), ("si", 0), ("ssi", 1), ("serializable", 1)):
            text = self.ends(status, "", "--check", level, "-", given=SKEW)
            self.assertTrue(text.startswith(f"standard input {'falls short of' if status else 'meets'} "), text)
        self.assertEqual(self.run_audit("-", given=SKEW).returncode, 0)

    def test_logs(self) -> None:
        for path in (SHOP, SHOP.with_name("shop.history")):
            text = self.ends(1, "", str(path))
            self.assertIn("\n  1 future read\n", text)
            self.assertEqual("line 2, operation 2, event 13" in text, path is SHOP)
        text = self.ends(0, "", str(SHOP.with_name("on_call.events.jsonl")))
        self.assertIn("\n  1 cycle, 1 dangerous structure\n", text)

    def test_a_kind_that_is_told(self) -> None:
        self.ends(0, "", "--as", "events", "-", given=EVENTS)
        done = self.run_audit("--as", "history", "-", given=EVENTS)
        self.assertEqual((done.returncode, done.stdout), (3, b""))
        self.assertRegex(done.stderr, rb"^si-history: standard input: the auditor refused the history and made no report [^\n]*\n$")

    def test_quiet(self) -> None:
        self.assertEqual(self.ends(1, "", "--quiet", str(SHOP)), "")
        self.assertEqual(self.ends(0, "", "--quiet", "-", given=EVENTS), "")

    def test_all(self) -> None:
        self.assertTrue(self.ends(1, "", "-", given=MANY).endswith("\nAnd 416 findings more: --all tells them all.\n"))
        self.assertIn("\n436. ", self.ends(1, "", "--all", "-", given=MANY))

    def test_outputs(self) -> None:
        self.write("run.jsonl", SHOP.read_bytes())
        text = self.ends(1, "", "--page", "page.html", "--json", "json", "--junit", "junit", "--keep", "kept/here", "run.jsonl")
        self.assertTrue(text.startswith("run.jsonl falls short of snapshot isolation"))
        page = (self.place / "page.html").read_text()
        self.assertIn("<title>Audit of run.jsonl</title>", page)
        self.assertIn("Future read: order-1 read stock/tea and saw order-2&#x27;s version", page)
        self.assertEqual(SCHEMA.faults(json.loads((self.place / "json").read_text())), [])
        self.assertEqual(len(ElementTree.fromstring((self.place / "junit").read_text()).findall(".//failure")), 2)
        kept = {path.name: path.read_bytes() for path in (self.place / "kept" / "here").iterdir()}
        self.assertEqual(set(kept), {"run.history", "run.legend", "run.report"})
        self.assertEqual(kept["run.history"], SHOP.with_name("shop.history").read_bytes())
        self.assertEqual(kept["run.report"], SHOP.with_name("shop.explained").read_bytes())
        named = subprocess.run(
            [sys.executable, "-m", "si_history", "names", "--legend", "run.legend", "--history", "run.history", "run.report"],
            cwd=self.place / "kept" / "here", env=ENVIRONMENT, capture_output=True, timeout=LONG_SECONDS,
        )
        self.assertEqual((named.returncode, named.stdout.count(b"order-1")), (0, 7))

    def test_data_in_place_of_the_text(self) -> None:
        made = json.loads(self.ends(1, "", "--json", "-", str(SHOP)))
        self.assertEqual((SCHEMA.faults(made), made["status"]), ([], 1))
        self.assertEqual(ElementTree.fromstring(self.ends(1, "", "--junit", "-", str(SHOP))).tag, "testsuites")
        self.assertTrue(self.ends(1, "", "--page", "-", str(SHOP)).startswith("<!DOCTYPE html>"))

    def test_what_a_history_is_kept_as(self) -> None:
        self.write("run.history", SKEW)
        self.ends(0, "", "--keep", "kept", "run.history")
        self.assertEqual({path.name for path in (self.place / "kept").iterdir()}, {"run.history", "run.report"})
        self.assertEqual((self.place / "kept" / "run.history").read_bytes(), SKEW)

    def test_what_is_kept_of_a_refusal(self) -> None:
        for name, content, kept in (("ascii", b"w1[1] x\n", {"ascii.history", "ascii.report"}), ("bytes", b"w1[\xff]\n", {"bytes.report"})):
            self.write(f"{name}.history", content)
            done = self.run_audit("--keep", name, f"{name}.history")
            self.assertEqual((done.returncode, done.stdout, done.stderr.count(b"\n")), (3, b"", 1))
            self.assertEqual({path.name for path in (self.place / name).iterdir()}, kept)
            self.assertEqual((self.place / name / f"{name}.report").read_bytes()[:8], b"refused:")

    def test_an_output_that_ends_early(self) -> None:
        done = subprocess.run(
            ["sh", "-c", f"{sys.executable} -m si_history audit --auditor {self.auditor} --all - | head -n 1"],
            input=MANY, capture_output=True, env=ENVIRONMENT, timeout=LONG_SECONDS,
        )
        self.assertEqual((done.stdout.count(b"\n"), done.stderr), (1, b""))

    def test_an_auditor_on_the_path(self) -> None:
        (self.place / "si_audit").symlink_to(Path(self.auditor).resolve())
        done = subprocess.run(
            [sys.executable, "-m", "si_history", "audit", "-"], input=SKEW, capture_output=True, timeout=LONG_SECONDS,
            env={**ENVIRONMENT, "PATH": f"{self.place}:/bin:/usr/bin"},
        )
        self.assertEqual((done.returncode, done.stderr), (0, b""))

    def test_colours(self) -> None:
        for words, environment, has_colour in (
            ([], {"TERM": "xterm"}, True), (["--no-color"], {"TERM": "xterm"}, False), ([], {"TERM": "dumb"}, False),
            ([], {"TERM": "xterm", "NO_COLOR": "1"}, False), ([], {"TERM": "xterm", "NO_COLOR": ""}, True),
        ):
            with self.subTest(words=words, environment=environment):
                self.assertEqual(b"\x1b[" in self.at_a_terminal(words, environment), has_colour)
        self.assertNotIn("\x1b[", self.ends(1, "", str(SHOP)))

    def at_a_terminal(self, words: list[str], environment: dict[str, str]) -> bytes:
        """What a run writes to a terminal."""
        master, slave = pty.openpty()
        done = subprocess.run(
            [sys.executable, "-m", "si_history", "audit", "--auditor", self.auditor, *words, str(SHOP)], stdout=slave,
            stderr=subprocess.PIPE, env={**ENVIRONMENT, **environment}, timeout=LONG_SECONDS,
        )
        os.close(slave)
        self.assertEqual((done.returncode, done.stderr), (1, b""))
        parts = []
        with os.fdopen(master, "rb", buffering=0) as file:
            try:
                while part := file.read(4096):
                    parts.append(part)
            except OSError:  # the end of a terminal whose other side is closed
                pass
        return b"".join(parts)


class FailureTest(AuditTest):
    """Whatever goes wrong, the status is not 0, and no text says that isolation was kept."""

    def fake(self, body: str, **words: str) -> None:
        self.auditor = fake_auditor(self.place, body, **words)

    def test_a_missing_log(self) -> None:
        self.fake("exit 0")
        self.ends(2, "si-history: nosuch: No such file or directory\n", "nosuch")
        self.ends(2, "si-history: D: Is a directory\n", str(self.place))

    def test_bad_logs(self) -> None:
        self.fake("exit 0")
        self.fails(2, 'standard input: line 3: the field "txn" is missing', given=EVENTS + b"{}\n")
        self.fails(
            2, "standard input: its first line is none of a history, nor of a log of events, of transactions or of Jepsen:"
            " --as tells what it is", given=b"hello\n",
        )

    def test_a_log_that_ends_in_the_middle_of_a_line(self) -> None:
        self.fake("exit 0")
        self.fails(
            2, "standard input: line 2: not JSON: Unterminated string starting at column 20 (the log ends in the middle of this line)",
            given=EVENTS[:-6],
        )
        self.fails(
            2, "standard input: it ends in the middle of a line; where that line is whole, put a line's end behind it",
            given=b"w1[1]\nc1",
        )

    def test_a_missing_auditor(self) -> None:
        self.auditor = "nosuch"
        self.fails(2, 'there is no auditor "nosuch"')
        done = subprocess.run(
            [sys.executable, "-m", "si_history", "audit", "-"], input=EVENTS, capture_output=True, timeout=LONG_SECONDS,
            env={**ENVIRONMENT, "PATH": str(self.place)},
        )
        self.assertEqual((done.returncode, done.stdout, done.stderr), (
            2, b"", b"si-history: there is no si_audit beside this command, nor on the PATH: install it, or name it by --auditor\n",
        ))

    def test_an_old_auditor(self) -> None:
        self.fake("exit 0", version="echo 'si_audit 0.1.0 (Rattle logic 0)'")
        self.fails(2, 'the auditor "D/si_audit" is too old: it is si_audit 0.1.0, and 0.2.0 or later is wanted')
        self.fake("echo 'error: unexpected argument' >&2; exit 2")
        self.fails(2, "standard input: the auditor refused its arguments, so it is too old or too new: error: unexpected argument")

    def test_data_of_a_fault_that_can_not_be_written(self) -> None:
        """What went wrong first is told."""
        self.fake("exit 0")
        self.ends(2, "si-history: nosuch: No such file or directory\n", "--json", "no/json", "--junit", "no/junit", "nosuch")

    def test_another_program(self) -> None:
        self.auditor = "/bin/true"
        self.fails(2, '"/bin/true" is no auditor, or one that is too old: it tells no version; si_audit 0.2.0 or later is wanted')
        self.fake("cat >/dev/null")
        self.fails(4, "standard input: the auditor ended with status 0 and no report")

    def test_a_killed_auditor(self) -> None:
        self.fake("kill -9 $$")
        self.fails(4, "standard input: the auditor was ended by the signal SIGKILL, as a system does where memory runs out")
        self.fake("printf 'events 2 committed 1 aborted 0 open 0\\nisolation kept\\n'; kill -15 $$")
        self.fails(4, "standard input: the auditor was ended by the signal SIGTERM")

    def test_a_report_that_is_cut(self) -> None:
        self.fake("printf 'events 2 committed 1 aborted 0 open 0\\nisolation kept\\n'")
        self.fails(
            4, "standard input: the auditor made a report that can't be used: the auditor's report: line 2: this is no report:"
            " it ends before its line 'ssi ..'",
        )

    @unittest.skipUnless(PROGRAM.exists(), NO_PROGRAM)
    def test_memory(self) -> None:
        given = b"".join(b"w%d[%d]\n" % (n + 1, n) for n in range(90_000))
        self.fails(4, "standard input: the auditor ran out of memory: it may take 16 MB, which --memory changes", "--memory", "16M", given=given)

    @unittest.skipUnless(PROGRAM.exists(), NO_PROGRAM)
    def test_a_refusal(self) -> None:
        self.fails(
            3, "standard input: the auditor refused the history and made no report (at event 2, in line 2 from column 1:"
            " bad event: !incomplete)", given=b"w1[1]\n!incomplete\n",
        )

    @unittest.skipUnless(PROGRAM.exists(), NO_PROGRAM)
    def test_nothing_to_audit(self) -> None:
        for given, why in ((b"", "it has no event"), (b"\n\n", "it has no event"), (b"w1[1]\na1\n", "no transaction committed")):
            self.fails(5, f"standard input: nothing to audit: {why}", given=given)
            self.assertIn("isolation was kept", self.ends(0, "", "--allow-empty", "-", given=given))
        self.fails(5, "standard input: nothing to audit: it has no event", "--as", "events", given=b"")

    @unittest.skipUnless(PROGRAM.exists() and os.path.exists(FULL), "left out: there is no program or no /dev/full")
    def test_a_full_disk(self) -> None:
        full = "can't be written: No space left on device\n"
        with open(FULL, "wb") as file:
            done = self.run_audit("-", given=EVENTS, output=file.fileno())
        self.assertEqual((done.returncode, done.stderr.decode()), (2, f"si-history: standard output: {full}"))
        for name in ("json", "junit", "page"):
            done = self.run_audit(f"--{name}", FULL, "-", given=EVENTS)
            self.assertEqual((done.returncode, done.stderr.decode()), (2, f"si-history: {FULL}: {full}"))
            self.assertIn(b"meets", done.stdout)

    @unittest.skipUnless(PROGRAM.exists(), NO_PROGRAM)
    def test_closed_outputs(self) -> None:
        line = f"{sys.executable} -m si_history audit --auditor {self.auditor} -"
        for closed, status in ((">&-", 2), ("2>&-", 0), ("<&-", 2)):
            with self.subTest(closed=closed):
                done = subprocess.run(["sh", "-c", f"{line} {closed}"], input=EVENTS, capture_output=True, env=ENVIRONMENT, timeout=LONG_SECONDS)
                self.assertEqual(done.returncode, status)

    def test_outputs_that_clash(self) -> None:
        self.fake("exit 0")
        self.write("run.history", EVENTS)
        same = "can't be written: it is the same file as"
        self.ends(2, f"si-history: run.history: {same} run.history\n", "--json", "run.history", "run.history")
        self.ends(2, f"si-history: x: {same} x\n", "--json", "x", "--page", "x", "run.history")
        self.ends(2, f"si-history: ./run.history: {same} run.history\n", "--keep", ".", "run.history")
        self.ends(2, "si-history: only one output can be standard output\n", "--json", "-", "--junit", "-", "run.history")
        self.assertEqual((self.place / "run.history").read_bytes(), EVENTS)

    def test_command_lines(self) -> None:
        for words in ([], ["-", "-"], ["--check", "rc", "-"], ["--as", "csv", "-"], ["--memory", "1K", "-"], ["--jsn", "x", "-"]):
            with self.subTest(words=words):
                done = self.run_audit(*words, given=EVENTS)
                self.assertEqual((done.returncode, done.stdout, done.stderr.count(b"\n")), (2, b"", 1), done.stderr)

    @unittest.skipUnless(PROGRAM.exists(), NO_PROGRAM)
    def test_a_place_that_can_not_be_made(self) -> None:
        self.write("file", b"")
        done = self.run_audit("--keep", "file/kept", "--json", "json", "-", given=EVENTS)
        self.assertEqual((done.returncode, done.stderr), (2, b"si-history: file/kept: can't be made: Not a directory\n"))
        self.assertEqual(json.loads((self.place / "json").read_text())["status"], 0)


if __name__ == "__main__":
    unittest.main()
