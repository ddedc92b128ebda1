"""Many runs: which files are logs, what the table and the pages say, and that no run is lost, whatever dies."""

from __future__ import annotations

import importlib.util
import os
import re
import signal
import subprocess
import sys
import tempfile
import time
import unittest
from concurrent.futures import Future, ProcessPoolExecutor
from concurrent.futures.process import BrokenProcessPool
from html import unescape
from pathlib import Path
from typing import Any
from unittest import mock
from urllib.parse import unquote

from si_history.errors import BadInput
from si_history.pool import DIED, in_processes
from si_history.run_audit import Job, Row, audit_run
from si_history.runs import Folder, logs_under
from si_history.runs_table import status_of, summary_of, table_of
from tests.fake_auditor import fake_auditor
from tests.support import COMPANION, LONG_SECONDS, NO_PROGRAM, PROGRAM, REPOSITORY, run_command

KEPT, BROKEN, REFUSED, NOTHING = "r1[1:0] w1[1] c1\n", "r1[1:0] r2[1:0] w1[1] w2[1] c1 c2\n", "r1[1:2]\n", "w1[1] a1\n"
SKEW = "r1[1:0] r2[2:0] w1[2] w2[1] c1 c2\n"
STRUCTURE = "r1[1:0] r2[2:0] w2[1] w3[2] c3 c2 c1\n"
"""It fails the ssi test and is serializable, as docs/FORMAT.md says."""


class InFolder(unittest.TestCase):
    """A test with a folder of runs and, beside it, one for all else."""

    def setUp(self) -> None:
        directory = tempfile.TemporaryDirectory()
        self.addCleanup(directory.cleanup)
        self.folder, self.beside = Path(directory.name, "runs"), Path(directory.name, "beside")
        for path in (self.folder, self.beside):
            path.mkdir()

    def put(self, **runs: str) -> None:
        """Puts histories into the folder."""
        for name, content in runs.items():
            (self.folder / f"{name}.history").write_text(content)

    def audit(self, *words: str, auditor: str = str(PROGRAM)) -> subprocess.CompletedProcess[bytes]:
        done = run_command("audit-many", "--auditor", auditor, *words, str(self.folder))
        done.stderr = done.stderr.replace(str(self.folder.parent).encode(), b"D")
        return done

    def rows(self, done: subprocess.CompletedProcess[bytes]) -> list[tuple[str, str]]:
        """Of each row of the table the run, and whether it meets the level."""
        lines = done.stdout.decode().split("\n\n")[0].splitlines()[1:]
        return [(found[1].removesuffix(".history"), found[2]) for line in lines if (found := re.match(r"(\S+) +(\S+ \S+(?: of \w+)?)", line))]


class FolderTest(InFolder):
    def test_logs_and_others(self) -> None:
        for name in ("b/c/run.jsonl", "a.history", "a.legend", "a.report", "notes.md", ".hidden", ".git/config", "b/.x.history", "odd", "é.log"):
            path = self.folder / name
            path.parent.mkdir(parents=True, exist_ok=True)
            path.write_text("")
        (self.folder / "lost.history").symlink_to("nowhere")
        (self.folder / "again.history").symlink_to("a.history")
        os.mkfifo(self.folder / "pipe.history")
        self.assertEqual(logs_under(str(self.folder)), Folder(
            ("a.history", "again.history", "b/c/run.jsonl", "lost.history", "odd", "é.log"), ("a.legend", "a.report", "notes.md"),
        ))
        self.assertEqual(logs_under(str(self.folder), ["*.md", "o*"]).logs, ("notes.md", "odd"))

    def test_a_folder_that_can_not_be_read(self) -> None:
        with self.assertRaisesRegex(BadInput, '^the folder ".*gone" can\'t be read: No such file or directory$'):
            logs_under(str(self.folder / "gone"))


class TableTest(unittest.TestCase):
    def test_statuses(self) -> None:
        """1 where a run falls short; else what failed; 0 only where all meet the level; never for nothing."""
        expected: list[tuple[list[int], int]] = [
            ([], 5), ([0], 0), ([0, 0], 0), ([0, 1], 1), ([1, 4], 1), ([0, 4], 4), ([3, 4], 4), ([0, 3, 2], 3), ([0, 2, 5], 2), ([0, 5], 5),
            ([0, 77], 4),
        ]
        for statuses, wanted in expected:
            with self.subTest(statuses=statuses):
                self.assertEqual(status_of([Row("r", status) for status in statuses]), wanted)

    def test_a_table(self) -> None:
        rows = [
            Row("a", 0, None, True, True), Row("long one", 1, None, False, False, {"stale read": 1200, "cycle": 1}),
            Row("b", 0, None, False, True, {"dangerous structure": 1}), Row("c", 2, "not UTF-8"),
        ]
        self.assertEqual(table_of(rows, "si").splitlines(), [
            "run         level              ssi   serializable  findings",
            "a           meets si           pass  yes",
            '"long one"  falls short of si  fail  no            stale read: 1,200, cycle: 1',
            "b           meets si           fail  yes           dangerous structure: 1",
            "c           no verdict                             not UTF-8",
        ])
        self.assertEqual(summary_of(rows, "si"), "4 runs: 2 meet si, 1 falls short of it, 1 has no verdict.")
        self.assertEqual(summary_of(rows[:1] * 2, "ssi"), "2 runs: 2 meet ssi.")


class RunTest(InFolder):
    def test_what_nobody_expected(self) -> None:
        """It is told of the run, on one line, and costs no other run."""
        self.put(kept=KEPT)
        path = str(self.folder / "kept.history")
        job = Job("kept", path, "si", fake_auditor(self.beside, "exit 4"), None, False, False)
        for fault, problem in ((ValueError("odd\n one"), "its audit failed: ValueError: odd one"), (MemoryError(), "memory ran out")):
            with mock.patch("si_history.run_audit.audited", side_effect=fault):
                self.assertEqual(audit_run(job), Row("kept", 4, problem))
        self.assertEqual(audit_run(job).status, 4)


@unittest.skipUnless(PROGRAM.exists(), NO_PROGRAM)
class CommandTest(InFolder):
    def test_runs(self) -> None:
        self.put(kept=KEPT, broken=BROKEN, skew=SKEW, structure=STRUCTURE)
        expected = [("broken", "falls short of si"), ("kept", "meets si"), ("skew", "meets si"), ("structure", "meets si")]
        outputs = set()
        for jobs in ("1", "4"):
            done = self.audit("--jobs", jobs)
            self.assertEqual((done.returncode, done.stderr, self.rows(done)), (1, b"", expected))
            outputs.add(done.stdout)
        self.assertEqual(len(outputs), 1)
        table = done.stdout.decode()
        self.assertRegex(table, r"broken\.history +falls short of si +fail +no +bad write: 1, cycle: 1\n")
        self.assertRegex(table, r"kept\.history +meets si +pass +yes\n")
        self.assertRegex(table, r"skew\.history +meets si +fail +no +cycle: 1, dangerous structure: 1\n")
        self.assertRegex(table, r"structure\.history +meets si +fail +yes +dangerous structure: 1\n")
        self.assertTrue(table.endswith("4 runs: 3 meet si, 1 falls short of it.\n"))

    def test_quiet(self) -> None:
        self.put(broken=BROKEN)
        done = self.audit("--quiet")
        self.assertEqual((done.returncode, done.stdout, done.stderr), (1, b"", b""))

    def test_levels(self) -> None:
        self.put(kept=KEPT, skew=SKEW)
        self.assertEqual(self.audit().returncode, 0)
        for level in ("ssi", "serializable"):
            done = self.audit("--check", level)
            self.assertEqual((done.returncode, self.rows(done)), (1, [("kept", f"meets {level}"), ("skew", f"falls short of {level}")]))

    def test_the_level_gsi(self) -> None:
        """A stale read of a whole snapshot meets it, and a lost update doesn't."""
        self.put(skew=SKEW, stale="w1[1] c1 r2[1:0] c2\n")
        done = self.audit("--check", "gsi")
        self.assertEqual((done.returncode, self.rows(done)), (0, [("skew", "meets gsi"), ("stale", "meets gsi")]))
        self.put(broken=BROKEN)
        done = self.audit("--check", "gsi")
        self.assertEqual((done.returncode, self.rows(done)[0]), (1, ("broken", "falls short of gsi")))

    def test_every_example(self) -> None:
        """A run of the examples falls short where the status that is kept beside it says so at its level, serializable."""
        self.folder = REPOSITORY / "examples"
        done = self.audit("--check", "serializable")
        self.assertEqual(done.returncode, 1)
        said = dict(self.rows(done))
        self.assertGreater(len(said), 20)
        for path in sorted(self.folder.glob("**/*.history")):
            kept = path.with_suffix(".status")
            status = int(kept.read_text()) if kept.exists() else 0
            words = {0: "meets serializable", 1: "falls short of serializable"}.get(status, "no verdict")
            self.assertTrue(said[str(path.relative_to(self.folder)).removesuffix(".history")].startswith(words), path.name)

    def test_nothing_to_audit(self) -> None:
        for names, said in (((), b"There is no log to audit.\n"), (("a.report", ".x"), b"There is no log to audit. Passed over: 1 other file.\n")):
            for name in names:
                (self.folder / name).write_text(BROKEN)
            done = self.audit()
            self.assertEqual((done.returncode, done.stdout, done.stderr), (5, said, b""))
        self.put(kept=KEPT, empty="", aborted=NOTHING)
        done = self.audit()
        self.assertEqual((done.returncode, self.rows(done)), (5, [("aborted", "no verdict"), ("empty", "no verdict"), ("kept", "meets si")]))
        self.assertEqual(self.audit("--allow-empty").returncode, 0)

    def test_logs_that_can_not_be_audited(self) -> None:
        """Each is told, the others are audited all the same, and the status is never 0."""
        self.put(kept=KEPT)
        for name, content, status, said in (
            ("noise", b"hello\n", 2, "its first line is none of a history"), ("binary", b"\xff\xfe", 2, "its first line is none"),
            ("cut.jsonl", b'{"txn": "a", "op": "write", "key": "k"}\n{"txn": "a", "o', 2, "the log ends in the middle of this line"),
            ("refused", REFUSED.encode(), 3, "version not written"), ("gone", None, 2, "No such file or directory"),
        ):
            with self.subTest(name=name):
                path = self.folder / name
                path.symlink_to("nowhere") if content is None else path.write_bytes(content)
                done = self.audit()
                self.assertEqual((done.returncode, done.stderr), (status, b""))
                self.assertRegex(done.stdout.decode(), rf"(?m)^{re.escape(name)} +no verdict +.*{said}")
                self.assertIn(("kept", "meets si"), self.rows(done))
                path.unlink()

    def test_a_process_that_dies(self) -> None:
        """The auditor of two runs kills the process that audits them: these two are told, and no other is lost."""
        body = f'cat >"$0.$$"; grep -q 666 "$0.$$" && kill -9 $PPID; exec {PROGRAM} "$@" <"$0.$$"'
        self.put(**{f"run{number:02}": KEPT for number in range(20)}, evil="w1[666] c1\n", worse="w2[666] c2\n")
        done = self.audit("--jobs", "3", auditor=fake_auditor(self.beside, body))
        self.assertEqual((done.returncode, done.stderr), (4, b""))
        self.assertEqual(done.stdout.decode().count(DIED), 2)
        verdicts = dict(self.rows(done))
        self.assertEqual([name for name, said in verdicts.items() if said.startswith("no verdict")], ["evil", "worse"])
        self.assertEqual(len(verdicts), 22)

    def test_a_process_that_dies_before_all_runs_are_handed_out(self) -> None:
        """A pool that is broken takes no more runs: these are audited in another one."""
        submit, told = ProcessPoolExecutor.submit, []

        def broken_once(pool: ProcessPoolExecutor, *words: Any) -> Future[Row]:
            told.append(words)
            if len(told) in (3, 4):
                raise BrokenProcessPool
            return submit(pool, *words)

        auditor = fake_auditor(self.beside, "exit 4")
        jobs = [Job(f"run{number}", str(self.folder / "gone"), "si", auditor, None, False, False) for number in range(5)]
        with mock.patch.object(ProcessPoolExecutor, "submit", broken_once):
            rows = sorted(in_processes(jobs, 2), key=lambda row: row.name)
        self.assertEqual([(row.name, row.problem) for row in rows], [(job.name, rows[0].problem) for job in jobs])
        self.assertIn("No such file", str(rows[0].problem))
        self.assertEqual(len(told), 7)

    def test_an_auditor_that_is_killed(self) -> None:
        self.put(kept=KEPT)
        done = self.audit(auditor=fake_auditor(self.beside, "kill -9 $$"))
        self.assertEqual((done.returncode, done.stderr), (4, b""))
        self.assertIn("the auditor was ended by the signal SIGKILL", done.stdout.decode())

    def test_an_end_on_the_way(self) -> None:
        """A signal ends the command at once, as it ends any command, and it says nothing more."""
        self.put(**{f"run{number:02}": KEPT for number in range(8)})
        for number in (signal.SIGINT, signal.SIGTERM):
            with self.subTest(signal=number):
                auditor = fake_auditor(self.beside, 'echo >>"$0.seen"; exec sleep 100')
                command = [sys.executable, "-m", "si_history", "audit-many", "--auditor", auditor, "--jobs", "2", str(self.folder)]
                process = subprocess.Popen(
                    command, stdout=subprocess.PIPE, stderr=subprocess.PIPE, env={**os.environ, "PYTHONPATH": str(COMPANION)},
                    start_new_session=True,
                )
                seen = Path(f"{auditor}.seen")
                while not seen.exists():
                    time.sleep(0.02)
                began = time.monotonic()
                os.killpg(process.pid, number)
                self.assertEqual(process.communicate(timeout=LONG_SECONDS), (b"", b""))
                self.assertLess(time.monotonic() - began, 50)
                self.assertIn(process.returncode, (130, -number))
                seen.unlink()

    def test_pages(self) -> None:
        """Each run with a verdict has its page, and the link leads there, whatever the run is called."""
        names = ["a&b <i>.history", "100%25.history", "é#1?.history", 'x"y.history', "deep/er/run", "-.history"]
        for name in names:
            path = self.folder / name
            path.parent.mkdir(parents=True, exist_ok=True)
            path.write_text(BROKEN)
        (self.folder / "refused").write_text(REFUSED)
        pages = self.beside / "out" / "pages"
        self.assertEqual(self.audit("--page", str(pages)).returncode, 1)
        index = (pages / "index.html").read_text("utf-8")
        links = [unquote(unescape(link)) for link in re.findall('<a href="([^"]*)">', index)]
        self.assertEqual(sorted(links), sorted(f"runs/{name}.html" for name in names))
        for link in links:
            self.assertIn("Bad write: transaction 1 and transaction 2 overlap", (pages / link).read_text("utf-8"))
        self.assertIn("version not written", index)
        self.assertIn("7 runs: 0 meet si, 6 fall short of it, 1 has no verdict.", index)
        self.assertNotIn("<i>", index)
        self.assertEqual((index.count("<style"), index.count("<script"), index.count('"Content-Security-Policy"')), (1, 0, 1))
        self.assertNotRegex(index, r"https?:|@import|url\(")

    def test_pages_that_can_not_be_written(self) -> None:
        self.put(kept=KEPT)
        (self.beside / "file").write_text("")
        done = self.audit("--page", str(self.beside / "file" / "pages"))
        self.assertEqual((done.returncode, done.stdout), (2, b""))
        self.assertEqual(done.stderr, b'si-history: the folder "D/beside/file/pages/runs" can\'t be made: Not a directory\n')


class RefusedTest(InFolder):
    def test_command_lines(self) -> None:
        auditor = fake_auditor(self.beside, "exit 4")
        for words, said in (
            (("--jobs", "0"), "argument --jobs: '0' is no number from 1 to 1024"), (("--jobs", "x"), "argument --jobs: 'x' is no number"),
            (("--check", "rr"), "argument --check: invalid choice"), (("--dask", "tcp://127.0.0.1:1", "--jobs", "2"), "--jobs is for this machine alone"),
        ):
            with self.subTest(words=words):
                done = self.audit(*words, auditor=auditor)
                self.assertEqual((done.returncode, done.stdout, done.stderr.count(b"\n")), (2, b"", 1))
                self.assertIn(said, done.stderr.decode())

    def test_no_folder_and_no_auditor(self) -> None:
        self.put(kept=KEPT)
        done = self.audit(auditor=str(self.beside / "none"))
        self.assertEqual((done.returncode, done.stdout, done.stderr), (2, b"", b'si-history: there is no auditor "D/beside/none"\n'))
        self.folder = self.folder / "kept.history"
        done = self.audit(auditor=fake_auditor(self.beside, "exit 4"))
        self.assertEqual((done.returncode, done.stdout, done.stderr), (2, b"", b'si-history: there is no folder "D/kept.history"\n'))

    @unittest.skipIf(importlib.util.find_spec("distributed"), "left out: this Python has the package distributed")
    def test_no_dask(self) -> None:
        self.put(kept=KEPT)
        done = self.audit("--dask", "tcp://127.0.0.1:1", auditor=fake_auditor(self.beside, "exit 4"))
        self.assertEqual((done.returncode, done.stdout, done.stderr.count(b"\n")), (2, b"", 1))
        self.assertIn(b"--dask needs the package distributed", done.stderr)


if __name__ == "__main__":
    unittest.main()
