"""The table of `make databases`: what it tells of audited runs, and when they are as expected. No store is run, but for SQLite."""

from __future__ import annotations

import os
import re
import signal
import subprocess
import sys
import tempfile
import time
import unittest
from pathlib import Path

from tests.fake_auditor import fake_auditor
from tests.support import COMPANION, LONG_SECONDS, NO_PROGRAM, PROGRAM, REPOSITORY, run_command

TOOLS = REPOSITORY / "tools"
sys.path.insert(0, str(TOOLS))
from database_kinds import FEWEST_RUNS, KINDS, Kind, Share  # noqa: E402
from databases import LEVEL, is_expected, line  # noqa: E402

from si_history.account import counts_against  # noqa: E402
from si_history.auditor import FALLS_SHORT, MEETS  # noqa: E402
from si_history.record.kinds import KINDS as STORES  # noqa: E402
from si_history.run_audit import Job, Row, audit_run  # noqa: E402

EXAMPLES = REPOSITORY / "examples" / "databases"


def outcome(is_kept: bool = True, is_serializable: bool = True, **findings: int) -> Row:
    counts = {name.replace("_", " "): count for name, count in findings.items()}
    return Row("run", MEETS if is_kept else FALLS_SHORT, None, is_kept, is_serializable, counts)


class Rows(unittest.TestCase):
    def kind(self, kept: Share, serializable: Share = Share.ANY, finding: str = "") -> Kind:
        return Kind("Store", "store", "setting", (), kept, serializable, finding)

    def test_what_all_runs_have(self) -> None:
        self.assertTrue(is_expected(self.kind(Share.ALL, Share.ALL), [outcome(), outcome()]))
        self.assertFalse(is_expected(self.kind(Share.ALL), [outcome(), outcome(is_kept=False)]))
        self.assertFalse(is_expected(self.kind(Share.ALL, Share.ALL), [outcome(), outcome(is_serializable=False)]))
        self.assertTrue(is_expected(self.kind(Share.NONE), [outcome(is_kept=False)]))
        self.assertFalse(is_expected(self.kind(Share.NONE), [outcome(is_kept=False), outcome()]))

    def test_what_some_runs_have_is_asked_of_many(self) -> None:
        kind = self.kind(Share.NOT_ALL, finding="stale read")
        few = [outcome()]
        many = [outcome()] * (FEWEST_RUNS - 1)
        self.assertTrue(is_expected(kind, few))
        self.assertFalse(is_expected(kind, [*many, outcome()]))
        self.assertFalse(is_expected(kind, [*many, outcome(is_kept=False, bad_write=1)]))
        self.assertTrue(is_expected(kind, [*many, outcome(is_kept=False, stale_read=1)]))

    def test_a_row_counts_findings_and_their_runs(self) -> None:
        runs = [outcome(), outcome(False, stale_read=2), outcome(False, stale_read=1, bad_write=4)]
        self.assertEqual(line(self.kind(Share.ALL), "1.2", runs), (
            "Store", "1.2", "setting", "3", "in 1", "bad write 4 in 1, stale read 3 in 2", "in 1", "in 3", "NO"))

    def test_a_row_counts_what_breaks_isolation(self) -> None:
        runs = [outcome(True, False, cycle=1, dangerous_structure=1, unexplained_read=3),
                outcome(False, False, future_read=1, cycle=1)]
        self.assertEqual(line(self.kind(Share.ANY), "1.2", runs)[4:8], ("in 1", "future read 1 in 1", "in 1", "in 0"))

    def test_every_store_is_in_the_table_with_words_that_it_takes(self) -> None:
        stores = {store.name: store for store in STORES}
        self.assertEqual({kind.command for kind in KINDS}, {"postgres", "mariadb", *stores})
        self.assertEqual(len({(kind.store, kind.setting) for kind in KINDS}), len(KINDS))
        self.assertEqual(len({kind.folder for kind in KINDS}), len(KINDS))
        for kind in KINDS:
            words = dict(zip(kind.words[::2], kind.words[1::2]))
            if kind.command in stores and "--level" in words:
                self.assertIn(words["--level"], stores[kind.command].levels)


@unittest.skipUnless(PROGRAM.is_file(), NO_PROGRAM)
class Tables(unittest.TestCase):
    def test_what_is_told_of_a_run(self) -> None:
        """Whether isolation is kept, the answers of `ssi` and `serializable`, and what breaks isolation."""
        for name, wanted in (
            ("h2_stale_read", (FALLS_SHORT, False, True, {"stale read": 1})),
            ("mariadb_off", (FALLS_SHORT, False, False, {"bad write": 5})),
            ("firebird_table_stability", (MEETS, False, False, {})),
            ("lmdb", (MEETS, True, True, {})),
        ):
            with self.subTest(name):
                run = audit_run(Job(name, str(EXAMPLES / f"{name}.history"), LEVEL, str(PROGRAM), None, False, False))
                self.assertEqual((run.status, run.passes_ssi, run.is_serializable, counts_against(LEVEL, run.counts)), wanted)

    def words(self, *more: str) -> list[str]:
        return [sys.executable, str(TOOLS / "databases.py"), str(PROGRAM), *more]

    def environment(self, place: str) -> dict[str, str]:
        return {**os.environ, "PYTHONPATH": str(COMPANION), "TMPDIR": place}

    def test_sqlite_is_recorded_and_kept(self) -> None:
        with tempfile.TemporaryDirectory() as place, tempfile.TemporaryDirectory() as kept:
            done = subprocess.run(self.words("2", "200", "--only", "sqlite", "--keep", kept), capture_output=True, text=True,
                                  env=self.environment(place), timeout=LONG_SECONDS, check=False)
            self.assertEqual((done.returncode, done.stderr, os.listdir(place)), (0, "", []))
            rows = [kind for kind in KINDS if kind.command == "sqlite"]
            self.assertEqual(done.stdout.count("\n"), 2 + len(rows))
            logs = {str(path.relative_to(kept)) for path in Path(kept).glob("**/*") if path.is_file()}
            self.assertEqual(logs, {f"{kind.folder}/{seed}.jsonl" for kind in rows for seed in (1, 2)})
            told = run_command("audit-many", "--auditor", str(PROGRAM), kept).stdout.decode()
            for cells in (text.strip("| ").split(" | ") for text in done.stdout.splitlines()[2:]):
                folder = next(kind.folder for kind in rows if kind.setting == cells[2])
                kept_runs = len(re.findall(rf"(?m)^{folder}/[12]\.jsonl +meets si ", told))
                self.assertEqual(cells[3:5], ["2", f"in {kept_runs}"], folder)

    def test_a_store_that_is_missing_is_left_out_in_one_line(self) -> None:
        with tempfile.TemporaryDirectory() as place, tempfile.TemporaryDirectory() as modules:
            (Path(modules) / "lmdb.py").write_text("raise ImportError('it is missing')\n")
            environment = self.environment(place) | {"PYTHONPATH": f"{modules}:{COMPANION}"}
            done = subprocess.run(self.words("1", "50", "--only", "lmdb", "--keep", f"{modules}/runs"), capture_output=True,
                                  text=True, env=environment, timeout=LONG_SECONDS, check=False)
        self.assertEqual((done.returncode, done.stdout), (2, ""))
        self.assertRegex(done.stderr, r"^make databases: lmdb is left out: [^\n]+\nmake databases: there is no store to record\n$")

    def test_a_run_without_a_verdict_is_told_in_one_line_and_there_is_no_table(self) -> None:
        with tempfile.TemporaryDirectory() as place:
            killed = fake_auditor(place, "kill -9 $$")
            for auditor, told in ((killed, r"\S+/1\.jsonl: the auditor was ended by the signal SIGKILL[^\n]*"),
                                  (f"{place}/none", "there is no auditor [^\n]+")):
                words = [sys.executable, str(TOOLS / "databases.py"), auditor, "1", "50", "--only", "sqlite", "--keep", f"{place}/runs"]
                done = subprocess.run(words, capture_output=True, text=True, env=self.environment(place), timeout=LONG_SECONDS,
                                      check=False)
                self.assertEqual((done.returncode, done.stdout), (2, ""))
                self.assertRegex(done.stderr, rf"^make databases: {told}\n$")

    def test_an_interrupt_leaves_nothing(self) -> None:
        with tempfile.TemporaryDirectory() as place, tempfile.TemporaryDirectory() as kept:
            with subprocess.Popen(self.words("500", "20000", "--only", "sqlite", "--keep", kept), stdout=subprocess.PIPE,
                                  stderr=subprocess.PIPE, env=self.environment(place)) as process:
                end = time.monotonic() + LONG_SECONDS
                while not os.listdir(place) and time.monotonic() < end:
                    time.sleep(0.02)
                process.send_signal(signal.SIGTERM)
                written, _ = process.communicate(timeout=LONG_SECONDS)
            self.assertEqual((process.returncode, written, os.listdir(place)), (130, b"", []))


if __name__ == "__main__":
    unittest.main()
