"""The runs of examples/databases: each history has the report that is there, and each log becomes the history and the legend."""

from __future__ import annotations

import json
import tempfile
import unittest
from pathlib import Path

from tests.support import NO_PROGRAM, PROGRAM, REPOSITORY, audit, run_command

DATABASES = REPOSITORY / "examples" / "databases"
# What each recorded run is known for: whether isolation was kept in it, and whether it is serializable. Of the first runs
# there are logs, too.
KNOWN = {
    "postgres_repeatable_read": (True, False),
    "postgres_serializable": (True, True),
    "mariadb_off": (False, False),
    "mariadb_on": (True, False),
}
WITHOUT_LOGS = {
    "mariadb_lost_update": (False, False),
    "sqlite_wal": (True, True),
    "lmdb": (True, True),
    "berkeley_snapshot": (True, False),
    "h2_snapshot": (True, False),
    "h2_stale_read": (False, True),
    "h2_read_skew": (False, False),
    "h2_table_snapshots": (False, False),
    "hsqldb_serializable": (True, False),
    "firebird_snapshot": (True, False),
    "firebird_table_stability": (True, False),
    "derby_serializable": (False, True),
    "rocksdb_optimistic": (True, False),
    "myrocks_repeatable_read": (True, False),
}


def log_of(name: str) -> tuple[str, Path]:
    """The format and the path of the log of an example."""
    [path] = DATABASES.glob(f"{name}.*.jsonl")
    return path.name.split(".")[1], path


class Examples(unittest.TestCase):
    def test_the_logs_are_those_that_are_known(self) -> None:
        self.assertEqual({path.name.split(".")[0] for path in DATABASES.glob("*.jsonl")}, set(KNOWN))
        self.assertEqual({path.stem for path in DATABASES.glob("*.history")}, {*KNOWN, *WITHOUT_LOGS})

    def test_each_log_becomes_the_history_and_the_legend(self) -> None:
        for name in KNOWN:
            kind, log = log_of(name)
            with self.subTest(name), tempfile.TemporaryDirectory() as directory:
                legend = Path(directory) / "legend"
                done = run_command(f"from-{kind}", str(log), "--legend", str(legend))
                self.assertEqual((done.returncode, done.stderr), (0, b""))
                self.assertEqual(done.stdout.decode(), (DATABASES / f"{name}.history").read_text())
                self.assertEqual(json.loads(legend.read_text()), json.loads((DATABASES / f"{name}.legend").read_text()))

    @unittest.skipUnless(PROGRAM.is_file(), NO_PROGRAM)
    def test_each_history_has_the_report_that_its_store_is_known_for(self) -> None:
        for name, (is_kept, is_serializable) in (KNOWN | WITHOUT_LOGS).items():
            with self.subTest(name):
                status, report = audit((DATABASES / f"{name}.history").read_text())
                self.assertEqual(report, (DATABASES / f"{name}.report").read_text())
                lines = report.splitlines()
                self.assertEqual(lines[1], "isolation kept" if is_kept else "isolation broken")
                self.assertEqual("serializable yes" in lines, is_serializable)
                self.assertEqual(status, 0 if is_kept and is_serializable else 1)


if __name__ == "__main__":
    unittest.main()
