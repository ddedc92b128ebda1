"""The logs of examples/logs: each becomes the history and the legend beside it, and the program gives the report beside it."""

from __future__ import annotations

import json
import tempfile
import unittest
from pathlib import Path

from tests.support import NO_PROGRAM, PROGRAM, REPOSITORY, audit, run_command

LOGS = REPOSITORY / "examples" / "logs"
FORMATS = ("events", "transactions")


def logs() -> list[tuple[str, Path, Path]]:
    """Each log with its format, and its path without the endings."""
    found = [(kind, log) for kind in FORMATS for log in sorted(LOGS.glob(f"*.{kind}.jsonl"))]
    return [(kind, log, LOGS / log.name.removesuffix(f".{kind}.jsonl")) for kind, log in found]


class ExamplesTest(unittest.TestCase):
    def test_there_is_a_log_of_each_format(self) -> None:
        self.assertEqual({kind for kind, _, _ in logs()}, set(FORMATS))

    def test_histories_and_legends(self) -> None:
        for kind, log, base in logs():
            with self.subTest(log=log.name), tempfile.TemporaryDirectory() as directory:
                legend = Path(directory) / "legend"
                done = run_command(f"from-{kind}", str(log), "--legend", str(legend))
                self.assertEqual((done.returncode, done.stderr), (0, b""))
                self.assertEqual(done.stdout.decode(), base.with_suffix(".history").read_text())
                self.assertEqual(json.loads(legend.read_text()), json.loads(base.with_suffix(".legend").read_text()))

    @unittest.skipUnless(PROGRAM.exists(), NO_PROGRAM)
    def test_reports(self) -> None:
        for _, log, base in logs():
            with self.subTest(log=log.name):
                status, report = audit(base.with_suffix(".history").read_text())
                self.assertEqual(report, base.with_suffix(".report").read_text())
                self.assertEqual(status, int(base.with_suffix(".status").read_text()))


if __name__ == "__main__":
    unittest.main()
