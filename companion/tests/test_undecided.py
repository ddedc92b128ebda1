"""Findings that depend on an outcome which the log doesn't tell are marked in all outputs, and what else a log says is shown."""

from __future__ import annotations

import json
import tempfile
import unittest
from pathlib import Path

from tests.support import NO_PROGRAM, PROGRAM, REPOSITORY, log_of, run_command

# U wrote 1, R saw that before W, which overlaps U, wrote it too. V wrote 2, and X has lost the write of W.
LOG = log_of([
    {"txn": "U", "start": 1, "commit": "unknown", "ops": [["w", 1]], "client": "c 7"},
    {"txn": "W", "start": 1, "commit": 6, "ops": [["w", 1, {"node": "n1", "took": [1, 2]}], ["w", 2]]},
    {"txn": "R", "start": 5, "commit": 5, "ops": [["r", 1, "U"]]},
    {"txn": "X", "start": 7, "commit": "unknown", "ops": [["r", 2, None]]},
    {"txn": "Y", "start": 5, "commit": 8, "ops": [["w", 2]]},
])


@unittest.skipUnless(PROGRAM.exists(), NO_PROGRAM)
class UndecidedTest(unittest.TestCase):
    def setUp(self) -> None:
        self.directory = tempfile.TemporaryDirectory()
        self.addCleanup(self.directory.cleanup)
        here = Path(self.directory.name)
        self.log = here / "run.jsonl"
        self.log.write_bytes(LOG)
        self.done = run_command(
            "audit", "--auditor", str(REPOSITORY / PROGRAM), "--keep", str(here), "--json", str(here / "run.json"),
            "--page", str(here / "run.html"), str(self.log)
        )
        self.json = json.loads((here / "run.json").read_text())

    def test_the_text(self) -> None:
        text = self.done.stdout.decode()
        self.assertEqual((self.done.returncode, self.done.stderr), (1, b""))
        self.assertIn("  1 undecided, by an outcome that the log does not tell\n", text)
        self.assertEqual(text.count("   It depends on an outcome that the log does not tell.\n"), 1)

    def test_the_data(self) -> None:
        # That it isn't known whether X committed makes no difference to what its read had to see.
        told = [(finding["name"], finding["undecided"]) for finding in self.json["findings"]]
        self.assertCountEqual(told, [("bad write", True), ("bad write", False), ("stale read", False)])
        self.assertEqual(self.json["undecided"], 1)

    def test_the_page(self) -> None:
        page = self.log.with_suffix(".html").read_text()
        self.assertEqual(page.count("<li>It depends on an outcome that the log does not tell.</li>"), 1)
        self.assertIn("(line 2 of the log): W wrote key 1; node n1, took [1, 2]</title>", page)
        self.assertIn("<title>It started before all events; client &quot;c 7&quot;</title>", page)

    def test_fields_of_the_log(self) -> None:
        moments = [moment for finding in self.json["findings"] for moment in finding["moments"] if moment["fields"]]
        told = {(moment["sentence"], json.dumps(moment["fields"])) for moment in moments}
        self.assertIn(("W wrote key 1", '{"node": "n1", "took": [1, 2]}'), told)
        self.assertIn(("U started", '{"client": "c 7"}'), told)

    def test_names(self) -> None:
        kept = {ending: str(self.log.with_suffix(f".{ending}")) for ending in ("legend", "history", "report")}
        done = run_command("names", "--legend", kept["legend"], "--history", kept["history"], kept["report"])
        self.assertEqual((done.returncode, done.stderr), (0, b""))
        found = [line for line in done.stdout.decode().splitlines() if line.startswith("bad-")]
        self.assertEqual(found, ["bad-read line 4 X 2 saw 0 due W", "bad-write 1 U W undecided", "bad-write 2 W Y"])


if __name__ == "__main__":
    unittest.main()
