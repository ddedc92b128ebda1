"""Small runs of the stores that the recorder runs itself: SQLite, which comes with Python, and others where SERVERS=1 asks for it.

`make test` leaves the others out. `make test SERVERS=1` runs those that are installed, each in a directory of its own.
"""

from __future__ import annotations

import os
import re
import signal
import subprocess
import sys
import tempfile
import time
import unittest
from functools import cache
from pathlib import Path

from si_history.record.kinds import KINDS
from tests.support import COMPANION, LONG_SECONDS, NO_PROGRAM, PROGRAM, audit

PYTHONS = (sys.executable, "/usr/bin/python3")
IS_ASKED = os.environ.get("SERVERS") == "1"
NOT_ASKED = "left out: it runs a store, which SERVERS=1 asks for"
WITHOUT_INSTALLING = "sqlite"
# What each store keeps at the first of its levels by its own manual: isolation, and serializability.
FIRST_LEVELS = {
    "sqlite": (True, True), "lmdb": (True, True), "berkeley": (True, False), "h2": (True, False), "hsqldb": (True, False),
    "firebird": (True, False), "derby": (False, True), "rocksdb": (True, False), "myrocks": (True, False)}
# A level of each that promises no snapshots, and that a run must show as broken.
WEAKER = {"sqlite": "read uncommitted", "berkeley": "read committed", "h2": "read committed", "hsqldb": "read committed",
          "firebird": "read committed", "derby": "read committed", "rocksdb": "no snapshot", "myrocks": "read committed"}


def started(python: str, words: tuple[str, ...], place: str, given: str = "") -> subprocess.CompletedProcess[str]:
    """Runs the recorder, with its files in a place."""
    return subprocess.run([python, "-m", "si_history", "record", *words], input=given, capture_output=True, text=True, check=False,
                          timeout=LONG_SECONDS, env={**os.environ, "PYTHONPATH": str(COMPANION), "TMPDIR": place})


@cache
def python_for(store: str) -> str | None:
    """A Python that can run a store."""
    with tempfile.TemporaryDirectory(prefix="si-test-") as place:
        Path(place).chmod(0o755)
        return next((python for python in PYTHONS if Path(python).exists()
                     and started(python, (store, "--tell-version"), place).returncode == 0), None)


class StoresCase(unittest.TestCase):
    """Tests that record a store."""

    def record(self, store: str, *words: str, given: str = "") -> str:
        """The history of a run, or what else it writes. Nothing is left of the store."""
        if not IS_ASKED and store != WITHOUT_INSTALLING:
            self.skipTest(NOT_ASKED)
        python = python_for(store)
        if python is None:
            self.skipTest(f"left out: {store} isn't installed (tools/install_databases.sh installs it)")
        with tempfile.TemporaryDirectory(prefix="si-test-") as place:
            Path(place).chmod(0o755)
            done = started(python, (store, "--format", "history", *words), place, given)
            self.assertEqual(os.listdir(place), [])
        self.assertEqual((done.returncode, done.stderr), (0, ""))
        return done.stdout

    def played(self, store: str, script: str, *words: str) -> str:
        """What a store did when it was asked for the events of a script, without the begins."""
        history = self.record(store, "--script", "-", "--rows", "all", *words, given=script)
        return " ".join(event for event in history.split() if event[0] != "b")

    def report(self, store: str, *words: str) -> str:
        """The report of a small run, in which few keys and sessions meet often."""
        history = self.record(store, "--events", "600", "--keys", "6", "--sessions", "4", *words)
        if not PROGRAM.is_file():
            self.skipTest(NO_PROGRAM)
        return audit(history)[1]


class Runs(StoresCase):
    def test_every_store_is_known_here(self) -> None:
        self.assertEqual({kind.name for kind in KINDS}, FIRST_LEVELS.keys())

    def test_a_seed_repeats_a_run(self) -> None:
        for store in FIRST_LEVELS:
            with self.subTest(store):
                words = (store, "--transactions", "40", "--seed", "3")
                history = self.record(*words)
                self.assertEqual(history, self.record(*words))
                self.assertGreater(len(re.findall("^c", history, re.MULTILINE)), 0)

    def test_each_store_keeps_what_it_promises_in_a_small_run(self) -> None:
        for store, (is_kept, is_serializable) in FIRST_LEVELS.items():
            with self.subTest(store):
                report = self.report(store)
                if is_kept:
                    self.assertIn("isolation kept\n", report)
                if is_serializable:
                    self.assertIn("serializable yes\n", report)

    def test_a_weaker_level_is_seen_to_be_broken(self) -> None:
        for store, level in WEAKER.items():
            with self.subTest(store):
                self.assertIn("isolation broken\n", self.report(store, "--level", level))

    def test_starts_that_are_noted_too_early_are_seen(self) -> None:
        for store in ("sqlite", "berkeley", "hsqldb", "myrocks"):
            with self.subTest(store):
                self.assertIn("isolation broken\n", self.report(store, "--notes", "begins"))


class Findings(StoresCase):
    """The findings of docs/DATABASES.md, played by their scripts. Each has a control in which it goes away."""

    def test_h2_reads_stale_after_a_rollback(self) -> None:
        script = "r1[0:0] w2[1] c2 r1[1:0] a1 r3[1:2] c3"
        stale = script.replace("r3[1:2]", "r3[1:0]")
        for level in ("snapshot", "repeatable read", "serializable"):
            with self.subTest(level):
                self.assertEqual(self.played("h2", script, "--level", level), stale)
                for control in ("no reuse", "fresh statements"):
                    self.assertEqual(self.played("h2", script, "--level", level, "--setting", control), script)
        committed = script.replace("a1", "c1")
        self.assertEqual(self.played("h2", committed), committed)

    def test_what_h2_reads_stale_is_of_no_snapshot_and_loses_updates(self) -> None:
        """The transaction sees one write of 2 and not the other; and it may write what it has read stale."""
        for level in ("snapshot", "repeatable read", "serializable"):
            for script, stale in (("r1[2:0] w2[0] w2[1] c2 r1[1:0] a1 r3[1:2] r3[0:2] c3", "r3[1:0] r3[0:2]"),
                                  ("r1[0:0] w2[1] c2 r1[1:0] a1 r3[1:2] w3[1] c3", "r3[1:0] w3[1]")):
                with self.subTest(level, script=script):
                    wanted = script.replace(stale.replace("[1:0]", "[1:2]"), stale)
                    self.assertEqual(self.played("h2", script, "--level", level), wanted)
                    self.assertEqual(self.played("h2", script, "--level", level, "--setting", "no reuse"), script)

    def test_h2_takes_a_snapshot_for_each_table_at_repeatable_read(self) -> None:
        script = "r1[0:0] w2[0] w2[1] c2 r1[1:0] c1"
        self.assertEqual(self.played("h2", script, "--level", "repeatable read", "--tables", "2"),
                         script.replace("[1:0]", "[1:2]"))
        self.assertEqual(self.played("h2", script, "--level", "repeatable read"), script)
        self.assertEqual(self.played("h2", script, "--tables", "2"), script)

    def test_firebird_allows_write_skew_at_table_stability(self) -> None:
        script = "b1 b2 r1[4:0] w1[3] c1 r2[3:0] w2[4] c2"
        level = ("--level", "table stability")
        self.assertEqual(self.played("firebird", script, *level), script.removeprefix("b1 b2 "))
        self.assertNotIn("c2", self.played("firebird", script, *level, "--setting", "reserving"))


class Threads(StoresCase):
    def test_stores_keep_isolation_by_threads(self) -> None:
        """But H2, whose stale reads may come, and which is asked without what makes them. With few keys some of its runs fail."""
        calm = ("--setting", "no reuse", "--keys", "64")
        for store, words in (("sqlite", ()), ("lmdb", ()), ("h2", calm), ("rocksdb", ())):
            with self.subTest(store):
                self.assertIn("isolation kept\n", self.report(store, *words, "--threads"))


class Endings(StoresCase):
    def interrupted(self, python: str, store: str, place: str) -> tuple[int, bytes]:
        """The status and the output of a recorder that is interrupted in mid-run."""
        words = [python, "-m", "si_history", "record", store, "--transactions", "16000"]
        with subprocess.Popen(words, stdout=subprocess.PIPE, stderr=subprocess.PIPE,
                              env={**os.environ, "PYTHONPATH": str(COMPANION), "TMPDIR": place}) as process:
            end = time.monotonic() + LONG_SECONDS
            while not list(Path(place).glob("*/*")) and time.monotonic() < end:
                time.sleep(0.02)
            time.sleep(0.5)
            process.send_signal(signal.SIGTERM)
            written, _ = process.communicate(timeout=LONG_SECONDS)
        return process.returncode, written

    def test_a_signal_ends_the_store_and_its_files(self) -> None:
        for store in FIRST_LEVELS:
            with self.subTest(store):
                self.record(store, "--transactions", "1")
                python = python_for(store)
                assert python is not None
                for _ in range(3):
                    with tempfile.TemporaryDirectory(prefix="si-test-") as place:
                        Path(place).chmod(0o755)
                        status, written = self.interrupted(python, store, place)
                        self.assertEqual(status, -signal.SIGTERM)
                        self.assertNotIn(b"txn", written)
                        self.assertEqual(os.listdir(place), [])


if __name__ == "__main__":
    unittest.main()
