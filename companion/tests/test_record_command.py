"""The command line of the recorder: what it refuses, and, where SERVERS=1 asks for it, real servers.

Those tests start servers, so `make test` leaves them out: `make test SERVERS=1` does them too, where servers and drivers are
installed. Each is started in a directory of its own, and needs no network.
"""

from __future__ import annotations

import json
import os
import re
import subprocess
import sys
import tempfile
import unittest
from pathlib import Path
from typing import ClassVar

from si_history.record import mariadb, postgres
from si_history.record.model import StoreFault
from si_history.record.server import program
from tests.support import COMPANION, LONG_SECONDS, MARKED, NO_PROGRAM, PROGRAM, audit, run_command

SYSTEM_PYTHON = "/usr/bin/python3"


def python_with(names: tuple[str, ...]) -> str | None:
    """A Python that has one of the modules: this one, or else that of the system."""
    for python in (sys.executable, SYSTEM_PYTHON):
        for name in names:
            try:
                found = subprocess.run([python, "-c", f"import {name}"], capture_output=True, timeout=LONG_SECONDS, check=False)
            except (OSError, subprocess.TimeoutExpired):
                continue
            if found.returncode == 0:
                return python
    return None


def has_postgres() -> bool:
    try:
        program("initdb", postgres.TITLE, postgres.PLACES.glob("*/bin"))
    except StoreFault:
        return False
    return True


def has_mariadb() -> bool:
    try:
        program("mariadb-install-db", mariadb.TITLE, mariadb.PLACES)
        program("mariadbd", mariadb.TITLE, mariadb.PLACES)
    except StoreFault:
        return False
    return True


def python_for(store: str) -> str | None:
    """A Python that has the driver of a store whose server is installed."""
    if store == "postgres":
        return python_with(postgres.DRIVERS) if has_postgres() else None
    return python_with(mariadb.DRIVERS) if has_mariadb() else None


IS_ASKED = os.environ.get("SERVERS") == "1"
NOT_ASKED = "left out: it starts a database server, which SERVERS=1 asks for"
NO_STORE = "left out: there is no {0} server, or no Python with its driver (tools/install_databases.sh installs both)"
# What the recorder says where a server can't be made or doesn't get ready, for which the recorder is not to blame.
CANNOT_START = "there is no account|MB free|too long for a socket|took longer than|was not ready within|did not start|(initdb|install-db) failed"


class CommandLines(unittest.TestCase):
    def check_refused(self, words: tuple[str, ...], wanted: str) -> None:
        done = run_command("record", *words)
        self.assertEqual((done.returncode, done.stdout), (2, MARKED))
        self.assertEqual(done.stderr.count(b"\n"), 1, done.stderr)
        self.assertIn(wanted, done.stderr.decode())

    def test_bad_command_lines_are_refused_in_one_line(self) -> None:
        for words, wanted in (
            ((), "DATABASE"),
            (("oracle",), "oracle"),
            (("postgres", "--sessions", "1"), "no whole number from 2 to 32"),
            (("postgres", "--sessions", "33"), "no whole number from 2 to 32"),
            (("postgres", "--transactions", "0"), "no whole number from 1 to 16666"),
            (("postgres", "--transactions", "5", "--events", "5"), "not allowed with"),
            (("postgres", "--level", "read committed"), "invalid choice"),
            (("postgres", "--seed", "-1"), "no whole number"),
            (("postgres", "--lock-timeout", "0"), "no number of seconds above 0"),
            (("postgres", "--lock-timeout", "nan"), "no number of seconds above 0"),
            (("postgres", "--legend", "x"), "--legend goes with --format history"),
            (("mariadb", "--snapshot-isolation", "maybe"), "invalid choice"),
            (("mariadb", "--keys", "1"), "no whole number from 2 to 10000"),
        ):
            with self.subTest(words):
                self.check_refused(words, wanted)

    def test_a_missing_driver_or_server_is_told(self) -> None:
        """A Python without site packages has no driver."""
        for store in ("postgres", "mariadb"):
            with self.subTest(store):
                done = subprocess.run([sys.executable, "-I", "-S", "-c",
                                       f"import sys; sys.path.insert(0, {str(COMPANION)!r}); from si_history.cli import main; "
                                       f"sys.exit(main(['record', {store!r}]))"], capture_output=True, timeout=LONG_SECONDS, check=False)
                self.assertEqual((done.returncode, done.stdout), (2, MARKED))
                self.assertRegex(done.stderr.decode(), r"^si-history: no driver for [^\n]*\n$")

    def test_help_has_examples(self) -> None:
        for store in ("postgres", "mariadb"):
            done = run_command("record", store, "--help")
            self.assertEqual(done.returncode, 0)
            self.assertIn(f"si-history record {store} --transactions", done.stdout.decode())

    def test_the_words_that_connect_to_mariadb(self) -> None:
        self.assertEqual(mariadb.words_of("socket=/s user=me database=test port=3306"),
                         {"unix_socket": "/s", "user": "me", "database": "test", "port": 3306})
        for text in ("", "user=me", "database", "database=", "database=a table=b", "database=a port=x"):
            with self.subTest(text), self.assertRaises(StoreFault):
                mariadb.words_of(text)


@unittest.skipUnless(IS_ASKED, NOT_ASKED)
class Stores(unittest.TestCase):
    """Runs against real servers. One thread drives the sessions, so that its order and the server's must be the same."""

    pythons: ClassVar[dict[str, str | None]]

    @classmethod
    def setUpClass(cls) -> None:
        cls.pythons = {store: python_for(store) for store in ("postgres", "mariadb")}

    def record(self, *words: str) -> bytes:
        python = self.pythons[words[0]]
        if python is None:
            self.skipTest(NO_STORE.format(words[0]))
        with tempfile.TemporaryDirectory(prefix="si-test-") as place:
            Path(place).chmod(0o755)
            done = subprocess.run([python, "-m", "si_history", "record", *words, "--lock-timeout", "120"], capture_output=True,
                                  timeout=LONG_SECONDS, check=False,
                                  env={**os.environ, "PYTHONPATH": str(COMPANION), "TMPDIR": place})
            self.assertEqual(os.listdir(place), [])
        said = done.stderr.decode()
        if done.returncode == 2 and re.search(CANNOT_START, said):
            self.skipTest(f"left out: the server can't be started here: {said.strip()}")
        self.assertEqual((done.returncode, said), (0, ""))
        return done.stdout

    def check_repeated(self, *words: str) -> None:
        """A seed repeats the run, and every snapshot sees exactly the commits that the one thread had done before it."""
        words = (*words, "--interleave", "--events", "300", "--format", "events")
        log = self.record(*words)
        self.assertEqual(log, self.record(*words))
        commits = 0
        for line in map(json.loads, log.splitlines()):
            if line["op"] == "begin":
                self.assertEqual(line["start"], commits)
            commits += line["op"] == "commit"
        self.assertGreater(commits, 0)

    def report(self, *words: str) -> str:
        if not PROGRAM.is_file():
            self.skipTest(NO_PROGRAM)
        return audit(self.record(*words, "--events", "600", "--format", "history").decode())[1]

    def test_postgres_is_repeated(self) -> None:
        self.check_repeated("postgres")

    def test_mariadb_is_repeated(self) -> None:
        self.check_repeated("mariadb", "--snapshot-isolation", "on")

    def test_postgres_keeps_isolation_at_repeatable_read(self) -> None:
        self.assertIn("isolation kept\n", self.report("postgres"))

    def test_postgres_is_serializable_at_serializable(self) -> None:
        self.assertIn("serializable yes\n", self.report("postgres", "--level", "serializable"))

    def test_mariadb_breaks_isolation_without_the_setting(self) -> None:
        report = self.report("mariadb", "--interleave")
        self.assertIn("isolation broken\nbad-write ", report)

    def test_a_lost_update_is_played_by_a_script(self) -> None:
        script = "b1@0 b2@0 r1[7:0] r2[7:0] w1[7] c1 w2[7] "
        for words, end in ((("mariadb", "--snapshot-isolation", "off"), "c2"), (("mariadb", "--snapshot-isolation", "on"), "a2"),
                           (("postgres",), "a2")):
            with self.subTest(words), tempfile.NamedTemporaryFile("w", suffix=".history") as file:
                file.write(script + "c2")
                file.flush()
                history = self.record(*words, "--script", file.name, "--rows", "all", "--format", "history")
                self.assertEqual(" ".join(history.decode().split()), script + end)

    def test_mariadb_keeps_isolation_with_the_setting(self) -> None:
        self.assertIn("isolation kept\n", self.report("mariadb", "--snapshot-isolation", "on"))


if __name__ == "__main__":
    unittest.main()
