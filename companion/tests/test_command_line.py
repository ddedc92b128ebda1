"""The command line: statuses, what is written where, files and pipes that fail, and what `make install` installs."""

from __future__ import annotations

import hashlib
import json
import os
import subprocess
import sys
import tempfile
import time
import unittest
from pathlib import Path

from tests.support import COMPANION, LONG_SECONDS, MARKED, REPOSITORY, log_of, run_command

EVENTS = log_of([{"txn": "A", "op": "write", "key": "k"}, {"txn": "A", "op": "commit"}])
HISTORY = b"b1@0\nw1[0]\nc1\n"
TRANSACTIONS = log_of([{"txn": "A", "start": 1, "commit": 2, "aborted": False, "ops": [["w", "k"]]}])


def long_events_log() -> bytes:
    """A log of 100,000 events: of each transaction a begin, a read, a write and a commit."""
    lines: list[object] = []
    for n in range(25_000):
        name, key = f"t{n}", f"k{n % 100}"
        saw = f"t{n - 100}" if n >= 100 else None
        lines.append({"txn": name, "op": "begin", "start": n})
        lines.append({"txn": name, "op": "read", "key": key, "saw": saw})
        lines.append({"txn": name, "op": "write", "key": key})
        lines.append({"txn": name, "op": "commit"})
    return log_of(lines)


def long_transactions_log() -> bytes:
    """A log that makes 100,000 events: of each transaction a begin, a read, a write and a commit."""
    lines: list[object] = []
    for n in range(25_000):
        key, saw = f"k{n % 100}", f"t{n - 100}" if n >= 100 else None
        operations = [["r", key, saw], ["w", key]]
        lines.append({"txn": f"t{n}", "start": 10 * n, "commit": 10 * n + 5, "aborted": False, "ops": operations})
    return log_of(lines)


class StatusTest(unittest.TestCase):
    def check(self, words: list[str], given: bytes, status: int, output: bytes, said: bytes) -> None:
        """Runs a command line, and compares its status and both outputs."""
        done = run_command(*words, given=given)
        self.assertEqual((done.returncode, done.stdout, done.stderr), (status, output, said))

    def test_histories(self) -> None:
        self.check(["from-events", "-"], EVENTS, 0, b"w1[0]\nc1\n", b"")
        self.check(["from-transactions", "-"], TRANSACTIONS, 0, b"b1@0\nw1[0]\nc1\n", b"")

    def test_a_bad_log_writes_nothing(self) -> None:
        with tempfile.TemporaryDirectory() as directory:
            legend = Path(directory) / "legend"
            self.check(
                ["from-events", "--legend", str(legend), "-"], EVENTS + b"{}\n", 2, MARKED,
                b'si-history: standard input: line 3: the field "txn" is missing\n',
            )
            self.assertFalse(legend.exists())

    def test_files(self) -> None:
        with tempfile.TemporaryDirectory() as directory:
            log, legend = Path(directory) / "run.jsonl", Path(directory) / "run.legend"
            log.write_bytes(TRANSACTIONS + b"[]\n")
            self.check(["from-transactions", str(log)], b"", 2, MARKED, b"si-history: %s: line 2: no JSON object\n" % bytes(log))
            log.write_bytes(TRANSACTIONS)
            self.check(["from-transactions", str(log), "--legend", str(legend)], b"", 0, b"b1@0\nw1[0]\nc1\n", b"")
            self.assertEqual(
                json.loads(legend.read_text()),
                {
                    "format": "si-history legend 2", "history": f"sha256:{hashlib.sha256(HISTORY).hexdigest()}",
                    "transactions": {"1": "A"}, "keys": {"0": "k"}, "events": [1, 1, 1], "times": {"1": [1, 2]},
                },
            )

    def test_files_that_fail(self) -> None:
        with tempfile.TemporaryDirectory() as directory:
            missing = os.path.join(directory, "missing")
            self.check(
                ["from-events", missing], b"", 2, MARKED, f"si-history: {missing}: No such file or directory\n".encode()
            )
            self.check(["from-events", directory], b"", 2, MARKED, f"si-history: {directory}: Is a directory\n".encode())
            there = os.path.join(missing, "legend")
            self.check(
                ["from-events", "-", "--legend", there], EVENTS, 2, MARKED,
                f"si-history: {there}: can't be written: No such file or directory\n".encode(),
            )
        self.check(
            ["from-events", "-", "--legend", "-"], EVENTS, 2, MARKED,
            b"si-history: --legend needs a file of its own: standard output has the history\n",
        )

    def test_faulty_command_lines(self) -> None:
        self.check([], b"", 2, MARKED, b"si-history: the following arguments are required: COMMAND (see si-history --help)\n")
        for words in (["from-nowhere"], ["from-events"], ["from-events", "-", "-"], ["from-events", "--legend"]):
            done = run_command(*words)
            with self.subTest(words=words):
                self.assertEqual((done.returncode, done.stdout, done.stderr.count(b"\n")), (2, MARKED, 1))

    def test_help(self) -> None:
        for words in ([], ["from-events"], ["from-transactions"]):
            done = run_command(*words, "--help")
            with self.subTest(words=words):
                self.assertEqual((done.returncode, done.stderr), (0, b""))
                self.assertIn(b"si-history " + " ".join(words or ["COMMAND"]).encode(), done.stdout)
        self.assertIn(b"examples:\n  si-history from-events run.jsonl >run.history", run_command("from-events", "--help").stdout)


class SpeedTest(unittest.TestCase):
    """Logs of 100,000 events take under two seconds on a machine of today.

    A slow or busy machine must not fail a test, so what is compared is the processor's time, with what the standard
    library's reader of JSON takes for the same log on the same machine at the same time.
    """

    def test_logs_of_100_000_events(self) -> None:
        """The bounds are three times what was measured: 2.6 to 2.7 times the reader's time, and 7.2 to 9.1 times."""
        for command, log, most in (
            ("from-events", long_events_log(), 8.0), ("from-transactions", long_transactions_log(), 27.0),
        ):
            with self.subTest(command=command):
                self.assertLess(min(self.seconds(command, log) / reader_seconds(log) for _ in range(3)), most)

    def seconds(self, command: str, log: bytes) -> float:
        """How much of the processor's time a command takes for a log of 100,000 events."""
        before = os.times().children_user
        done = run_command(command, "-", given=log)
        self.assertEqual((done.returncode, done.stdout.count(b"\n")), (0, 100_000))
        return os.times().children_user - before


def reader_seconds(log: bytes) -> float:
    """How much of the processor's time it takes to read each line of a log as JSON, and no more."""
    before = time.process_time()
    for line in log.splitlines():
        json.loads(line)
    return time.process_time() - before


class PipesTest(unittest.TestCase):
    def test_an_output_that_ends_early_is_no_fault(self) -> None:
        log = log_of([{"txn": f"t{n}", "op": "abort"} for n in range(50_000)])
        status, said = self.run_shell(f"{sys.executable} -m si_history from-events - | head -n 1", log)
        self.assertEqual((status, said), (0, b""))

    @unittest.skipUnless(os.path.exists("/dev/full"), "left out: there is no /dev/full")
    def test_an_output_that_is_full(self) -> None:
        status, said = self.run_shell(f"{sys.executable} -m si_history from-events - >/dev/full", EVENTS)
        self.assertEqual((status, said), (2, b"si-history: standard output: can't be written: No space left on device\n"))

    def test_closed_devices(self) -> None:
        status, said = self.run_shell(f"{sys.executable} -m si_history from-events - >&-", EVENTS)
        self.assertEqual((status, said), (2, b"si-history: standard output: can't be written: it is closed\n"))
        status, said = self.run_shell(f"{sys.executable} -m si_history from-events - <&-", b"")
        self.assertEqual((status, said), (2, b"si-history: standard input: it is closed\n"))

    def run_shell(self, line: str, given: bytes) -> tuple[int, bytes]:
        """Runs a line of the shell. The status is that of the last command; of a pipe, standard error tells of the first."""
        done = subprocess.run(
            ["sh", "-c", line], input=given, capture_output=True, timeout=LONG_SECONDS, env={**os.environ, "PYTHONPATH": str(COMPANION)}
        )
        return done.returncode, done.stderr


class InstallTest(unittest.TestCase):
    def test_the_installed_command(self) -> None:
        with tempfile.TemporaryDirectory() as directory:
            to = Path(directory) / "a place"
            done = subprocess.run(
                ["sh", "tools/install_companion.sh"], cwd=REPOSITORY, capture_output=True, timeout=LONG_SECONDS,
                env={**os.environ, "DESTDIR": str(to), "PREFIX": "/usr/pre fix"},
            )
            self.assertEqual(done.returncode, 0, done.stderr)
            installed = to / "usr" / "pre fix"
            command = installed / "bin" / "si-history"
            self.assertFalse(list(installed.rglob("__pycache__")))
            link = Path(directory) / "linked"
            link.symlink_to(command)
            for start in (command, link):
                ran = subprocess.run(
                    [start, "from-events", "-"], input=EVENTS, cwd=directory, capture_output=True, timeout=LONG_SECONDS
                )
                self.assertEqual((ran.returncode, ran.stdout, ran.stderr), (0, b"w1[0]\nc1\n", b""))


if __name__ == "__main__":
    unittest.main()
