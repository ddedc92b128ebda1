"""Runs on a Dask cluster of two workers: one dies, all die, the scheduler dies, and there is none."""

from __future__ import annotations

import os
import re
import signal
import subprocess
import sys
import time
import unittest
from functools import lru_cache
from pathlib import Path

from tests.fake_auditor import fake_auditor
from tests.support import COMPANION, LONG_SECONDS, NO_PROGRAM, PROGRAM
from tests.test_audit_many import BROKEN, KEPT, InFolder

RUNS = 12
PATIENCE = "2"
ENVIRONMENT = {**os.environ, "PYTHONPATH": str(COMPANION)}


@lru_cache
def interpreter() -> str | None:
    """A Python that has the package distributed: this one, or the system's."""
    for path in (sys.executable, "/usr/bin/python3"):
        try:
            done = subprocess.run([path, "-c", "import sys, distributed; sys.exit(sys.version_info < (3, 11))"], capture_output=True)
        except OSError:
            continue
        if done.returncode == 0:
            return path
    return None


@unittest.skipUnless(PROGRAM.exists(), NO_PROGRAM)
class ClusterTest(InFolder):
    def setUp(self) -> None:
        super().setUp()
        if interpreter() is None:
            self.skipTest("left out: no Python here has the package distributed")
        self.put(**{f"run{number:02}": BROKEN if number == 7 else KEPT for number in range(RUNS)})
        self.seen = self.beside / "si_audit.workers"
        slow = f'echo $PPID >>"$0.workers"; sleep 0.3; exec {PROGRAM} "$@"'
        self.auditor = fake_auditor(self.beside, slow)

    def cluster(self, workers: int) -> tuple[subprocess.Popen[str], str]:
        """A cluster of its own, and its address. It ends with the test."""
        process = subprocess.Popen(
            [str(interpreter()), str(Path(__file__).with_name("small_cluster.py")), str(workers)],
            stdin=subprocess.PIPE, stdout=subprocess.PIPE, stderr=subprocess.DEVNULL, text=True, env=ENVIRONMENT, cwd=self.beside,
        )
        assert process.stdin is not None and process.stdout is not None
        self.addCleanup(process.stdout.close)
        self.addCleanup(process.wait, LONG_SECONDS)
        self.addCleanup(process.stdin.close)
        address = process.stdout.readline().strip()
        self.assertRegex(address, "^tcp://127.0.0.1:[0-9]+$")
        return process, address

    def start(self, address: str) -> subprocess.Popen[str]:
        """The command, at work."""
        words = ["audit-many", "--auditor", self.auditor, "--memory", "1G", "--dask", address, "--patience", PATIENCE, str(self.folder)]
        process = subprocess.Popen(
            [str(interpreter()), "-m", "si_history", *words],
            stdout=subprocess.PIPE, stderr=subprocess.PIPE, text=True, env=ENVIRONMENT,
        )
        self.addCleanup(process.kill)
        return process

    def workers(self, least: int) -> list[int]:
        """The processes that have audited something, once they have audited so much."""
        end = time.monotonic() + LONG_SECONDS
        while not self.seen.exists() or self.seen.read_text().count("\n") < least:
            self.assertLess(time.monotonic(), end, "the workers do nothing")
            time.sleep(0.02)
        return list(dict.fromkeys(map(int, self.seen.read_text().split())))

    def test_a_worker_that_dies(self) -> None:
        """What it was about to do is done by others: the table is that of a run on this machine."""
        _, address = self.cluster(2)
        process = self.start(address)
        os.kill(self.workers(3)[0], signal.SIGKILL)
        told, said = process.communicate(timeout=LONG_SECONDS)
        self.assertEqual((process.returncode, said), (1, ""))
        self.assertEqual(told, self.audit().stdout.decode())
        self.assertEqual(told.count("meets si"), RUNS - 1)
        self.assertGreater(len(self.workers(RUNS + 1)), 1)

    def test_no_worker(self) -> None:
        """The command doesn't wait for ever, and each run is told to have no verdict."""
        _, address = self.cluster(0)
        process = self.start(address)
        told, said = process.communicate(timeout=LONG_SECONDS)
        self.assertEqual((process.returncode, said), (4, ""))
        self.assertEqual(len(re.findall("no verdict .*the Dask cluster had no worker for 2 seconds", told)), RUNS)

    def test_a_scheduler_that_dies(self) -> None:
        cluster, address = self.cluster(2)
        process = self.start(address)
        workers = self.workers(3)
        cluster.kill()
        told, said = process.communicate(timeout=LONG_SECONDS)
        for worker in {*workers, *self.workers(3)}:
            try:
                os.kill(worker, signal.SIGKILL)
            except ProcessLookupError:
                pass
        self.assertEqual((process.returncode in (1, 4), said), (True, ""))
        self.assertEqual(len(re.findall(r"(?m)^run\d\d\.history +(?:meets si|falls short of si|no verdict)", told)), RUNS)
        self.assertIn("no verdict", told)

    def test_no_scheduler(self) -> None:
        for address in ("tcp://127.0.0.1:1", "nonsense://x", "x"):
            with self.subTest(address=address):
                process = self.start(address)
                told, said = process.communicate(timeout=LONG_SECONDS)
                self.assertEqual((process.returncode, told, said.count("\n")), (2, "", 1), said)
                self.assertIn("there is no Dask scheduler at", said)


if __name__ == "__main__":
    unittest.main()
