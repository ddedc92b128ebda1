"""Logs of 100,000 events of each kind take under four seconds on a machine of today.

A slow or busy machine must not fail a test, so what is compared is the processor's time, with what the standard library's
reader of JSON takes for a log of 100,000 events on the same machine at the same time: some 0.3 seconds on a machine of today.
"""

from __future__ import annotations

import os
import unittest

from tests.support import log_of, run_command
from tests.test_command_line import long_events_log, reader_seconds

TRANSACTIONS = 25_000
KEYS = 2_500
# Twice what was measured: 7 to 8 times the reader's time for lists, 3 to 6 times for all else.
MOST = 16.0


def long_log(**fields: object) -> bytes:
    """A log of transactions with values that makes 100,000 events; of each transaction with these fields."""
    lines: list[object] = [{"values": "unique"}]
    for n in range(TRANSACTIONS):
        seen = n - KEYS if n >= KEYS else None
        operations = [["r", f"k{n % KEYS}", seen, {"at": n}], ["w", f"k{n % KEYS}", n]]
        lines.append({"txn": f"t{n}", "start": 10 * n, "commit": 10 * n + 5, "ops": operations, **fields})
    return log_of(lines)


def ended(n: int, operations: str) -> str:
    """An operation of a Jepsen history that is done."""
    return f"{{:type :ok, :f :txn, :value {operations}, :process 0, :index {2 * n + 1}, :start-ts {10 * n}, :commit-ts {10 * n + 5}}}\n"


def invoked(n: int) -> str:
    """Its invocation."""
    return f"{{:type :invoke, :f :txn, :value [[:r {n % KEYS} nil]], :process 0, :time {n * 1_000}, :index {2 * n}}}\n"


def long_register() -> bytes:
    """A Jepsen history of registers that makes 100,000 events."""
    lines = []
    for n in range(TRANSACTIONS):
        seen = n - KEYS + 1 if n >= KEYS else "nil"
        lines.append(invoked(n) + ended(n, f"[[:r {n % KEYS} {seen}] [:w {n % KEYS} {n + 1}]]"))
    return "".join(lines).encode()


def long_lists() -> bytes:
    """A Jepsen history of lists that makes 100,000 events."""
    lines = []
    for n in range(TRANSACTIONS):
        seen = " ".join(map(str, range(n % KEYS + 1, n + 1, KEYS)))
        lines.append(invoked(n) + ended(n, f"[[:r {n % KEYS} [{seen}]] [:append {n % KEYS} {n + 1}]]"))
    return "".join(lines).encode()


class SpeedTest(unittest.TestCase):
    def test_logs_of_100_000_events(self) -> None:
        reference = long_events_log()
        for told, command, log in (
            ("values", "from-transactions", long_log()), ("unknown outcomes", "from-transactions", long_log(commit="unknown")),
            ("registers", "from-jepsen", long_register()), ("lists", "from-jepsen", long_lists()),
        ):
            with self.subTest(told=told):
                ratios = (self.seconds(command, log) / reader_seconds(reference) for _ in range(3))
                self.assertTrue(any(ratio < MOST for ratio in ratios))

    def seconds(self, command: str, log: bytes) -> float:
        """How much of the processor's time a command takes for a log of 100,000 events, or nearly so many."""
        before = os.times().children_user
        done = run_command(command, "-", given=log)
        self.assertEqual((done.returncode, done.stderr), (0, b""))
        self.assertIn(done.stdout.count(b"\n"), range(100_000 - KEYS, 100_001))
        return os.times().children_user - before


if __name__ == "__main__":
    unittest.main()
