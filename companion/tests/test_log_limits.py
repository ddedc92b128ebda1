"""What a log may take: the bytes of one line."""

from __future__ import annotations

import io
import tracemalloc
import unittest

from si_history import from_events, from_transactions
from si_history.errors import BadInput
from si_history.history import text_of
from tests.support import Convert

MOST = 16_777_216
EVENT = b'{"txn": "A", "op": "commit"}'
TRANSACTION = b'{"txn": "A", "start": 1, "commit": 2, "aborted": false, "ops": []}'


class LineTest(unittest.TestCase):
    def check(self, convert: Convert, line: bytes, history: str) -> None:
        """A line of the most bytes is taken, and a longer one isn't, wherever it stands."""
        longest = line.ljust(MOST - 1) + b"\n"
        self.assertEqual(text_of(convert(io.BytesIO(longest)).events), history)
        for before in (b"", b"{}\n"):
            with self.assertRaises(BadInput) as refused:
                convert(io.BytesIO(before.replace(b"{}", line.replace(b'"A"', b'"B"')) + b" " + longest))
            self.assertEqual(refused.exception.line, before.count(b"\n") + 1)
            self.assertEqual(refused.exception.reason, "too long: the limit of bytes of a line is 16,777,216")

    def test_a_line_of_events(self) -> None:
        self.check(from_events.convert, EVENT, "c1\n")

    def test_a_line_of_transactions(self) -> None:
        self.check(from_transactions.convert, TRANSACTION, "b1@0\nc1\n")

    def test_a_long_line_takes_no_memory(self) -> None:
        """A hundred megabytes of brackets are refused before they are read as JSON."""
        log = io.BytesIO(b"[" * 100_000_000)
        tracemalloc.start()
        try:
            with self.assertRaisesRegex(BadInput, "limit of bytes of a line"):
                from_events.convert(log)
            self.assertLess(tracemalloc.get_traced_memory()[1], 3 * MOST)
        finally:
            tracemalloc.stop()


if __name__ == "__main__":
    unittest.main()
