"""Tests of the generator of long histories: how long they are, and that it knows what the definitions find in them.

    PYTHONPATH=tools python3 -m unittest long_histories_tests
"""

from __future__ import annotations

import io
import unittest
from collections.abc import Sequence
from contextlib import redirect_stderr

from long_histories import KINDS, Schedule, main, planted, write_history
from oracle import explaining, taking
from oracle.account import Account
from oracle.events import Event
from oracle.reading import Refusal, read
from planting import PLANTS

SEEDS = (1, 2, 3)


def made(kind: str, events: int, seed: int = 1, plants: Sequence[str] = ()) -> tuple[Schedule, str]:
    """A history, and what is known of it."""
    text = io.StringIO()
    return write_history(kind, events, seed, plants, text.write), text.getvalue()


def judged(text: str) -> tuple[list[Event], Account]:
    """The events of a text, and what the definitions say of them."""
    events = read(text.encode())
    assert not isinstance(events, Refusal), events.line
    return events, taking.account_of(events)


class LengthTest(unittest.TestCase):
    def test_so_many_events(self) -> None:
        for kind in KINDS:
            for count in (0, 1, 2, 3, 7, 8, 9, 10, 11, 100, 12_345):
                with self.subTest(kind=kind, count=count):
                    schedule, text = made(kind, count)
                    self.assertEqual((text.count("\n"), schedule.store.place), (count, count))

    def test_the_store_is_loaded_first(self) -> None:
        tokens = made("ranges", 2_000)[1].split()
        written = [token for token in tokens[:202] if token.startswith("w")]
        self.assertEqual(written, [f"w{1 + key // 100}[{key}]" for key in range(200)])
        self.assertFalse(made("even", 2_000)[1].startswith("w1[0]"))

    def test_the_same_words_give_the_same_text(self) -> None:
        self.assertEqual(made("even", 2_000, 5, ["stale-read"])[1], made("even", 2_000, 5, ["stale-read"])[1])
        self.assertNotEqual(made("even", 2_000, 5)[1], made("even", 2_000, 6)[1])

    def test_too_many_anomalies(self) -> None:
        for events, plants in ((999, 1), (2_000, 21)):
            with self.assertRaisesRegex(ValueError, f"^{plants} anomalies are too many for {events} events$"):
                made("even", events, plants=["stale-read"] * plants)
        self.assertEqual(planted("write-skew=2"), ["write-skew", "write-skew"])
        with redirect_stderr(io.StringIO()) as said:
            self.assertEqual(main(["even", "10", "--plant", "stale-read=1"]), 2)
        self.assertEqual(said.getvalue(), "long_histories.py: 1 anomalies are too many for 10 events\n")


class FindingsTest(unittest.TestCase):
    """What the generator knows of a history is what the definitions say of it."""

    def test_without_anomalies(self) -> None:
        for kind in KINDS:
            for seed in SEEDS:
                with self.subTest(kind=kind, seed=seed):
                    self.same(*made(kind, 1_200, seed))

    def test_each_anomaly(self) -> None:
        for name in PLANTS:
            for kind in KINDS:
                with self.subTest(name=name, kind=kind):
                    schedule, text = made(kind, 1_000, plants=[name] * 2)
                    self.same(schedule, text)
                    lines = 2 * (name != "write-skew") + 2 * (name in ("aborted-read", "uncommitted-read", "own-write-missed"))
                    self.assertEqual(len(schedule.found.findings), lines)
                    self.assertEqual(len(schedule.found.snapshots), 2 * (name != "write-skew"))

    def test_all_anomalies(self) -> None:
        for kind in KINDS:
            for seed in SEEDS:
                with self.subTest(kind=kind, seed=seed):
                    self.same(*made(kind, 1_200, seed, list(PLANTS)))

    def same(self, schedule: Schedule, text: str) -> None:
        events, account = judged(text)
        for explained, report in ((False, account.report(brief=True)), (True, explaining.report(events, account))):
            head = report.decode().partition("ssi ")[0].splitlines()
            self.assertEqual(list(schedule.found.lines(schedule.store, explained)), head)
        self.assertTrue(not schedule.found.fails_ssi or not account.passes)
        self.assertTrue(not schedule.found.has_no_order or not account.is_serializable)


if __name__ == "__main__":
    unittest.main()
