"""Random runs of a store, logged in both formats with strings for keys, come to the findings of the run's own history."""

from __future__ import annotations

import os
import unittest
from collections import Counter
from concurrent.futures import ThreadPoolExecutor

from si_history import from_events, from_transactions
from si_history.conversion import Conversion
from si_history.history import Begin, text_of
from tests.named_report import NamedReport, named
from tests.random_store import Run, events_log, random_names, random_run, transactions_log
from tests.support import NO_PROGRAM, PROGRAM, audit, converted

RUNS = 1_000
SEED = os.environ.get("ROUND_TRIP_SEED", "24")

# What must occur in at least this many runs, so that the runs show something.
LEAST_SEEN = 30


def named_of(conversion: Conversion) -> NamedReport:
    """The report of a converted log, in the log's names."""
    legend = conversion.legend
    return named(*audit(text_of(conversion.events)), conversion.events, legend.transactions.__getitem__, legend.keys.__getitem__)


def kinds_in(run: Run, report: NamedReport) -> set[str]:
    """What a run shows: the words that its report's lines start with, and whether starts were named."""
    kinds = {" ".join(map(str, line[:2])) if len(line) == 2 else str(line[0]) for line in report.lines}
    if any(isinstance(event, Begin) and event.start is not None for event in run.events):
        kinds.add("named start")
    return kinds


@unittest.skipUnless(PROGRAM.exists(), NO_PROGRAM)
class RoundTripTest(unittest.TestCase):
    def test_1_000_runs(self) -> None:
        seen: Counter[str] = Counter()
        with ThreadPoolExecutor(4) as pool:
            for kinds in pool.map(self.check, range(RUNS)):
                seen.update(kinds)
        for kind in (
            "isolation kept", "isolation broken", "bad-read", "bad-write", "unexplained", "edge", "pivot", "ssi pass",
            "ssi fail", "serializable yes", "serializable no", "order", "cycle", "named start",
        ):
            self.assertGreaterEqual(seen[kind], LEAST_SEEN, kind)

    def check(self, number: int) -> set[str]:
        """Compares the three reports of one run."""
        seed = f"{SEED}.{number}"
        run = random_run(seed)
        names = random_names(run)
        status, report = audit(text_of(run.events))
        self.assertIn(status, (0, 1), f"seed {seed}: {report}")
        direct = named(status, report, run.events, names.transactions.__getitem__, names.keys.__getitem__)

        # The log of events has the places and the numbers of the transactions, so the report is the same line by line.
        self.assertEqual(named_of(converted(from_events.convert, events_log(run, names))), direct, f"seed {seed}")

        lines: list[object] = list(transactions_log(run, names))
        in_order = named_of(converted(from_transactions.convert, lines))
        self.assertEqual(in_order.in_any_places(), direct.in_any_places(), f"seed {seed}")
        if number % 2:
            run.random.shuffle(lines)
            shuffled = named_of(converted(from_transactions.convert, lines))
            self.assertEqual(shuffled.in_any_order(), direct.in_any_order(), f"seed {seed}, shuffled")
        return kinds_in(run, direct)


if __name__ == "__main__":
    unittest.main()
