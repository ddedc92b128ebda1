"""Stores with one bug each, told by writers, by values and as Jepsen histories, come to the same findings by name."""

from __future__ import annotations

import io
import os
import re
import subprocess
import unittest
from collections import Counter
from collections.abc import Callable
from concurrent.futures import ThreadPoolExecutor

from si_history import from_events, from_jepsen, from_transactions
from si_history.conversion import Conversion
from si_history.history import Event, text_of
from tests.named_report import NamedReport, named
from tests.random_store import Bug, Line, events_log, random_names, random_run, transactions_log
from tests.support import LONG_SECONDS, NO_PROGRAM, PROGRAM, audit, converted
from tests.told_by_values import append_history, register_history, value_events_log, value_transactions_log

RUNS = 50
SEED = os.environ.get("ROUND_TRIP_SEED", "24")
LEAST_SEEN = 10
EXPLAINED_NAME = re.compile(r"  ([a-z ]+): event")

Found = tuple[NamedReport, Counter[str]]
Named = Callable[[int], str]


def found(events: list[Event], transaction: Named, key: Named) -> Found:
    """The report of a history in names, and how often each name of a bad read stands in the explained one."""
    text = text_of(events)
    explained = subprocess.run([PROGRAM, "--explain"], input=text.encode(), capture_output=True, timeout=LONG_SECONDS).stdout.decode()
    bad_reads = [line for before, line in zip(explained.splitlines(), explained.splitlines()[1:]) if before.startswith("bad-read")]
    names = Counter(EXPLAINED_NAME.match(line)[1] for line in bad_reads)  # type: ignore[index]
    names["bad-write"] = len(re.findall("^bad-write", explained, re.MULTILINE))
    return named(*audit(text), events, transaction, key), names


@unittest.skipUnless(PROGRAM.exists(), NO_PROGRAM)
class RoundTripTest(unittest.TestCase):
    def test_each_bug_alone(self) -> None:
        with ThreadPoolExecutor(4) as pool:
            for bug in Bug:
                seen: Counter[str] = Counter()
                for names in pool.map(lambda number, bug=bug: self.check(f"{SEED}.{bug.value}.{number}", bug), range(RUNS)):
                    seen.update(set(names.elements()))
                with self.subTest(bug=bug):
                    if bug is not Bug.NONE:
                        self.assertGreaterEqual(seen[bug.value], LEAST_SEEN)
                    self.assertLessEqual(set(seen), {bug.value, *MAY_SHOW_TOO.get(bug, ())})

    def check(self, seed: str, bug: Bug) -> Counter[str]:
        """Compares the reports of one run, and answers the findings' names."""
        run = random_run(seed, bug, has_ranges=bug is Bug.PHANTOM)
        names = random_names(run)
        direct = found(run.events, names.transactions.__getitem__, names.keys.__getitem__)
        lines = transactions_log(run, names)

        def same(made: Conversion, told: str, expected: Found = direct) -> None:
            report, counts = found(made.events, made.legend.transactions.__getitem__, made.legend.keys.__getitem__)
            self.assertEqual((report.in_any_places(), counts), (expected[0].in_any_places(), expected[1]), f"seed {seed}, {told}")

        same(converted(from_events.convert, list(events_log(run, names))), "events by writers")
        same(converted(from_events.convert, list(value_events_log(run, names))), "events by values")
        same(converted(from_transactions.convert, list(lines)), "transactions by writers")
        same(converted(from_transactions.convert, list(value_transactions_log(run, lines, names))), "transactions by values")
        if not run.has_ranges and not run.open:
            numbers = {name: str(number) for number, name in names.keys.items()}
            for told, text, told_lines in (
                ("registers", register_history(run, lines), [without_lost_reads(line) for line in lines]),
                ("lists", append_history(run, lines), [with_each_write_once(line) for line in lines]),
            ):
                made = converted(from_transactions.convert, list(told_lines))
                keys = {number: numbers[name] for number, name in made.legend.keys.items()}
                expected = found(made.events, "T{}".format, keys.__getitem__)
                same(from_jepsen.convert(io.BytesIO(text)), told, expected)
        return direct[1]


def without_lost_reads(line: Line) -> Line:
    """A transaction without what a Jepsen history doesn't tell: that one that failed read what nobody wrote."""
    operations = line["ops"]
    assert isinstance(operations, list)
    return line | {"ops": [one for one in operations if not line["aborted"] or one[0] == "w" or one[2] is not None]}


def with_each_write_once(line: Line) -> Line:
    """A transaction with its first write of each key alone: an item is appended once."""
    operations = line["ops"]
    assert isinstance(operations, list)
    return line | {"ops": [one for number, one in enumerate(operations) if one[0] != "w" or one not in operations[:number]]}


# A store whose reads see what isn't committed can show it as what it is called once that has ended.
MAY_SHOW_TOO = {Bug.UNCOMMITTED: ("future read", "aborted read")}


if __name__ == "__main__":
    unittest.main()
