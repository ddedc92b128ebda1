"""Random logs of transactions, also such as no store records: an order is found exactly where a search of all orders has one.

Of each history that is made it is looked at whether it tells what the log tells.
"""

from __future__ import annotations

import random
import unittest
from functools import cache

from si_history.errors import BadInput
from si_history.from_transactions import convert
from si_history.history import Begin, Commit, Event, Read, Write
from tests.support import converted

RUNS = 3_000
SEED = 7
LEAST_SEEN = 300

# A transaction of the test: its start, its commit or None, and its operations, ("r", key, writer) or ("w", key).
Operation = tuple[str, int] | tuple[str, int, str]
Transaction = tuple[int, int | None, tuple[Operation, ...]]


def random_transactions(r: random.Random) -> dict[str, Transaction]:
    """Up to four transactions, which saw versions that others of them wrote. Those that only read may commit at their start."""
    names = "ABCD"[:r.randint(2, 4)]
    commits = r.sample(range(4, 12), len(names))
    writes = {name: [k for k in (1, 2) if r.random() < 0.6] for name in names}
    made: dict[str, Transaction] = {}
    for name, commit in zip(names, commits):
        operations: list[Operation] = [("w", key) for key in writes[name]]
        others = [("r", key, u) for u in names if u != name for key in writes[u]]
        operations += r.choices(others, k=r.randint(0, 2)) if others else []
        r.shuffle(operations)
        start = r.randint(0, commit - 1 if writes[name] else commit)
        made[name] = (start, commit if r.random() < 0.8 else None, tuple(operations))
    return made


def has_order(transactions: dict[str, Transaction]) -> bool:
    """Whether the events can stand in some order that a history can say: tried one event after another, in all ways."""
    names = list(transactions)
    commits = {name: commit for name, (_, commit, _) in transactions.items() if commit is not None}

    def may_come(done: tuple[int, ...], index: int) -> bool:
        """Whether the next event of a transaction may come, where so many of each one's have."""
        name, (start, commit, operations) = names[index], transactions[names[index]]
        at, ended = done[index], {u for u, so_many in zip(names, done) if u in commits and so_many == 2 + len(transactions[u][2])}
        if at == 0:
            return all(u in ended for u, time in commits.items() if time <= start and u != name)
        if at == len(operations) + 1:
            return commit is not None and all(u in ended for u, time in commits.items() if time < commit)
        if at > len(operations):
            return False
        return operations[at - 1][0] == "w" or is_written(done, operations[at - 1])

    def is_written(done: tuple[int, ...], operation: Operation) -> bool:
        """Whether the version that a read saw is written."""
        writer = names.index(operation[2])
        so_far = transactions[operation[2]][2][:max(done[writer] - 1, 0)]
        return ("w", operation[1]) in so_far

    ends = tuple(1 + len(operations) + (commit is not None) for _, commit, operations in transactions.values())

    @cache
    def can_end(done: tuple[int, ...]) -> bool:
        steps = (done[:n] + (done[n] + 1,) + done[n + 1:] for n in range(len(names)) if may_come(done, n))
        return done == ends or any(map(can_end, steps))

    return can_end((0,) * len(names))


class PlacingTest(unittest.TestCase):
    def test_an_order_is_found_exactly_where_there_is_one(self) -> None:
        r = random.Random(SEED)
        found = {True: 0, False: 0}
        for number in range(RUNS):
            transactions = random_transactions(r)
            lines: list[object] = [
                {"txn": name, "start": start, "commit": commit, "aborted": False, "ops": operations}
                for name, (start, commit, operations) in transactions.items()
            ]
            try:
                events = converted(convert, lines).events
            except BadInput as fault:
                self.assertIn("can't be put before the read", str(fault), f"run {number}")
                events = None
            self.assertEqual(events is not None, has_order(transactions), f"run {number}: {transactions}")
            found[events is not None] += 1
            if events is not None:
                self.check_told(transactions, events)
        self.assertGreaterEqual(min(found.values()), LEAST_SEEN)

    def check_told(self, transactions: dict[str, Transaction], events: list[Event]) -> None:
        """Compares what a history tells with the log: operations, the order of commits, and what each snapshot has."""
        numbers = {name: number for number, name in enumerate(transactions, 1)}
        places = {event.transaction: place for place, event in enumerate(events, 1) if isinstance(event, Commit)}
        times = {numbers[name]: commit for name, (_, commit, _) in transactions.items() if commit is not None}
        self.assertEqual(sorted(times, key=times.__getitem__), list(places))
        written: set[tuple[int, int]] = set()
        for place, event in enumerate(events, 1):
            if isinstance(event, Read):
                self.assertIn((event.saw, event.key), written)
            elif isinstance(event, Write):
                written.add((event.transaction, event.key))
            elif isinstance(event, Begin):
                self.assertLess(event.start, place)
        for name, (start, commit, operations) in transactions.items():
            own = [event for event in events if event.transaction == numbers[name]]
            seen = {u for u, at in places.items() if at <= own[0].start}
            self.assertEqual(seen, {u for u, time in times.items() if time <= start and u != numbers[name]})
            told = [Write(numbers[name], key) if kind == "w" else Read(numbers[name], key, numbers[writer[0]])
                    for kind, key, *writer in operations]
            self.assertEqual(own[1:], told + ([Commit(numbers[name])] if commit is not None else []))


if __name__ == "__main__":
    unittest.main()
