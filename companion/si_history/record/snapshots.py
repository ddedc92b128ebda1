"""The order of commits that a PostgreSQL server's snapshots tell.

The server takes a snapshot under a lock that every commit takes too, to leave the list of running transactions. So at each
moment some transactions have committed, a snapshot sees exactly those, and of two snapshots one sees all that the other
sees. Sorted by how much they see, the snapshots are in the order in which they were taken, and each transaction committed
between the last snapshot that doesn't see it and the first that does. This order is found here, and that the snapshots
are so is checked and not assumed.
"""

from __future__ import annotations

import re
from bisect import bisect_left
from collections.abc import Mapping, Sequence
from dataclasses import dataclass, field

from si_history.record.model import Moment, Point, StoreFault, Timeline

_FORM = re.compile(r"([0-9]+):([0-9]+):((?:[0-9]+(?:,[0-9]+)*)?)")


@dataclass(frozen=True)
class Snapshot:
    """What pg_current_snapshot() tells: a transaction's commit is seen if its id is less than `end` and not in `running`."""

    end: int
    running: frozenset[int]

    @classmethod
    def parse(cls, text: str) -> Snapshot:
        """Reads `xmin:xmax:xip,..`: the least id that was running, the first that had not begun, and all that were running."""
        found = _FORM.fullmatch(text)
        if found is None:
            raise StoreFault(f"PostgreSQL told a snapshot of an unknown form: {text}")
        end, running = int(found[2]), frozenset(int(word) for word in found[3].split(",") if word)
        if any(the_id >= end for the_id in running):
            raise StoreFault(f"PostgreSQL told a snapshot with a running transaction behind its end: {text}")
        return cls(end, running)


@dataclass
class Gap:
    """The transactions that committed between two snapshots, and then those that took the next snapshot.

    Of the commits of one gap no snapshot tells which was first.
    """

    commits: list[int] = field(default_factory=list)
    starts: list[int] = field(default_factory=list)


@dataclass(frozen=True, order=True)
class _Sight:
    """What a snapshot sees of the run's commits: how many, its end, the transaction, and the commits that it doesn't see
    though their ids are less than its end."""

    seen: int
    end: int
    number: int
    hidden: frozenset[int] = field(compare=False)


def gaps(snapshots: Mapping[int, Snapshot], committed: Mapping[int, int]) -> list[Gap]:
    """All starts and commits, by what the snapshots tell.

    `snapshots` has each transaction's snapshot, and `committed` the server's id of each that committed, both by the
    transaction's number. Raises StoreFault where of two snapshots neither sees all that the other sees, or where a
    transaction's own snapshot sees its commit.
    """
    ids = sorted(committed.values())
    numbers = {the_id: number for number, the_id in committed.items()}
    last = _Sight(0, 0, 0, frozenset())
    found = [Gap()]
    for sight in sorted(_sight(number, snapshot, ids, numbers) for number, snapshot in snapshots.items()):
        if sight.end < last.end or any(the_id < last.end and the_id not in last.hidden for the_id in sight.hidden):
            raise StoreFault("PostgreSQL told snapshots that are in no order: neither of two sees all that the other sees")
        news = _news(last, sight, ids)
        if news:
            found.append(Gap([numbers[the_id] for the_id in news]))
        found[-1].starts.append(sight.number)
        last = sight
    rest = _news(last, _Sight(len(ids), ids[-1] + 1 if ids else 0, 0, frozenset()), ids)
    found.append(Gap([numbers[the_id] for the_id in rest]))
    _check_own(found)
    return found


def _sight(number: int, snapshot: Snapshot, ids: Sequence[int], numbers: Mapping[int, int]) -> _Sight:
    """What the snapshot of transaction `number` sees of the committed `ids`, which ascend."""
    hidden = frozenset(the_id for the_id in snapshot.running if the_id in numbers)
    return _Sight(bisect_left(ids, snapshot.end) - len(hidden), snapshot.end, number, hidden)


def _news(last: _Sight, sight: _Sight, ids: Sequence[int]) -> list[int]:
    """The ids that a snapshot sees and the last one before it doesn't, ascending."""
    between = ids[bisect_left(ids, last.end):bisect_left(ids, sight.end)]
    return [the_id for the_id in [*sorted(last.hidden), *between] if the_id not in sight.hidden]


def _check_own(found: Sequence[Gap]) -> None:
    """Raises StoreFault where a transaction committed before it took its snapshot."""
    over: set[int] = set()
    for gap in found:
        over.update(gap.commits)
        for number in gap.starts:
            if number in over:
                raise StoreFault(f"PostgreSQL told a snapshot that sees the commit of its own transaction, T{number}")


def timeline(found: Sequence[Gap], times: Mapping[int, int | None], written: Mapping[int, set[int]]) -> Timeline:
    """One order of all starts and commits.

    The commits of one gap go by the server's commit times, `times`, and by their numbers where these are the same. The
    server takes the time before a commit is seen by others, so that times alone are not the order; but a transaction gives
    its rows' locks back after that, so of two that wrote one key the later writer has the later time. Where a time is None,
    since the server keeps none, two transactions of one gap that wrote one key, by `written`, raise StoreFault. Such two
    don't see each other, so where isolation is kept there are none.
    """
    points: Timeline = []
    for gap in found:
        if any(times.get(number) is None for number in gap.commits):
            _check_apart(gap.commits, written)
        points += [Point(Moment.COMMIT, number) for number in sorted(gap.commits, key=lambda one: (times.get(one) or 0, one))]
        points += [Point(Moment.START, number) for number in sorted(gap.starts)]
    return points


def _check_apart(numbers: Sequence[int], written: Mapping[int, set[int]]) -> None:
    """Raises StoreFault where two of the transactions wrote one key."""
    writers: dict[int, int] = {}
    for number in numbers:
        for key in written.get(number, set()):
            if key in writers:
                raise StoreFault(f"T{writers[key]} and T{number} both wrote key {key}, and nothing tells which committed first: "
                                 "set track_commit_timestamp = on at the PostgreSQL server and restart it")
            writers[key] = number
