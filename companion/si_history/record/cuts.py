"""The order of commits that a MariaDB server's binary log tells, and where each snapshot cuts it.

The server writes transactions to its binary log one after another, numbers them there (the last number of a GTID), and lets
them become visible in that order under one lock. START TRANSACTION WITH CONSISTENT SNAPSHOT takes its snapshot under that
lock too, so a snapshot sees the first so many transactions of the log. How many, the snapshot itself is asked: each session
has a row in a table of marks, into which each of its transactions writes its number last of all. So the marks that a snapshot
shows tell which transaction was the last of each session that it sees. That these are the first so many of the log is
checked and not assumed.
"""

from __future__ import annotations

import re
from collections.abc import Mapping
from dataclasses import dataclass

from si_history.record.model import NOBODY, Moment, Point, StoreFault, Timeline

_GTID = re.compile(r"([0-9]+-[0-9]+)-([0-9]+)")


@dataclass(frozen=True)
class Place:
    """A transaction's place in the binary log: which stream of transactions (domain and server), and its number there."""

    stream: str
    number: int

    @classmethod
    def parse(cls, text: str) -> Place:
        """Reads a GTID, `DOMAIN-SERVER-NUMBER`."""
        found = _GTID.fullmatch(text)
        if found is None:
            raise StoreFault(f"MariaDB told a GTID of an unknown form: {text!r}")
        return cls(found[1], int(found[2]))


# The marks that a snapshot shows: for each session the number of its last transaction that is seen, or NOBODY.
Marks = Mapping[int, int]


def timeline(places: Mapping[int, Place], sessions: Mapping[int, int], marks: Mapping[int, Marks]) -> Timeline:
    """The order of all starts and commits.

    `places` has the place of each transaction that committed, `sessions` the session of each, and `marks` what each snapshot
    shows, all by the transaction's number. Raises StoreFault where these tell no order.
    """
    commits = _in_order(places)
    ranks = {number: rank for rank, number in enumerate(commits, 1)}
    counts = _counts(commits, sessions)
    starts: list[list[int]] = [[] for _ in range(len(commits) + 1)]
    for number in sorted(marks):
        seen = _seen(number, marks[number], ranks, counts, sessions)
        if number in ranks and ranks[number] <= seen:
            raise StoreFault(f"MariaDB told a snapshot that sees the commit of its own transaction, T{number}")
        starts[seen].append(number)
    points = [Point(Moment.START, number) for number in starts[0]]
    for rank, number in enumerate(commits, 1):
        points.append(Point(Moment.COMMIT, number))
        points += [Point(Moment.START, one) for one in starts[rank]]
    return points


def _in_order(places: Mapping[int, Place]) -> list[int]:
    """The transactions by their places. Raises StoreFault where these are of several streams, or two are the same."""
    if len({place.stream for place in places.values()}) > 1:
        raise StoreFault("MariaDB told GTIDs of several domains or servers, which have no common order: use one gtid_domain_id")
    if len(set(places.values())) < len(places):
        raise StoreFault("MariaDB told one GTID of two transactions: one is not in the binary log, which the recorder needs")
    return sorted(places, key=lambda number: places[number].number)


def _counts(commits: list[int], sessions: Mapping[int, int]) -> dict[int, int]:
    """For each transaction how many of its session had committed by its commit, itself included."""
    so_far: dict[int, int] = {}
    counts: dict[int, int] = {}
    for number in commits:
        session = sessions[number]
        so_far[session] = counts[number] = so_far.get(session, 0) + 1
    return counts


def _seen(number: int, marks: Marks, ranks: Mapping[int, int], counts: Mapping[int, int], sessions: Mapping[int, int]) -> int:
    """How many commits the snapshot of transaction `number` sees. Raises StoreFault where they aren't the log's first.

    They are the first so many exactly if the last of them has their number as its rank.
    """
    shown = [(session, one) for session, one in marks.items() if one != NOBODY]
    for session, one in shown:
        if one not in ranks or sessions[one] != session:
            raise StoreFault(f"MariaDB told a snapshot of T{number} that shows T{one}, which did not commit in session {session}")
    seen = sum(counts[one] for _, one in shown)
    if seen != max((ranks[one] for _, one in shown), default=0):
        raise StoreFault(f"MariaDB told a snapshot of T{number} that sees a commit of the binary log and not all before it")
    return seen
