"""What is told of an audit: its counts by the findings' names, and each finding with what happened, in the log's own words.

The sentences are those of `findings`. Beside them stands where in the log to look: lines, operations and timestamps.
"""

from __future__ import annotations

from collections import Counter
from collections.abc import Iterator, Mapping, Sequence
from dataclasses import dataclass

from si_history.audited import Audited, Log
from si_history.facts import Facts
from si_history.findings import HEADS, Finding, Kind, groups_of, name_of_read
from si_history.history import Abort, Begin, Commit, Event, RangeRead, Read, Write
from si_history.log_kinds import LogKind
from si_history.report import BadRead, Explained, Report, Snapshot
from si_history.wording import Wording

MOST_PARTIES = 12
"""Of how many transactions of one finding it is told what happened."""
NAMES = {
    Kind.BAD_READ: "bad read", Kind.BAD_WRITE: "bad write", Kind.UNEXPLAINED: "unexplained read", Kind.CYCLE: "cycle",
    Kind.STRUCTURE: "dangerous structure", Kind.PIVOT: "pivot",
}
BREAKS: dict[Kind, tuple[str, ...]] = {
    Kind.BAD_READ: ("si", "ssi", "serializable"), Kind.BAD_WRITE: ("si", "ssi", "serializable"),
    Kind.UNEXPLAINED: ("ssi", "serializable"), Kind.CYCLE: ("ssi", "serializable"), Kind.STRUCTURE: ("ssi",), Kind.PIVOT: (),
}
"""The levels that a history doesn't meet which has such a finding, by what the levels mean (docs/USAGE.md). Where no snapshot fits
the transaction of a bad read, or the second one of a bad write, gsi is one of them too."""


@dataclass(frozen=True, slots=True)
class Moment:
    """Something that happened: an event of the history, or a start, which is between two events.

    `place` is that of the event, and of a start the number of events before it. `operation` is counted within its line.
    `fields` are what else the log says beside the event.
    """

    what: str
    number: int
    transaction: str
    words: str
    place: int
    line: int | None
    operation: int | None
    time: int | None
    fields: Mapping[str, object]


@dataclass(frozen=True, slots=True)
class Told:
    """A finding, as it is told. `breaks` are the levels that no history meets which has it.

    It is undecided where it depends on an outcome that the log doesn't tell. `more` are those of the reasons that only the
    report tells, and neither the sentence nor the moments. `snapshot` tells which snapshots would fit who read, or the second who
    wrote, where the report does.
    """

    kind: Kind
    name: str
    breaks: tuple[str, ...]
    sentence: str
    reasons: tuple[str, ...]
    more: tuple[str, ...]
    found: Explained
    transactions: tuple[int, ...]
    moments: tuple[Moment, ...]
    is_undecided: bool
    snapshot: Snapshot | None = None


@dataclass(slots=True)
class Account:
    """What is told of an audit: how many findings there are of each name, and the first of them.

    `undecided` is how many of those that the report keeps depend on an outcome that the log doesn't tell.
    """

    counts: dict[str, int]
    told: list[Told]
    undecided: int = 0

    @property
    def total(self) -> int:
        return sum(self.counts.values())


def account_of(audited: Audited, most: int | None) -> Account:
    """What is told of an audit that made a report: all counts, and `most` findings; those that break the level come first."""
    report, facts, names = audited.report, audited.facts, audited.log.names
    if report is None or facts is None:
        return Account({}, [])
    chronicle = _Chronicle(audited.log, facts)
    told = [
        chronicle.told(finding, found)
        for group in groups_of(report, facts, names, most)
        for finding, found in zip(group.findings, _found(report, group.kind))
    ]
    told.sort(key=lambda one: audited.level not in one.breaks)
    return Account(dict(_counts(report)), told[:most], _undecided(audited.log, report, facts))


def _undecided(log: Log, report: Report, facts: Facts) -> int:
    """How many findings depend on an outcome that the log doesn't tell; a pivot is no finding of its own."""
    if log.legend is None or not log.legend.outcomes:
        return 0
    groups = groups_of(report, facts, log.names, None)
    findings = [finding for group in groups if group.kind is not Kind.PIVOT for finding in group.findings]
    return sum(log.names.is_undecided(finding.deciding) for finding in findings)


def _counts(report: Report) -> Counter[str]:
    """How many findings have each name, the names in the order in which the findings are told."""
    counts: Counter[str] = Counter()
    for kind in (Kind.BAD_READ, Kind.BAD_WRITE, Kind.UNEXPLAINED, Kind.CYCLE, Kind.STRUCTURE):
        counts.update(name_of(kind, found) for found in _found(report, kind))
        for (head, name), count in report.left_out.items():
            if head == HEADS.get(kind):
                counts[name] += count
    return +counts


def levels_broken_by(finding: Finding) -> tuple[str, ...]:
    """The levels that no history meets which has the finding."""
    is_torn = finding.snapshot is not None and finding.snapshot.fitting is None
    return ("gsi", *BREAKS[finding.kind]) if is_torn else BREAKS[finding.kind]


def counts_against(level: str, counts: Mapping[str, int]) -> dict[str, int]:
    """Of these counts those of findings that no history has which meets the level."""
    others = {NAMES[kind] for kind, levels in BREAKS.items() if level not in levels}
    return {name: count for name, count in counts.items() if name not in others}


def _found(report: Report, kind: Kind) -> Sequence[Explained]:
    """What a report has of a kind."""
    found: dict[Kind, Sequence[Explained]] = {
        Kind.BAD_READ: report.bad_reads, Kind.BAD_WRITE: report.bad_writes, Kind.UNEXPLAINED: report.unexplained,
        Kind.CYCLE: [report.cycle] if report.cycle else [], Kind.STRUCTURE: [report.structure] if report.structure else [],
    }
    return found.get(kind, [])


def name_of(kind: Kind, found: Explained) -> str:
    """What a finding is called: a bad read by the name that the report gives it, any other one by its kind."""
    return (name_of_read(found) if isinstance(found, BadRead) else None) or NAMES[kind]


class _Chronicle:
    """Tells what happened, in the order of the history."""

    def __init__(self, log: Log, facts: Facts) -> None:
        self._log = log
        self._facts = facts
        self._names = log.names
        self._say = Wording(self._names)

    def told(self, finding: Finding, found: Explained) -> Told:
        parties = finding.transactions[:MOST_PARTIES]
        moments = {(moment.place, moment.what, moment.number): moment for moment in self._moments(finding, parties)}
        ordered = sorted(moments.values(), key=lambda moment: (moment.place, moment.what == "start"))
        return Told(
            finding.kind, name_of(finding.kind, found), levels_broken_by(finding), finding.title, finding.reasons, finding.more, found,
            parties, tuple(ordered), self._names.is_undecided(finding.deciding), finding.snapshot,
        )

    def _moments(self, finding: Finding, parties: Sequence[int]) -> Iterator[Moment]:
        for number in parties:
            yield self._start(number)
            end = self._facts.transaction(number).end
            if end is not None:
                yield self._event(end)
        for place in finding.places:
            if self._facts.event(place).transaction in parties:
                yield self._event(place)

    def _start(self, number: int) -> Moment:
        transaction = self._facts.transaction(number)
        first = transaction.places[0]
        return Moment(
            "start", number, self._say.transaction(number), "started", transaction.start, self._names.line(first), None,
            self._times(number)[0], self._fields(first) if isinstance(self._facts.event(first), Begin) else {},
        )

    def _fields(self, place: int) -> Mapping[str, object]:
        """What else the log says beside an event."""
        return {} if self._log.legend is None else self._log.legend.fields.get(place, {})

    def _event(self, place: int) -> Moment:
        event = self._facts.event(place)
        what, words = self._did(event)
        time = self._times(event.transaction)[1] if what in ("commit", "abort") else None
        return Moment(
            what, event.transaction, self._say.transaction(event.transaction), words, place, self._names.line(place),
            self._operation(place, event), time, self._fields(place),
        )

    def _did(self, event: Event) -> tuple[str, str]:
        """What an event is, and what its transaction did, in words."""
        match event:
            case Read():
                return "read", f"read {self._say.key(event.key)} and saw {self._say.version(event.saw)}"
            case RangeRead():
                return "range", f"read {self._say.key(event.low)} to {self._say.key(event.high)}"
            case Write():
                return "write", f"wrote {self._say.key(event.key)}"
            case Commit():
                return "commit", "committed"
            case Abort():
                return "abort", "aborted"
        return "begin", "began"

    def _operation(self, place: int, event: Event) -> int | None:
        """Which operation of its line an event is, where a line of the log is a transaction, which begins before them."""
        if self._log.kind is not LogKind.TRANSACTIONS or isinstance(event, (Begin, Commit, Abort)):
            return None
        return self._facts.transaction(event.transaction).places.index(place)

    def _times(self, number: int) -> tuple[int | None, int | None]:
        """The timestamps of a transaction's start and of its commit, where the log has them."""
        legend = self._log.legend
        return (None, None) if legend is None else legend.times.get(number, (None, None))
