"""The findings of a report in sentences, the one that matters most first, each with its reasons as the history tells them.

What is found comes from the report alone; the sentences only say where in the history to look.
"""

from __future__ import annotations

import enum
from collections.abc import Iterable, Iterator, Sequence
from dataclasses import dataclass, replace

from si_history.cycles import allowing_steps
from si_history.facts import Facts, Fate, version_seen
from si_history.history import RangeRead
from si_history.fitting import told_snapshot
from si_history.named_reasons import told_remark
from si_history.naming import Names
from si_history.report import (
    BadRead, BadWrite, Cycle, Edge, EdgeKind, Pivot, ReadName, Report, Snapshot, Structure, Unexplained,
)
from si_history.wording import Wording

MOST_OF_A_KIND = 100
MOST_STEPS = 40


class Kind(enum.Enum):
    """Kinds of findings with their headings, in the order in which they are told: what breaks isolation comes first."""

    BAD_READ = "Bad reads"
    BAD_WRITE = "Bad writes"
    CYCLE = "The cycle"
    UNEXPLAINED = "Unexplained reads"
    STRUCTURE = "The dangerous structure"
    PIVOT = "Pivots"


HEADS = {Kind.BAD_READ: "bad-read", Kind.BAD_WRITE: "bad-write", Kind.UNEXPLAINED: "unexplained"}
"""The first words of the lines of findings, of which there can be many."""


class Look(enum.Enum):
    """What an arrow of a picture stands for."""

    STEP = "step"
    SAW = "saw"
    DUE = "due"


@dataclass(frozen=True, slots=True)
class Arrow:
    """From one event to another: a step of a cycle, or from a write to the read that saw it, or that had to."""

    source_place: int
    target_place: int
    look: Look
    label: str
    words: str


@dataclass(frozen=True, slots=True)
class Finding:
    """One finding: what was found, why, and which transactions, places and keys it is about, the foremost first.

    `more` are those of the reasons that only the report tells. `snapshot` tells which snapshots would fit who read, or the
    second who wrote, where the report tells that.
    """

    kind: Kind
    title: str
    reasons: tuple[str, ...]
    transactions: tuple[int, ...]
    places: tuple[int, ...]
    keys: tuple[int, ...] = ()
    arrows: tuple[Arrow, ...] = ()
    more: tuple[str, ...] = ()
    snapshot: Snapshot | None = None

    @property
    def deciding(self) -> tuple[int, ...]:
        """The transactions on whose outcomes it depends. That of a reader makes no difference to what its read had to see."""
        return self.transactions[1:] if self.kind in (Kind.BAD_READ, Kind.UNEXPLAINED) else self.transactions


@dataclass(frozen=True, slots=True)
class Group:
    """All findings of a kind: the first of them, and how many there are."""

    kind: Kind
    findings: tuple[Finding, ...]
    count: int


Found = BadRead | BadWrite | Cycle | Unexplained | Structure | Pivot
"""What a report finds."""


def finding_of(found: Found, report: Report, facts: Facts, names: Names) -> Finding:
    """What is to be said of one finding of a report. Raises BadInput where the history is not that of the report."""
    return _Teller(facts, Wording(names), report.snapshots).finding(found)


def name_of_read(read: BadRead) -> str | None:
    """What the report calls a bad read: an explained one has a name for each, which may be one that is not known here."""
    head = read.reasons[0].head if read.reasons else None
    if isinstance(head, ReadName):
        return head.value
    return read.remarks[0].partition(": ")[0] if read.remarks else None


def groups_of(report: Report, facts: Facts, names: Names, most: int | None = MOST_OF_A_KIND) -> list[Group]:
    """The findings of a report by their kinds, `most` of each. Raises BadInput where the history is not that of the report."""
    teller = _Teller(facts, Wording(names), report.snapshots)
    pivots = sorted(report.pivots, key=lambda pivot: not pivot.firsts)
    found: dict[Kind, Sequence[Found]] = {
        Kind.BAD_READ: report.bad_reads,
        Kind.BAD_WRITE: report.bad_writes,
        Kind.CYCLE: [report.cycle] if report.cycle else [],
        Kind.UNEXPLAINED: report.unexplained,
        Kind.STRUCTURE: [report.structure] if report.structure else [],
        Kind.PIVOT: pivots,
    }
    counts = {kind: len(each) + report.count_left_out(HEADS.get(kind, "")) for kind, each in found.items()}
    return [Group(kind, tuple(map(teller.finding, found[kind][:most])), count) for kind, count in counts.items() if count]


class _Teller:
    """Tells findings in sentences."""

    def __init__(self, facts: Facts, wording: Wording, snapshots: Iterable[Snapshot]) -> None:
        self._facts = facts
        self._say = wording
        self._snapshots = {snapshot.transaction: snapshot for snapshot in snapshots}

    def finding(self, found: Found) -> Finding:
        told, snapshot = self._told(found), self._snapshot_of(found)
        more = tuple(self._more(found, snapshot))
        return replace(told, reasons=(*told.reasons, *more), more=more, snapshot=snapshot)

    def _snapshot_of(self, found: Found) -> Snapshot | None:
        """Which snapshots would fit the transaction whose start a finding speaks against."""
        if isinstance(found, (BadRead, BadWrite)):
            return self._snapshots.get(found.transaction if isinstance(found, BadRead) else found.second)
        return None

    def _more(self, found: Found, snapshot: Snapshot | None) -> Iterator[str]:
        """What else the report says of a finding, and of the snapshots that would fit."""
        remarks = [] if isinstance(found, Pivot) else found.remarks
        if snapshot is not None:
            yield from told_snapshot(snapshot, self._say)
            remarks = [*remarks, *snapshot.remarks]
        yield from (told_remark(remark, self._say.names) for remark in remarks)

    def _told(self, found: Found) -> Finding:
        match found:
            case BadRead():
                return self.bad_read(found)
            case BadWrite():
                return self.bad_write(found)
            case Cycle():
                return self.cycle(found)
            case Unexplained():
                return self.unexplained(found)
            case Structure():
                return self.structure(found)
        return self.pivot(found)

    def bad_read(self, read: BadRead) -> Finding:
        self._facts.check_read(read.place, read.transaction, read.key, read.saw)
        saw = self._sighting(read.place, read.key, read.saw)
        return Finding(
            Kind.BAD_READ,
            f"{(name_of_read(read) or 'bad read').capitalize()}: {saw}, where {self._say.version(read.due)} was due.",
            tuple(self._why_bad_read(read)),
            _distinct((read.transaction, read.saw, read.due)),
            (read.place, *(self._facts.first_write(version, read.key) for version in (read.saw, read.due) if version)),
            (read.key,),
            (*self._origin(read, read.saw, Look.SAW), *self._origin(read, read.due, Look.DUE)),
        )

    def _why_bad_read(self, read: BadRead) -> Iterator[str]:
        reader, key = self._say.opening(read.transaction), self._say.key(read.key)
        yield f"The read is {self._say.place(read.place)}."
        if read.due == read.transaction:
            yield f"{reader} had written {key} itself before, at {self._write(read.due, read.key)}: its own version was due."
        else:
            yield self._start(read.transaction)
            if read.due == 0:
                yield f"No transaction that wrote {key} had committed by then, so the initial version was due."
            else:
                yield (
                    f"{self._say.opening(read.due)} wrote {key} at {self._write(read.due, read.key)}"
                    f" and committed at {self._end(read.due)}: the last to commit a version of it by then."
                )
        if read.saw:
            yield self._fate(read.saw, read.key, self._facts.transaction(read.transaction).start)

    def bad_write(self, write: BadWrite) -> Finding:
        first, second = self._say.opening(write.first), self._say.transaction(write.second)
        places = (self._facts.first_write(write.first, write.key), self._facts.first_write(write.second, write.key))
        return Finding(
            Kind.BAD_WRITE,
            f"Bad write: {self._say.transaction(write.first)} and {second} overlap, both wrote {self._say.key(write.key)},"
            " and both committed.",
            (
                f"{first} wrote it at {self._say.place(places[0])}, and {second} at {self._say.place(places[1])}.",
                self._start(write.second),
                f"{first} committed at {self._end(write.first)}, after that start, so the two overlap.",
                f"{self._say.opening(write.second)} committed at {self._end(write.second)}, where it had to abort:"
                " the first committer wins.",
            ),
            (write.first, write.second),
            (*places, self._facts.end(write.first), self._facts.end(write.second)),
            (write.key,),
        )

    def unexplained(self, read: Unexplained) -> Finding:
        self._facts.check_read(read.place, read.transaction, read.key, read.saw)
        return Finding(
            Kind.UNEXPLAINED,
            f"Unexplained read: {self._sighting(read.place, read.key, read.saw)}, which no serial order explains.",
            tuple(self._why_unexplained(read)),
            _distinct((read.transaction, read.saw)),
            (read.place, *((self._facts.first_write(read.saw, read.key),) if read.saw else ())),
            (read.key,),
            tuple(self._origin(read, read.saw, Look.SAW)),
        )

    def _why_unexplained(self, read: Unexplained) -> Iterator[str]:
        yield f"The read is {self._say.place(read.place)}."
        if read.saw and self._facts.transaction(read.saw).fate is not Fate.COMMITTED:
            yield self._fate(read.saw, read.key, 0)
        else:
            own, key = self._write(read.transaction, read.key), self._say.key(read.key)
            yield f"{self._say.opening(read.transaction)} had written {key} itself before, at {own}, and in a serial order sees that."

    def cycle(self, cycle: Cycle) -> Finding:
        stops, left = cycle.transactions[:MOST_STEPS], len(cycle.steps[MOST_STEPS:])
        allowing = allowing_steps(cycle.steps, self._facts)
        return Finding(
            Kind.CYCLE,
            f"A cycle that snapshot isolation {'allows' if allowing else 'does not allow'}:"
            f" {self._say.path((*stops, stops[0]), left)}. Each has to come before the next in a serial order.",
            (self._why_allowed(allowing), *self._why_steps(cycle.steps)),
            cycle.transactions,
            self._places(cycle.steps),
            tuple(dict.fromkeys(step.key for step in cycle.steps[:MOST_STEPS])),
            self._arrows(cycle.steps),
        )

    def _why_allowed(self, steps: tuple[Edge, Edge] | None) -> str:
        """Whether snapshot isolation allows a cycle, by its two steps that say so, or by there being none."""
        if steps is None:
            return (
                "Snapshot isolation allows only a cycle in which two rw steps between overlapping transactions follow one"
                " another (Fekete et al. 2005). This one has no such steps."
            )
        path = self._say.path((steps[0].source, steps[1].source, steps[1].target))
        return f"Snapshot isolation allows it: {path} are two rw steps, one after the other, between transactions that overlap."

    def structure(self, structure: Structure) -> Finding:
        last = self._say.transaction(structure.transactions[-1])
        return Finding(
            Kind.STRUCTURE,
            f"A dangerous structure: {self._say.path(structure.transactions)}, two rw steps between overlapping transactions."
            f" Of them {last} committed first.",
            tuple(self._why_steps(structure.steps)),
            _distinct(structure.transactions),
            self._places(structure.steps),
            tuple(dict.fromkeys(step.key for step in structure.steps)),
            self._arrows(structure.steps),
        )

    def _why_steps(self, steps: Sequence[Edge]) -> Iterator[str]:
        for step in steps[:MOST_STEPS]:
            source, target = self._say.opening(step.source), self._say.transaction(step.target)
            yield f"{source} before {target} ({step.kind.value}): {self._why_step(step)}."
        if len(steps) > MOST_STEPS:
            yield f"And {len(steps) - MOST_STEPS:,} steps more, which the report names."

    def _why_step(self, edge: Edge) -> str:
        source, target, key = self._say.transaction(edge.source), self._say.transaction(edge.target), self._say.key(edge.key)
        places = self._facts.ends_of(edge)
        at_source, at_target = map(self._say.place, places)
        if edge.kind is EdgeKind.WW:
            return f"both wrote {key}, {source} at {at_source} and {target} at {at_target}, and {source} committed first"
        if edge.kind is EdgeKind.WR:
            saw = version_seen(self._facts.event(places[1]), edge.key)
            later = "" if saw == edge.source else f", and so one that is later than {source}'s"
            return f"{source} wrote {key} at {at_source}; at {at_target} {self._sighting(places[1], edge.key, saw or 0)}{later}"
        saw = version_seen(self._facts.event(places[0]), edge.key)
        seen = self._sighting(places[0], edge.key, saw or 0)
        return f"at {at_source} {seen}, which is older than the one that {target} wrote at {at_target}"

    def _places(self, steps: Sequence[Edge]) -> tuple[int, ...]:
        return tuple(place for step in steps[:MOST_STEPS] for place in self._facts.ends_of(step))

    def _arrows(self, steps: Sequence[Edge]) -> tuple[Arrow, ...]:
        return tuple(map(self._arrow, steps[:MOST_STEPS]))

    def _arrow(self, edge: Edge) -> Arrow:
        source, target, key = self._say.opening(edge.source), self._say.transaction(edge.target), self._say.key(edge.key)
        label = f"{edge.kind.value} {self._say.names.key(edge.key)}"
        words = f"{source} has to come before {target}: {edge.kind.value} edge by {key}"
        return Arrow(*self._facts.ends_of(edge), Look.STEP, label, words)

    def pivot(self, pivot: Pivot) -> Finding:
        source, target = pivot.sources[0], (pivot.firsts or pivot.targets)[0]
        return Finding(
            Kind.PIVOT,
            f"{self._say.opening(pivot.transaction)} is a pivot: rw edges from {self._say.listed(pivot.sources)}"
            f" and to {self._say.listed(pivot.targets)}.",
            tuple(self._why_pivot(pivot)),
            _distinct((pivot.transaction, source, target)),
            (),
        )

    def _why_pivot(self, pivot: Pivot) -> Iterator[str]:
        yield "All of them overlap it."
        if pivot.firsts:
            yield (
                "In a dangerous structure of such three, the first to commit is one that it leads to"
                f" ({self._say.listed(pivot.firsts)}): this fails the ssi test."
            )
        else:
            yield "None that it leads to is the first of such three to commit: this alone does not fail the ssi test."

    def _sighting(self, place: int, key: int, saw: int) -> str:
        """What the read at a place saw of a key: one key's version, or that of a key among a range of them."""
        event = self._facts.event(place)
        reader, version = self._say.transaction(event.transaction), self._say.version(saw)
        if isinstance(event, RangeRead):
            return f"{reader} read {self._say.key(event.low)} to {self._say.key(event.high)} and saw {version} of {self._say.key(key)}"
        return f"{reader} read {self._say.key(key)} and saw {version}"

    def _origin(self, read: BadRead | Unexplained, version: int, look: Look) -> Iterator[Arrow]:
        """The arrow from the write of a version to the read that saw it, or that had to."""
        if version and version != read.transaction:
            place = self._facts.first_write(version, read.key)
            words = "saw" if look is Look.SAW else "had to see"
            yield Arrow(place, read.place, look, look.value, f"The read {words} {self._say.version(version)} of {self._say.key(read.key)}")

    def _write(self, number: int, key: int) -> str:
        return self._say.place(self._facts.first_write(number, key))

    def _end(self, number: int) -> str:
        return self._say.place(self._facts.end(number))

    def _start(self, number: int) -> str:
        """When a transaction started."""
        name, start = self._say.opening(number), self._facts.transaction(number).start
        return f"{name} started after {self._say.place(start)}." if start else f"{name} started before all events."

    def _fate(self, number: int, key: int, start: int) -> str:
        """What became of the writer of a version that was seen by a reader with this start."""
        writer = self._facts.transaction(number)
        wrote = f"{self._say.opening(number)} wrote the version that was seen, at {self._write(number, key)},"
        if writer.fate is Fate.OPEN:
            return f"{wrote} and never ended."
        end = self._end(number)
        if writer.fate is Fate.ABORTED:
            return f"{wrote} and aborted at {end}."
        return f"{wrote} and committed at {end}{', after that start' if writer.places[-1] > start else ''}."


def _distinct(numbers: Sequence[int]) -> tuple[int, ...]:
    """Each transaction once; version 0 is nobody's."""
    return tuple(dict.fromkeys(number for number in numbers if number))
