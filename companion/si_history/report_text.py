"""The text of a report, read.

Edges can be millions of lines, and most uses need few of them or none. So `read_report` passes over them and counts them,
and `edges_in` gives them one by one. The lines of edges and of pivots may be left out of a report.

A line that starts with two spaces explains the line above it, and is kept there as one of its `reasons`, or of its `remarks`
where it says more than is known here. A line that no explained report has in its place is refused as any other line is.
"""

from __future__ import annotations

import io
import re
from collections.abc import Iterator
from typing import TypeVar

from si_history.errors import BadInput
from si_history.files import opened, source_name
from si_history.left_out import LeftOut
from si_history.progress import Progress
from si_history.reasons import fits_below, is_class, is_counts, is_remark, reason_of
from si_history.report import (
    BadRead, BadWrite, Counts, Cycle, Edge, EdgeKind, Explained, Order, Pivot, Report, Role, Snapshot, Structure,
    Unexplained, Verdict,
)
from si_history.report_words import KINDS, Malformed, number_of, numbers_of, short, steps_of

INDENT = "  "
LINES_BETWEEN_STEPS = 65_536


class ReportText:
    """The text of a report, held whole, so that its lines can be gone through more than once.

    Each time they are, the lines so far are told to `progress`.
    """

    def __init__(self, content: bytes, source: str = "the report", progress: Progress | None = None) -> None:
        self._content = content
        self._progress = progress
        self.source = source

    @classmethod
    def from_path(cls, path: str, progress: Progress | None = None) -> ReportText:
        """The text in a file, or in standard input where the path is `-`. Raises BadInput where it can't be read."""
        with opened(path) as file:
            return cls(file.read(), source_name(path), progress)

    def __iter__(self) -> Iterator[str]:
        """The lines, without their ends. Bytes that are no UTF-8 are replaced: no line of a report holds such."""
        lines = io.TextIOWrapper(io.BytesIO(self._content), encoding="utf-8", errors="replace", newline="\n")
        for number, line in enumerate(lines, 1):
            if number % LINES_BETWEEN_STEPS == 0 and self._progress is not None:
                self._progress.step(number)
            yield line.removesuffix("\n")

    def no_report(self, line: int, fault: Malformed) -> BadInput:
        """What to raise where a line is none that a report has in this place."""
        return BadInput(f"this is no report: {fault}", line=line, source=self.source)


def read_report(text: ReportText, most: int | None = None) -> Report:
    """The report that a text is, without its edges. Raises BadInput where it is none, or a refusal.

    Where `most` is given, so many findings of a kind are kept at most, and the others are counted. The snapshots of the bad reads
    and bad writes that are kept are kept too.
    """
    reader = _Reader(most)
    number = 0
    try:
        for number, line in enumerate(text, 1):
            reader.take(line)
        return reader.report()
    except Malformed as fault:
        raise text.no_report(max(number, 1), fault) from None
    except _Refused as fault:
        raise BadInput(str(fault), source=text.source) from None


def edges_in(text: ReportText) -> Iterator[Edge]:
    """The edges of a report, in their order. Raises BadInput at a line that starts as an edge does and is none."""
    for number, line in enumerate(text, 1):
        if line.startswith("edge "):
            try:
                edge = edge_of(line)
            except Malformed as fault:
                raise text.no_report(number, fault) from None
            yield edge


_EDGE = re.compile("edge (0|[1-9][0-9]{0,19}) (ww|wr|rw) (0|[1-9][0-9]{0,19}) (0|[1-9][0-9]{0,19})")
_REFUSAL = re.compile(r"refused: (?:(text too long)|token ([1-9][0-9]*): ([a-z ]+))")
_WHERE = re.compile(r"  line ([1-9][0-9]*), column ([1-9][0-9]*): ((?:[!-\[\]-~]|\\x[0-9a-f]{2})+)")

NO_REFUSAL = "this is no report, and no refusal either"


def refusal_in_words(line: str, below: str | None = None) -> str:
    """What the line of a refusal says, and the line below it if there is one, for a user who wanted a report."""
    found = _REFUSAL.fullmatch(line)
    where = None if below is None else _WHERE.fullmatch(below)
    if found is None or (below is not None and (where is None or found[1])):
        return NO_REFUSAL
    words = "the text was too long" if found[1] else f"at event {found[2]}: {found[3]}"
    if where is not None:
        words = f"at event {found[2]}, in line {where[1]} from column {where[2]}: {found[3]}: {where[3]}"
    return f"the auditor refused the history and made no report ({words})"


class _Refused(Exception):
    """The text is a refusal; the words are for the user."""


def edge_of(line: str) -> Edge:
    """The edge that a line says. Raises Malformed where it says none."""
    found = _EDGE.fullmatch(line)
    if found is None:
        raise Malformed("'edge T KIND U KEY' is wanted")
    source, kind, target, key = found.groups()
    return Edge(int(source), KINDS[kind], int(target), int(key))


def _verdict(words: list[str], yes: str, no: str) -> Verdict:
    if words[1:] not in ([yes], [no]):
        raise Malformed(f"'{words[0]} {yes}' or '{words[0]} {no}' is wanted")
    return Verdict(words[1] == yes)


def _pivot(words: list[str]) -> Pivot:
    try:
        sources_at = words.index("in")
        targets_at = words.index("out")
    except ValueError:
        raise Malformed("'pivot T2 in T1 .. out T3 ..' is wanted") from None
    firsts_at = words.index("first") if "first" in words else len(words)
    if sources_at != 2 or not sources_at + 1 < targets_at < firsts_at - 1 or firsts_at == len(words) - 1:
        raise Malformed("'pivot T2 in T1 .. out T3 ..' is wanted")
    return Pivot(
        number_of(words[1]),
        tuple(map(number_of, words[sources_at + 1 : targets_at])),
        tuple(map(number_of, words[targets_at + 1 : firsts_at])),
        tuple(map(number_of, words[firsts_at + 1 :])),
    )


def _snapshot(words: list[str]) -> Snapshot:
    if words[2:] == ["none"]:
        return Snapshot(number_of(words[1]), None)
    transaction, first, last = numbers_of(words, "snapshot # from # to #")
    return Snapshot(transaction, (first, last))


def _structure(words: list[str]) -> Structure:
    steps = steps_of(words[1:]) if len(words) == 6 else ()
    if len(steps) != 2 or any(step.kind is not EdgeKind.RW for step in steps):
        raise Malformed("'dangerous T1 >rw:KEY> T2 >rw:KEY> T3' is wanted")
    return Structure((steps[0], steps[1]))


def _cycle(words: list[str]) -> Cycle:
    if len(words) < 6 or len(words) % 2 or words[1] != words[-1]:
        raise Malformed("'cycle T >KIND:KEY> U .. >KIND:KEY> T' is wanted")
    return Cycle(steps_of(words[1:]))


_AnyExplained = TypeVar("_AnyExplained", bound=Explained)

_HEADS = (
    "events", "isolation", "bad-read", "bad-write", "unexplained", "snapshot", "edge", "pivot", "ssi", "dangerous", "serializable",
    "order",
)
"""The first words of the lines, in the order of the lines. A cycle stands in the place of the order."""
_STAGES = {head: stage for stage, head in enumerate(_HEADS)} | {"cycle": len(_HEADS) - 1}
_SINGLE = {"events", "isolation", "ssi", "serializable", "order"}


class _Reader:
    """Takes the lines of a report in their order. `_stage` is the index in `_HEADS` of the line that was taken last that
    explains no other, and `_last` what that line says, if others may explain it."""

    def __init__(self, most: int | None) -> None:
        self._most = most
        self._left_out = LeftOut()
        self._is_leaving_out = False
        self._stage = -1
        self._last: Explained | None = None
        self._refusal: list[str] = []
        self._edges = 0
        self._counts: list[Counts] = []
        self._verdicts: list[Verdict] = []
        self._bad_reads: list[BadRead] = []
        self._bad_writes: list[BadWrite] = []
        self._unexplained: list[Unexplained] = []
        self._snapshots: list[Snapshot] = []
        self._told_with: set[str] | None = None
        self._pivots: list[Pivot] = []
        self._structures: list[Structure] = []
        self._outcomes: list[Order | Cycle] = []

    def take(self, line: str) -> None:
        """Takes the next line. Of a line that starts as an edge does, the rest is not looked at."""
        if line.startswith("edge "):
            self._move("edge")
            self._edges += 1
            self._last = None
        elif self._refusal or (line.startswith("refused:") and self._stage < 0):
            self._refusal.append(line)
        elif line.startswith(INDENT) and self._stage >= 0:
            explain = self._left_out.explain if self._is_leaving_out else self._explain
            explain(line.removeprefix(INDENT))
        else:
            head = line.partition(" ")[0]
            self._move(head)
            self._is_leaving_out = self._has_enough(head, line)
            if self._is_leaving_out:
                self._left_out.take(head, line)
            else:
                self._last = self._kept(line.split(" "))

    def _has_enough(self, head: str, line: str) -> bool:
        """Whether so many findings of a line's kind are kept that this one is counted alone."""
        if head == "snapshot" and self._most is not None and len(self._snapshots) >= self._most:
            return line.partition(" ")[2].partition(" ")[0] not in self._parties()
        kept: dict[str, list[BadRead] | list[BadWrite] | list[Unexplained]] = {
            "bad-read": self._bad_reads, "bad-write": self._bad_writes, "unexplained": self._unexplained,
        }
        return self._most is not None and head in kept and len(kept[head]) >= self._most

    def _parties(self) -> set[str]:
        """The transactions of which the snapshots are told with the bad reads and the bad writes that are kept."""
        if self._told_with is None:
            self._told_with = {str(read.transaction) for read in self._bad_reads} | {str(write.second) for write in self._bad_writes}
        return self._told_with

    def _explain(self, line: str) -> None:
        """Takes a line that explains the one before it."""
        if self._stage == _STAGES["isolation"] and is_counts(line) and not self._verdicts[-1].holds:
            return
        if isinstance(self._last, Cycle) and len(self._last.reasons) == len(self._last.steps) and is_class(line):
            return
        if self._last is not None and is_remark(line):
            self._last.remarks.append(line)
            return
        reason = reason_of(line)
        if self._last is None or not fits_below(self._last, reason):
            raise Malformed(f"the line {short(line)} explains nothing here")
        self._last.reasons.append(reason)

    def _move(self, head: str) -> None:
        """Goes on to the stage of a first word. None may be left out or stand twice of those that stand once."""
        stage = _STAGES.get(head)
        if stage is None:
            raise Malformed(f"no line of a report starts with {short(head)}")
        if stage == self._stage and _HEADS[stage] not in _SINGLE:
            return
        if stage <= self._stage:
            raise Malformed(f"a line '{head} ..' can't stand here")
        for between in _HEADS[self._stage + 1 : stage]:
            if between in _SINGLE:
                raise Malformed(f"a line '{between} ..' must stand before this one")
        self._stage = stage

    def _kept(self, words: list[str]) -> Explained | None:
        """What the words of a line say, put to what the report has of the kind."""
        match words[0]:
            case "events":
                self._counts.append(Counts(*numbers_of(words, "events # committed # aborted # open #")))
                return None
            case "isolation":
                self._verdicts.append(_verdict(words, "kept", "broken"))
                return None
            case "bad-read":
                return _put(self._bad_reads, BadRead(*numbers_of(words, "bad-read # # # saw # due #")))
            case "bad-write":
                return _put(self._bad_writes, BadWrite(*numbers_of(words, "bad-write # # #")))
            case "unexplained":
                return _put(self._unexplained, Unexplained(*numbers_of(words, "unexplained # # # #")))
            case "snapshot":
                return _put(self._snapshots, _snapshot(words))
            case "pivot":
                self._pivots.append(_pivot(words))
                return None
            case "ssi":
                self._verdicts.append(_verdict(words, "pass", "fail"))
                return None
            case "dangerous":
                if self._structures or self._verdicts != [Verdict(True), Verdict(False)]:
                    raise Malformed("a line 'dangerous ..' stands once, behind 'ssi fail', where isolation was kept")
                return _put(self._structures, _structure(words))
            case "serializable":
                self._verdicts.append(_verdict(words, "yes", "no"))
                return None
            case "order":
                self._outcomes.append(Order(tuple(map(number_of, words[1:]))))
                return None
            case "cycle":
                cycle = _cycle(words)
                self._outcomes.append(cycle)
                return cycle
        raise Malformed("it stands alone")

    def report(self) -> Report:
        """What was taken, if it is whole."""
        if self._refusal:
            raise _Refused(refusal_in_words(*self._refusal[:2]) if len(self._refusal) < 3 else NO_REFUSAL)
        if not self._outcomes:
            due = next(head for head in _HEADS[self._stage + 1 :] if head in _SINGLE)
            raise Malformed(f"it ends before its line '{due} ..'")
        for explained in (*self._structures, *self._outcomes):
            if not isinstance(explained, Order) and len(explained.reasons) not in (0, len(explained.steps)):
                raise Malformed("of the steps above some are explained and some are not")
        if any(one.reasons and one.reasons[-1].head is Role.NOT_WITHOUT for one in self._snapshots):
            raise Malformed("why no snapshot fits a transaction is told in part alone")
        isolation, ssi, serializable = self._verdicts
        return Report(
            self._counts[0], isolation, self._bad_reads, self._bad_writes, self._unexplained, self._edges,
            self._pivots, ssi, self._structures[0] if self._structures else None, serializable, self._outcomes[0],
            self._snapshots, self._left_out.counts,
        )


def _put(items: list[_AnyExplained], item: _AnyExplained) -> _AnyExplained:
    items.append(item)
    return item
