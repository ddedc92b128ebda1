"""A line of an explained report that explains the line above it, read."""

from __future__ import annotations

import re

from si_history.errors import BadInput
from si_history.history import Abort, Commit, RangeRead, Read, Write, event_of
from si_history.report import (
    BOUNDS, BadRead, BadWrite, Cycle, Edge, EdgeKind, Explained, Placed, ReadName, Reason, Role, Snapshot, Started, Structure,
    Unexplained, Version,
)
from si_history.report_words import Malformed, number_of, short, step_of

_HEADS: dict[str, ReadName | Role] = {
    **{name.value: name for name in ReadName}, **{role.value: role for role in Role if role not in BOUNDS}
}
_STARTED = re.compile("transaction ([0-9]+) starts after event ([0-9]+)")
_EVENT = re.compile("event ([0-9]+) ([a-z][^ ]*)")
_BOUND = re.compile("(not without|not with) (event [^ ]* c[0-9]*): (.*)|(not after) (.*)")
_BOUND_FRONT = re.compile("not (?:without|with|after) event ")

# The parts that a line may have: a read, a version, or a start.
_LETTERS = {Placed: "R", Version: "V", Started: "S"}
_SHAPES = {
    Role.SAW: "V", Role.DUE: "V", Role.IN_NO_SNAPSHOT: "R", Role.LOST_UPDATE: "SRVV", Role.WRITE_CONFLICT: "SVV", Role.BOTH_WRITE: "SVV",
    EdgeKind.WW: "VV", EdgeKind.WR: "VRV?", EdgeKind.RW: "RV?V",
} | {name: "RS" for name in ReadName}

_CLASSES = {
    f"{answer} under snapshot isolation: {number} rw steps between overlapping transactions follow one another"
    for answer, number in (("allowed", "two"), ("forbidden", "no two"))
}
_COUNT = f"[1-9][0-9]* (?:{'|'.join([*(name.value for name in ReadName), Role.LOST_UPDATE.value, Role.WRITE_CONFLICT.value])})"
_COUNTS = re.compile(f"{_COUNT}(?:, {_COUNT})*")


NUMBERED = re.compile(r"\btransaction ([0-9]+)\b|\bevent ([0-9]+)\b(?: ([a-z][0-9]+(?:\[[^] ]*\]|@[0-9]+)?)(?![^ ,;:]))?")
"""A transaction or an event that a line names, an event with its token or without."""
_REMARK = re.compile("(?!.*  )[a-z](?:[ -~]*?[!-~])??: [!-~](?:[ -~]*[!-~])?")


def is_class(line: str) -> bool:
    """Whether a line says if snapshot isolation allows a cycle. That is told from the history, so the line is not kept."""
    return line in _CLASSES


def is_counts(line: str) -> bool:
    """Whether a line says how many findings of each name there are, which the findings show."""
    return _COUNTS.fullmatch(line) is not None


def is_remark(line: str) -> bool:
    """Whether a line may say more of a finding than is known here, as a report of a later auditor can.

    It has words, a colon and more words, all of it in ASCII, and its events are events. No known reason that is misspelt is one:
    what begins as one has to be one.
    """
    if not _REMARK.fullmatch(line) or line.partition(": ")[0] in _HEADS or _BOUND_FRONT.match(line):
        return False
    try:
        for _, place, token in NUMBERED.findall(line):
            if place:
                number_of(place)
            if token:
                event_of(token, 1)
    except (Malformed, BadInput):
        return False
    return True


def reason_of(line: str) -> Reason:
    """The reason that a line gives; the two spaces before it are left out. Raises Malformed where it gives none."""
    if found := _BOUND.fullmatch(line):
        return _bound(line, found)
    start, _, rest = line.partition(": ")
    try:
        head = _HEADS.get(start) or _step(start.split(" "))
        parts = tuple(map(_part, rest.split("; ")))
    except (Malformed, BadInput):
        raise Malformed(f"no report explains a finding by the line {short(line)}") from None
    shape = _SHAPES[head.kind if isinstance(head, Edge) else head]
    if not re.fullmatch(shape, "".join(_LETTERS[type(part)] for part in parts)):
        raise Malformed(f"what stands behind '{start}:' is not what an explained report has there")
    return Reason(head, parts)


def _bound(line: str, found: re.Match[str]) -> Reason:
    """The reason of a line that says which commit a snapshot has to have, or must not have, or before what it was taken."""
    role = Role(found[1] or found[4])
    try:
        placed = tuple(_placed(text) for text in (found[2], found[3], found[5]) if text is not None)
    except (Malformed, BadInput):
        raise Malformed(f"no report explains a finding by the line {short(line)}") from None
    match placed[-1].event:
        case Read() | RangeRead(listed=()):
            return Reason(role, placed)
        case RangeRead(listed=(_,)) if role is not Role.NOT_AFTER:
            return Reason(role, placed)
        case Write() if role is not Role.NOT_WITH:
            return Reason(role, placed)
    raise Malformed(f"what stands behind '{role.value} ..' is not what an explained report has there")


def _step(words: list[str]) -> Edge:
    if len(words) != 3:
        raise Malformed("no step")
    return step_of(words[0], words[1], words[2])


def _part(text: str) -> Placed | Version | Started:
    if found := _STARTED.fullmatch(text):
        return Started(number_of(found[1]), number_of(found[2]))
    placed = [_placed(each) for each in text.split(", ")]
    match placed:
        case [Placed(event=Read() | RangeRead(listed=() | (_,)))]:
            return placed[0]
        case [Placed(event=Write())]:
            return Version(placed[0], None)
        case [Placed(event=Write() as write), Placed(event=Commit() | Abort() as end)] if write.transaction == end.transaction:
            return Version(placed[0], placed[1])
    raise Malformed("no read and no version")


def _placed(text: str) -> Placed:
    found = _EVENT.fullmatch(text)
    if found is None:
        raise Malformed("no event")
    return Placed(number_of(found[1]), event_of(found[2], 1))


def fits_below(finding: Explained, reason: Reason) -> bool:
    """Whether the reason can be the next one below a finding."""
    count = len(finding.reasons)
    match finding:
        case Cycle() | Structure():
            return count < len(finding.steps) and reason.head == finding.steps[count]
        case BadWrite():
            return count == 0 and reason.head in (Role.LOST_UPDATE, Role.WRITE_CONFLICT, Role.BOTH_WRITE)
        case Snapshot():
            heads = [one.head for one in finding.reasons]
            fitting = _BELOW_SNAPSHOT.get(tuple(heads), ()) if finding.fitting is None else ()
            return reason.head in fitting and _is_of(reason, finding.transaction)
        case BadRead() | Unexplained():
            if count == 0:
                return isinstance(reason.head, ReadName) or bool(finding.remarks) and isinstance(reason.head, Role)
            last = finding.reasons[-1].head
            return isinstance(last, ReadName) and reason.head is Role.SAW or last is not Role.DUE and reason.head is Role.DUE


_BELOW_SNAPSHOT: dict[tuple[ReadName | Role | Edge, ...], tuple[Role, ...]] = {
    (): (Role.IN_NO_SNAPSHOT, Role.NOT_WITHOUT), (Role.NOT_WITHOUT,): (Role.NOT_WITH, Role.NOT_AFTER),
}
"""What may come next below a transaction that no snapshot fits, by the reasons so far."""


def _is_of(reason: Reason, transaction: int) -> bool:
    """Whether the last event of a reason is one of this transaction."""
    last = reason.parts[-1]
    return isinstance(last, Placed) and last.event.transaction == transaction
