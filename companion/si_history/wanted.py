"""Which finding of a report is wanted, and whether a report of a smaller history still has it.

A finding goes by the name that an audit has for it. A cycle that snapshot isolation allows isn't one that it doesn't.
"""

from __future__ import annotations

from collections.abc import Iterator
from dataclasses import dataclass

from si_history.cycles import allowing_steps
from si_history.errors import BadInput
from si_history.facts import Facts
from si_history.findings import Found, name_of_read
from si_history.report import BadRead, BadWrite, Cycle, ReadName, Report, Structure, Unexplained

BAD_WRITE, UNEXPLAINED, CYCLE, STRUCTURE = "bad-write", "unexplained-read", "cycle", "dangerous-structure"
NAMES = (*(name.value.replace(" ", "-") for name in ReadName), BAD_WRITE, UNEXPLAINED, CYCLE, STRUCTURE)


@dataclass(frozen=True, slots=True)
class Wanted:
    """A finding by its name, and by the transactions, the key and the version that it is about.

    Of a cycle only whether snapshot isolation allows it is wanted, and of a structure nothing more: which one the auditor tells of a
    smaller history is open.
    """

    name: str
    identity: tuple[int, ...]

    def found_in(self, report: Report, facts: Facts) -> Found | None:
        """The finding in a report of a history, if it is there."""
        return next((found for found in _findings(report) if wanted_of(found, facts) == self), None)


def wanted_of(found: Found, facts: Facts) -> Wanted:
    """What is wanted where this finding is."""
    match found:
        case BadRead():
            return Wanted(_name_of_read(found), (found.transaction, found.key, found.saw))
        case BadWrite():
            return Wanted(BAD_WRITE, (found.key, found.first, found.second))
        case Unexplained():
            return Wanted(UNEXPLAINED, (found.transaction, found.key, found.saw))
        case Cycle():
            return Wanted(CYCLE, (int(allowing_steps(found.steps, facts) is not None),))
    return Wanted(STRUCTURE, ())


def first_found(report: Report, facts: Facts, name: str | None) -> Found:
    """The first finding of the report, or the first one of this name. Raises BadInput where there is none."""
    for found in _findings(report):
        if name is None or wanted_of(found, facts).name == name:
            return found
    raise BadInput("the auditor finds nothing in it" if name is None else f"the auditor finds no {name} in it")


def keys_of(found: Found) -> set[int]:
    """The keys that a finding is about."""
    match found:
        case BadRead() | BadWrite() | Unexplained():
            return {found.key}
        case Cycle() | Structure():
            return {step.key for step in found.steps}
    return set()


def _findings(report: Report) -> Iterator[Found]:
    """The findings that have names, those first that break isolation."""
    yield from report.bad_reads
    yield from report.bad_writes
    if report.cycle is not None:
        yield report.cycle
    yield from report.unexplained
    if report.structure is not None:
        yield report.structure


def _name_of_read(read: BadRead) -> str:
    return (name_of_read(read) or "bad read").replace(" ", "-")
