"""The smallest history that still has a finding: transactions are left out, then events, and the auditor is asked each time."""

from __future__ import annotations

from collections.abc import Sequence
from dataclasses import dataclass

from si_history.audited import Audited, Log, audited
from si_history.auditor import REFUSED, Auditor
from si_history.errors import BadInput
from si_history.facts import Facts
from si_history.findings import Found
from si_history.history import Event, text_of
from si_history.legend import Legend
from si_history.log_kinds import LogKind
from si_history.progress import Progress
from si_history.reduction import least
from si_history.report import BadRead, BadWrite, Cycle, Structure, Unexplained
from si_history.shrinking import Trace, closed, events_of, of_keys, of_transactions, trace_of, writers_seen
from si_history.wanted import Wanted, keys_of, wanted_of

LEVEL = "si"


class AuditorFailed(Exception):
    """The auditor gave no report of a smaller history. `status` is that of the command."""

    def __init__(self, run: Audited) -> None:
        super().__init__(run.problem or run.outcome.words)
        self.status = run.status


@dataclass(frozen=True, slots=True)
class Minimal:
    """What was left: its events, the finding in it, what the auditor says of it, and how often the auditor was asked."""

    events: list[Event]
    found: Found
    run: Audited
    audits: int


def audited_events(events: Sequence[Event], legend: Legend | None, auditor: Auditor) -> Audited:
    """What the auditor says of a history."""
    log = Log("the smaller history", LogKind.HISTORY, text_of(events, auditor.limits).encode("ascii"), legend)
    return audited(log, auditor, LEVEL, takes_nothing=True)


def minimal(events: Sequence[Event], found: Found, facts: Facts, auditor: Auditor) -> Minimal:
    """The smallest history that still has the finding, which the auditor found in these events. Raises AuditorFailed."""
    with Progress("smaller histories audited") as progress:
        search = _Search(wanted_of(found, facts), auditor, progress)
        return search.minimal(trace_of(events), found)


class _Search:
    """Goes from a trace to smaller ones that still have what is wanted."""

    def __init__(self, wanted: Wanted, auditor: Auditor, progress: Progress) -> None:
        self._wanted = wanted
        self._auditor = auditor
        self._progress = progress
        self._audits = 0

    def minimal(self, trace: Trace, found: Found) -> Minimal:
        trace = self._near(trace, found)
        size = len(trace) + 1
        while len(trace) < size:
            size = len(trace)
            trace = self._of_least_transactions(trace)
            trace = self._of_least_keys(trace)
            trace = closed(least(trace, lambda parts: self._holds(closed(parts))))
        return Minimal(events_of(trace), *self._found_again(trace), self._audits)

    def _near(self, trace: Trace, found: Found) -> Trace:
        """The first guess that still has the finding: only its transactions and keys, or its transactions, or its keys."""
        transactions, keys = _transactions_of(found), keys_of(found)
        transactions |= writers_seen(trace, transactions, keys)
        about = of_keys(trace, keys)
        guesses = (of_transactions(about, transactions), of_transactions(trace, transactions), about)
        return next((guess for guess in guesses if self._holds(guess)), trace)

    def _of_least_transactions(self, trace: Trace) -> Trace:
        numbers = list(dict.fromkeys(event.transaction for event in trace))
        return of_transactions(trace, set(least(numbers, lambda kept: self._holds(of_transactions(trace, set(kept))))))

    def _of_least_keys(self, trace: Trace) -> Trace:
        """The trace of the keys alone that the finding is about in it."""
        about = of_keys(trace, keys_of(self._found_again(trace)[0]))
        return about if self._holds(about) else trace

    def _holds(self, trace: Trace) -> bool:
        """Whether the auditor finds what is wanted in a trace."""
        return self._found(trace) is not None

    def _found_again(self, trace: Trace) -> tuple[Found, Audited]:
        """What is wanted, in a trace that has it. Raises BadInput where the auditor doesn't find it."""
        found = self._found(trace)
        if found is None:
            raise BadInput(f"the auditor finds no {self._wanted.name} where it found one before")
        return found

    def _found(self, trace: Trace) -> tuple[Found, Audited] | None:
        run = audited_events(events_of(trace), None, self._auditor)
        self._audits += 1
        self._progress.step(self._audits)
        if run.status == REFUSED:
            return None
        if run.report is None or run.facts is None:
            raise AuditorFailed(run)
        found = self._wanted.found_in(run.report, run.facts)
        return None if found is None else (found, run)


def _transactions_of(found: Found) -> set[int]:
    """The transactions that a finding names."""
    match found:
        case BadRead():
            return {found.transaction, found.saw, found.due} - {0}
        case BadWrite():
            return {found.first, found.second}
        case Unexplained():
            return {found.transaction, found.saw} - {0}
        case Cycle() | Structure():
            return set(found.transactions)
    return set()
