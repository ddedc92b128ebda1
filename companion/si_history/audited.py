"""A log from its bytes to the auditor's report: told apart, converted, audited, and read back.

The verdict is the auditor's. What is added here can only take it away: a report that doesn't go with its status or with the
history is a fault, and one of nothing is told as such.
"""

from __future__ import annotations

import io
from dataclasses import dataclass, field

from si_history.auditor import FALLS_SHORT, FAULT, MEETS, Auditor, Ending, Outcome
from si_history.conversion import without_collector
from si_history.errors import BadInput, in_source
from si_history.facts import Facts
from si_history.files import opened, source_name
from si_history.history import parse, text_of
from si_history.legend import Legend
from si_history.limits import STANDARD, Limits
from si_history.log_kinds import LogKind, kind_of
from si_history.log_lines import most_bytes
from si_history.matching import check_report
from si_history.naming import Names
from si_history.policy import STRICT, Policy
from si_history.report import Report
from si_history.report_text import ReportText, read_report, refusal_in_words

NOTHING = 5
"""The status where there was nothing to audit."""
SEPARATORS = (b" ", b"\t", b"\r", b"\n")
NO_EVENT = "nothing to audit: it has no event"
NO_COMMIT = "nothing to audit: no transaction committed"
OPTIONS = {": too many events": "--max-events", ": text too long": "--max-bytes"}
"""The options that help where the auditor refuses a history for its length."""


@dataclass(slots=True)
class Log:
    """A log that became a history: `history` is its text, and `legend` says what the numbers stand for.

    `warnings` are what a person should know of the log.
    """

    source: str
    kind: LogKind
    history: bytes
    legend: Legend | None = None
    warnings: list[str] = field(default_factory=list)

    @property
    def names(self) -> Names:
        return Names(self.legend)


@dataclass(slots=True)
class Audited:
    """A log that was audited at a level. Where there is no verdict, `problem` says why in one line.

    `status` is 0 or 1 as the auditor's, 3 where it refused the history, 4 where it failed, 2 where it is too old or too new,
    and 5 where there was nothing to audit.
    """

    log: Log
    level: str
    outcome: Outcome
    status: int
    problem: str | None = None
    report: Report | None = None
    facts: Facts | None = None

    @property
    def has_verdict(self) -> bool:
        return self.status in (MEETS, FALLS_SHORT)


def read_log(path: str, limits: Limits = STANDARD) -> bytes:
    """The bytes of a log; `-` is standard input. Raises BadInput where it can't be read, or is too long."""
    with opened(path) as file:
        content = file.read(most_bytes(limits) + 1)
    if len(content) > most_bytes(limits):
        raise BadInput(f"log too long: the limit of bytes of a log is {most_bytes(limits):,}", source=source_name(path))
    return content


def log_of(content: bytes, source: str, kind: LogKind | None = None, policy: Policy = STRICT) -> Log:
    """The history of a log, which is of the kind, or else of the one that it shows. Raises BadInput where it is bad."""
    with in_source(source):
        found = kind or kind_of(content)
        if found is None:
            return Log(source, LogKind.HISTORY, b"")
        if found.convert is None:
            _check_end(content)
            return Log(source, found, content)
        try:
            with without_collector():
                conversion = found.convert(io.BytesIO(content), policy)
                text = text_of(conversion.events, policy.limits)
                return Log(source, found, text.encode(), conversion.legend, conversion.warnings)
        except BadInput as fault:
            if fault.line == content.count(b"\n") + 1 and not content.endswith(b"\n"):
                fault.reason += " (the log ends in the middle of this line)"
            raise


def _check_end(history: bytes) -> None:
    """Refuses a history that ends within an event: of a number that is cut, what is left is a number too."""
    if history and history[-1:] not in SEPARATORS:
        raise BadInput("it ends in the middle of a line; where that line is whole, put a line's end behind it")


def audited(log: Log, auditor: Auditor, level: str, takes_nothing: bool = False, most: int | None = None) -> Audited:
    """Audits a log's history. Raises BadInput where the auditor can't be started.

    Where `takes_nothing`, a history of which nothing was committed is audited as every other one is. Of the findings of a kind
    the first `most` are kept in the report, where that is given, and the others are counted.
    """
    outcome = auditor.run(log.history, ["--explain", "--check", level])
    if outcome.ending is Ending.REFUSAL:
        return Audited(log, level, outcome, outcome.exit_status, _refusal(outcome.report))
    if outcome.ending is not Ending.REPORT:
        return Audited(log, level, outcome, outcome.exit_status, outcome.words)
    try:
        report = read_report(ReportText(outcome.report, "the auditor's report"), most)
        facts = Facts(parse(log.history.decode("ascii"), limits=auditor.limits))
        check_report(report, facts)
    except (BadInput, UnicodeDecodeError) as fault:
        return Audited(log, level, outcome, FAULT, f"the auditor made a report that can't be used: {fault}")
    if report.meets(level) != outcome.meets:
        problem = f"the auditor's status is {outcome.status}, and its report says otherwise"
        return Audited(log, level, outcome, FAULT, problem)
    if report.counts.committed == 0 and not takes_nothing:
        return Audited(log, level, outcome, NOTHING, NO_COMMIT if report.counts.events else NO_EVENT, report, facts)
    return Audited(log, level, outcome, outcome.status, None, report, facts)


def _refusal(report: bytes) -> str:
    lines = report.decode("utf-8", "replace").splitlines()
    words = refusal_in_words(*lines[:2])
    option = next((option for reason, option in OPTIONS.items() if lines[0].endswith(reason)), None)
    return words if option is None else f"{words}; {option} lets it be longer"
