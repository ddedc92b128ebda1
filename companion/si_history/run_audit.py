"""One run of many: its log is audited, wherever that is done, and what came of it is told in a row."""

from __future__ import annotations

from collections.abc import Mapping
from dataclasses import dataclass, field
from functools import lru_cache

from si_history.account import account_of
from si_history.audited import Audited, audited, log_of, read_log
from si_history.auditor import BAD_COMMAND_LINE, FALLS_SHORT, FAULT, MEETS, Auditor
from si_history.document import html
from si_history.errors import BadInput
from si_history.findings import groups_of
from si_history.limits import Limits
from si_history.log_kinds import LogKind
from si_history.naming import shown
from si_history.policy import STRICT, Policy

MOST_KEPT = 1000
"""How many findings of a kind are kept. The others are counted."""


@dataclass(frozen=True, slots=True)
class Job:
    """What is to be audited, and how. Where `content` is None the log is read where it is audited."""

    name: str
    path: str
    level: str
    auditor: str | None
    memory: int | None
    takes_nothing: bool
    wants_page: bool
    kind: LogKind | None = None
    policy: Policy = STRICT
    content: bytes | None = None


@dataclass(frozen=True, slots=True)
class Row:
    """What came of a run: its status as that of `audit`, what the report says, or the problem where there is no verdict."""

    name: str
    status: int
    problem: str | None = None
    passes_ssi: bool | None = None
    is_serializable: bool | None = None
    counts: Mapping[str, int] = field(default_factory=dict)
    page: str | None = None

    @property
    def has_verdict(self) -> bool:
        return self.status in (MEETS, FALLS_SHORT)


def audit_run(job: Job) -> Row:
    """Audits one run. Whatever goes wrong with it is told in its row."""
    try:
        auditor = _auditor(job.auditor, job.memory, job.policy.limits)
        content = read_log(job.path, job.policy.limits) if job.content is None else job.content
        log = log_of(content, job.name, job.kind, job.policy)
        return _row(job, audited(log, auditor, job.level, job.takes_nothing, MOST_KEPT))
    except BadInput as fault:
        return Row(job.name, BAD_COMMAND_LINE, str(fault).removeprefix(f"{fault.source}: "))
    except MemoryError:
        return Row(job.name, FAULT, "memory ran out")
    except Exception as fault:  # what is wrong with one run must not cost the others
        return Row(job.name, FAULT, f"its audit failed: {type(fault).__name__}: {' '.join(str(fault).split())}")


@lru_cache(maxsize=1)
def _auditor(path: str | None, memory: int | None, limits: Limits) -> Auditor:
    """The auditor, which is asked for its version once a process."""
    return Auditor.found(path, memory, limits)


def _row(job: Job, run: Audited) -> Row:
    if run.report is None or run.facts is None or not run.has_verdict:
        return Row(job.name, run.status, run.problem or run.outcome.words)
    page = None
    if job.wants_page:
        names = run.log.names
        page = html(shown(job.name), run.report, run.facts, groups_of(run.report, run.facts, names), names)
    return Row(job.name, run.status, None, run.report.ssi.holds, run.report.serializable.holds, account_of(run, 0).counts, page)
