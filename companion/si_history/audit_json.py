"""The report of an audit as data. docs/audit.schema.json says what it looks like."""

from __future__ import annotations

import json

from si_history.account import Account, Moment, Told
from si_history.audited import Audited
from si_history.auditor import LEVELS
from si_history.facts import Facts
from si_history.legend import Legend, hash_of
from si_history.report import BadRead, BadWrite, Cycle, Edge, Explained, Report, Snapshot, Structure, Unexplained

FORMAT = "si-history audit 1"
OUTCOMES = {0: "meets", 1: "falls short", 2: "not audited", 3: "refused", 4: "fault", 5: "nothing to audit"}
Json = dict[str, object]


def json_of_audit(audited: Audited, account: Account, auditor: str) -> str:
    """The data of an audit, on one line. `auditor` is the version of the auditor's program."""
    log, report = audited.log, audited.report
    made = _head(log.source, audited.level, audited.status, audited.problem)
    made |= {"kind": log.kind.value, "auditor": auditor, "history": _history(audited)}
    if audited.has_verdict and report is not None and audited.facts is not None:
        teller = _Teller(audited.facts, log.legend or Legend())
        made |= {"verdicts": _verdicts(report), "levels": _levels(report)}
        made |= {"counts": account.counts, "findings": [teller.finding(told) for told in account.told]}
        made |= {"left_out": account.total - len(account.told), "undecided": account.undecided}
    return _line(made)


def json_of_fault(source: str, level: str, problem: str) -> str:
    """The data of an audit that came to nothing before the auditor was asked, on one line."""
    return _line(_head(source, level, 2, problem))


def _line(made: Json) -> str:
    return json.dumps(made) + "\n"


def _head(source: str, level: str, status: int, problem: str | None) -> Json:
    return {
        "format": FORMAT, "log": source, "level": level, "status": status, "outcome": OUTCOMES[status], "problem": problem,
        "kind": None, "auditor": None, "history": None, "verdicts": None, "levels": None, "counts": {}, "findings": [],
        "left_out": 0, "undecided": 0,
    }


def _history(audited: Audited) -> Json:
    """The history that was audited: its hash, and what it has, where the auditor told."""
    made: Json = {"hash": hash_of(audited.log.history)}
    if audited.report is not None:
        counts = audited.report.counts
        made |= {"events": counts.events, "committed": counts.committed, "aborted": counts.aborted, "open": counts.open}
    return made


def _verdicts(report: Report) -> Json:
    return {
        "isolation_kept": report.isolation.holds, "ssi_pass": report.ssi.holds, "serializable": report.serializable.holds
    }


def _levels(report: Report) -> Json:
    """Which levels are met. Of gsi a report of an earlier auditor tells nothing."""
    return {level: report.meets(level) if level != "gsi" or report.tells_snapshots else None for level in LEVELS}


class _Teller:
    """Tells findings by the log's names, as they are there."""

    def __init__(self, facts: Facts, legend: Legend) -> None:
        self._facts = facts
        self._legend = legend

    def finding(self, told: Told) -> Json:
        return {
            "name": told.name, "breaks": list(told.breaks), "sentence": told.sentence, "reasons": list(told.reasons),
            "undecided": told.is_undecided, "about": self._about(told.found), "snapshot": self._snapshot(told.snapshot),
            "transactions": [self._transaction(number) for number in told.transactions],
            "moments": [self._moment(moment) for moment in told.moments],
        }

    def _about(self, found: Explained) -> Json:
        """What the line of the report says."""
        if isinstance(found, (BadRead, Unexplained)):
            about: Json = {
                "event": found.place, "transaction": self._name(found.transaction), "key": self._key(found.key),
                "saw": self._version(found.saw),
            }
            return about | {"due": self._version(found.due)} if isinstance(found, BadRead) else about
        if isinstance(found, BadWrite):
            return {"key": self._key(found.key), "transactions": [self._name(found.first), self._name(found.second)]}
        return {"steps": [self._step(step) for step in found.steps]} if isinstance(found, (Cycle, Structure)) else {}

    def _snapshot(self, snapshot: Snapshot | None) -> Json | None:
        """Which snapshots would fit the transaction that its start doesn't fit."""
        if snapshot is None:
            return None
        first, last = snapshot.fitting or (None, None)
        return {"transaction": self._name(snapshot.transaction), "from": first, "to": last}

    def _step(self, step: Edge) -> Json:
        return {
            "from": self._name(step.source), "kind": step.kind.value, "to": self._name(step.target), "key": self._key(step.key)
        }

    def _transaction(self, number: int) -> Json:
        transaction = self._facts.transaction(number)
        return {
            "name": self._name(number), "number": number, "fate": transaction.fate.value, "start": transaction.start,
            "end": transaction.end,
        }

    def _moment(self, moment: Moment) -> Json:
        return {
            "what": moment.what, "transaction": self._name(moment.number), "sentence": f"{moment.transaction} {moment.words}",
            "event": None if moment.what == "start" else moment.place, "line": moment.line, "operation": moment.operation,
            "timestamp": moment.time, "fields": dict(moment.fields),
        }

    def _name(self, number: int) -> str:
        return self._legend.transaction(number)

    def _key(self, number: int) -> str:
        return self._legend.key(number)

    def _version(self, number: int) -> str | None:
        return self._name(number) if number else None
