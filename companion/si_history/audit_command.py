"""The command audit: from a log to a verdict, and to a report for people."""

from __future__ import annotations

import argparse
import os
import sys
from dataclasses import dataclass, field

from si_history import document
from si_history.account import Account, account_of
from si_history.audit_json import json_of_audit, json_of_fault
from si_history.audit_junit import junit_of_audit, junit_of_fault
from si_history.audit_text import Style, text_of_audit
from si_history.audited import Audited, audited, log_of, read_log
from si_history.auditor import LEVELS, Auditor, Ending, add_auditor_arguments, auditor_of
from si_history.errors import BadInput
from si_history.files import STANDARD_OUTPUT, check_output, source_name, write_error, write_output
from si_history.findings import groups_of
from si_history.log_kinds import LogKind
from si_history.naming import shown
from si_history.policy import add_policy_arguments, policy_of
from si_history.progress import Waiting, silenced
from si_history.unseen import visible

MOST_TOLD = 20
MOST_KEPT = 1_000
"""How many findings of a kind are read whole without --all. A page has fewer."""
ENDINGS = ("history", "legend", "report")

DESCRIPTION = """\
Audits one log: tells what it is by what it holds, makes a history of it, has si_audit
judge that, and writes a report with the log's names and lines. The verdict is
si_audit's alone. A log is the text of a history, a log of events, a log of transactions
or a Jepsen history in EDN (docs/RECORDING.md)."""

EPILOG = """\
statuses:
  0  the history meets the level
  1  it falls short of the level
  2  it was not audited: the log is bad, the auditor is missing or old, or an output
     can't be written
  3  the auditor refused the history
  4  the auditor failed: it was killed, or memory or a device failed it
  5  there was nothing to audit: no event, or no transaction that committed

levels:
  gsi           each transaction has some snapshot that fits it, taken before it acts
  si            snapshot isolation was kept: the snapshot of its start fits each
  serializable  that, and some serial order explains the committed transactions
  ssi           that, and the test of serializable snapshot isolation is passed

examples:
  si-history audit run.jsonl
  si-history audit --check serializable --page run.html run.jsonl
  si-history audit --quiet --junit audit.xml --json audit.json run.jsonl
"""


def register(commands: argparse._SubParsersAction[argparse.ArgumentParser]) -> None:
    """Adds the command."""
    parser = commands.add_parser(
        "audit", help="audit one log: from a log to a verdict, and to a page", description=DESCRIPTION, epilog=EPILOG,
        formatter_class=argparse.RawDescriptionHelpFormatter,
    )
    parser.add_argument("log", metavar="LOG", help="the log; - is standard input")
    parser.add_argument(
        "--check", metavar="LEVEL", choices=LEVELS, default="si", help="what the status tells of: gsi, si, ssi or serializable (si)"
    )
    parser.add_argument(
        "--as", dest="kind", choices=[kind.value for kind in LogKind], help="what the log is, where it doesn't show"
    )
    for name, what in (
        ("page", "a page for a browser"), ("json", "the report as JSON"), ("junit", "a test case a level, as JUnit's XML"),
    ):
        words = f"write {what} to FILE; - is standard output, in place of the text"
        parser.add_argument(f"--{name}", metavar="FILE", help=words)
    parser.add_argument("--keep", metavar="DIR", help="keep the history, its legend and the auditor's report in DIR")
    parser.add_argument("--all", action="store_true", help=f"tell all findings, and not the first {MOST_TOLD} alone")
    parser.add_argument("--allow-empty", action="store_true", help="take a history of which nothing was committed as it is")
    parser.add_argument("--quiet", action="store_true", help="write no text; the status tells")
    parser.add_argument("--no-color", action="store_true", help="no colour; none is used either where NO_COLOR is set")
    add_auditor_arguments(parser)
    add_policy_arguments(parser)
    parser.set_defaults(run=run, writes_history=False)


def run(arguments: argparse.Namespace) -> int:
    """Audits the log, writes what is wanted, and answers the status."""
    _check_outputs(arguments)
    with silenced(arguments.quiet):
        try:
            made = _Made(arguments)
        except BadInput as fault:
            _write_fault(arguments, str(fault))
            raise
        made.write()
    return made.audited.status


def _write_fault(arguments: argparse.Namespace, problem: str) -> None:
    """Writes of a log that was not audited what is wanted as data. What can't be written is no news beside the problem."""
    source, outputs = source_name(arguments.log), _Outputs()
    outputs.write(arguments.json, json_of_fault(source, arguments.check, problem))
    outputs.write(arguments.junit, junit_of_fault(source, arguments.check, problem))


class _Made:
    """A log that was audited, and what was made of it."""

    def __init__(self, arguments: argparse.Namespace) -> None:
        self._arguments = arguments
        self._auditor: Auditor = auditor_of(arguments)
        kind = None if arguments.kind is None else LogKind(arguments.kind)
        content = read_log(arguments.log, self._auditor.limits)
        log = log_of(content, source_name(arguments.log), kind, policy_of(arguments))
        for warning in log.warnings:
            write_error(f"si-history: {log.source}: {warning}")
        with Waiting(f"auditing {visible(log.source)}"):
            kept, told = (None, None) if arguments.all else (MOST_KEPT, MOST_TOLD)
            self.audited: Audited = audited(log, self._auditor, arguments.check, arguments.allow_empty, kept)
        self._account: Account = account_of(self.audited, told)

    def write(self) -> None:
        """Writes all that is wanted. Raises BadInput where something can't be written, when the rest is."""
        arguments, one = self._arguments, self.audited
        outputs = _Outputs()
        if one.problem is not None:
            write_error(f"si-history: {one.log.source}: {one.problem}")
        elif not arguments.quiet and STANDARD_OUTPUT not in (arguments.page, arguments.json, arguments.junit):
            outputs.write(STANDARD_OUTPUT, text_of_audit(one, self._account, Style(_has_colour(arguments))))
        outputs.write(arguments.json, json_of_audit(one, self._account, self._auditor.version))
        outputs.write(arguments.junit, junit_of_audit(one, self._account))
        if arguments.page is not None and one.has_verdict:
            outputs.write(arguments.page, _page(one))
        if arguments.keep is not None:
            for path, text in _kept(arguments.keep, one):
                outputs.write(path, text)
        outputs.end()


@dataclass(slots=True)
class _Outputs:
    """Outputs of which each is tried, also where one before it failed."""

    faults: list[BadInput] = field(default_factory=list)

    def write(self, path: str | None, text: str) -> None:
        try:
            _write(path, text)
        except BadInput as fault:
            self.faults.append(fault)

    def end(self) -> None:
        """Raises the first fault."""
        for fault in self.faults:
            raise fault


def _write(path: str | None, text: str) -> None:
    if path is not None:
        write_output(text, path)


def _check_outputs(arguments: argparse.Namespace) -> None:
    """Raises BadInput where an output would destroy the log, or another output."""
    wanted = [path for path in (arguments.page, arguments.json, arguments.junit) if path is not None]
    if wanted.count(STANDARD_OUTPUT) > 1:
        raise BadInput("only one output can be standard output")
    if arguments.keep is not None:
        wanted += [_kept_path(arguments.keep, source_name(arguments.log), ending) for ending in ENDINGS]
    check_output(STANDARD_OUTPUT, [arguments.log])
    for at, path in enumerate(wanted):
        check_output(path, [arguments.log, *wanted[:at]])


def _page(one: Audited) -> str:
    """The page of an audit that has a verdict."""
    if one.report is None or one.facts is None:
        raise ValueError("without a report there is no page")
    names = one.log.names
    groups = groups_of(one.report, one.facts, names)
    return document.html(shown(os.path.basename(one.log.source)), one.report, one.facts, groups, names)


def _kept_path(directory: str, source: str, ending: str) -> str:
    """Where something of a log is kept: under the log's name, without the ending that says what it is written in."""
    name = os.path.basename(source).replace("standard input", "run")
    return os.path.join(directory, f"{name.removesuffix('.jsonl').removesuffix('.history')}.{ending}")


def _kept(directory: str, one: Audited) -> list[tuple[str, str]]:
    """What is kept of an audit. Raises BadInput where the directory can't be made."""
    try:
        os.makedirs(directory, exist_ok=True)
    except (OSError, ValueError) as fault:
        raise BadInput(f"can't be made: {getattr(fault, 'strerror', None) or fault}", source=directory) from None
    texts: dict[str, str] = {}
    if one.log.history.isascii():  # what isn't was refused, and is the log itself
        texts["history"] = one.log.history.decode("ascii")
    if one.log.legend is not None:
        texts["legend"] = one.log.legend.to_json(one.log.history)
    if one.outcome.ending in (Ending.REPORT, Ending.REFUSAL):
        texts["report"] = one.outcome.report.decode("ascii", "replace")
    return [(_kept_path(directory, one.log.source, ending), text) for ending, text in texts.items()]


def _has_colour(arguments: argparse.Namespace) -> bool:
    """Whether the text is for a terminal that shows colours, and nobody asked for none."""
    if arguments.no_color or os.environ.get("NO_COLOR") or os.environ.get("TERM") == "dumb":
        return False
    return sys.stdout is not None and sys.stdout.isatty()
