"""`si-history minimize`: the smallest history that still has a finding, as a log with names, to paste into a bug report."""

from __future__ import annotations

import argparse
import io
import time

from si_history.audited import Audited, Log, audited, log_of, read_log
from si_history.auditor import Auditor, add_auditor_arguments, auditor_of
from si_history.conversion import Conversion
from si_history.errors import BadInput, in_source
from si_history.files import STANDARD_INPUT, check_output, source_name, write_error, write_output
from si_history.findings import Finding, finding_of
from si_history.from_events import convert
from si_history.history import Event, parse, text_of
from si_history.log_kinds import LogKind
from si_history.log_of_events import EventsWriter
from si_history.minimizer import LEVEL, AuditorFailed, Minimal, audited_events, minimal
from si_history.naming import Names
from si_history.policy import Policy, add_policy_arguments, policy_of
from si_history.wanted import NAMES, first_found, wanted_of
from si_history.wording import counted

DESCRIPTION = """\
Leaves out transactions and then events of a log, asks the auditor each time, and
ends with the smallest history that still has the finding. What is left is the
log's own: no snapshot moves, and of a read of a range the keys that matter stay.
Prints the finding in sentences, the small log and its history."""

EPILOG = f"""\
The finding is the first one, what breaks isolation first, or the first of the
name that --finding gives:
  {", ".join(NAMES[:5])},
  {", ".join(NAMES[5:])}

Status 0: the finding was minimized. Status 2: there is none, or the log is bad.
Status 3: the auditor refused the history. Status 4: the auditor failed.

examples:
  si-history minimize run.jsonl
  si-history minimize --finding stale-read --log small.jsonl run.jsonl"""


def register(commands: argparse._SubParsersAction[argparse.ArgumentParser]) -> None:
    """Adds the command."""
    parser = commands.add_parser(
        "minimize",
        help="the smallest history that still has a finding",
        description=DESCRIPTION,
        epilog=EPILOG,
        formatter_class=argparse.RawDescriptionHelpFormatter,
    )
    parser.add_argument("log", metavar="LOG", help="a history, a log of events or one of transactions; - is standard input")
    parser.add_argument(
        "--as", dest="kind", metavar="KIND", choices=[kind.value for kind in LogKind],
        help=f"what the log is: {', '.join(kind.value for kind in LogKind)} (default: as it shows)",
    )
    parser.add_argument("--finding", metavar="NAME", choices=NAMES, help="which finding to keep, by its name (default: the first)")
    parser.add_argument("--log", dest="small_log", metavar="FILE", help="write the small log, a log of events, to FILE")
    parser.add_argument("--history", metavar="FILE", help="write its history to FILE")
    parser.add_argument("--legend", metavar="FILE", help="write the legend of that history to FILE")
    add_auditor_arguments(parser)
    add_policy_arguments(parser)
    parser.set_defaults(run=run, writes_history=False)


def run(arguments: argparse.Namespace) -> int:
    """Minimizes what the arguments name, and tells what is left."""
    outputs = [arguments.small_log, arguments.history, arguments.legend]
    if STANDARD_INPUT in outputs:
        raise BadInput("--log, --history and --legend each need a file: standard output has the finding")
    for at, output in enumerate(outputs):
        check_output(output, [arguments.log, *outputs[at + 1 :]])
    kind = None if arguments.kind is None else LogKind(arguments.kind)
    auditor = auditor_of(arguments)
    log = log_of(read_log(arguments.log, auditor.limits), source_name(arguments.log), kind, policy_of(arguments))
    for warning in log.warnings:
        write_error(f"si-history: {log.source}: {warning}")
    try:
        with in_source(log.source):
            small = _Small(log, arguments.finding, auditor)
    except AuditorFailed as fault:
        write_error(f"si-history: {log.source}: {fault}")
        return fault.status
    for path, text in zip(outputs, (small.log, small.history, small.legend), strict=True):
        if path is not None:
            write_output(text, path)
    write_output(small.told())
    return 0


class _Small:
    """What is left of a log: a log of events, the history that it is, and the finding."""

    def __init__(self, log: Log, name: str | None, auditor: Auditor) -> None:
        began = time.monotonic()
        whole = audited(log, auditor, LEVEL, takes_nothing=True, most=1 if name is None else None)
        if whole.report is None or whole.facts is None:
            raise AuditorFailed(whole)
        found = first_found(whole.report, whole.facts, name)
        left = minimal(parse(log.history.decode("ascii"), limits=auditor.limits), found, whole.facts, auditor)
        self.log = EventsWriter(log.legend).log(left.events)
        self.conversion = convert(io.BytesIO(self.log.encode("utf-8")), Policy(limits=auditor.limits))
        self.events = left.events if log.legend is None else self.conversion.events
        self.history = text_of(self.events, auditor.limits)
        self.legend = self.conversion.legend.to_json(self.history.encode("ascii"))
        self.finding = _finding(left, self.events, None if log.legend is None else self.conversion, auditor)
        self._sizes = [_size(whole), _size(left.run)]
        self._cost = f"{counted(left.audits, 'audit')} in {time.monotonic() - began:.1f} seconds"

    def told(self) -> str:
        """What is printed: the finding, what became of the log, and what is left of it."""
        reasons = "".join(f"  {reason}\n" for reason in self.finding.reasons)
        whole, left = self._sizes
        history = " ".join(map(str, self.events))
        return (
            f"{self.finding.title}\n{reasons}\n{whole} came down to {left}, by {self._cost}.\n\n"
            f"The log of events:\n\n{self.log}\nIts history:\n\n{history}\n"
        )


def _finding(left: Minimal, events: list[Event], conversion: Conversion | None, auditor: Auditor) -> Finding:
    """The finding in the history that is written, which the auditor is asked about once more. Raises AuditorFailed."""
    legend = None if conversion is None else conversion.legend
    run = audited_events(events, legend, auditor)
    if run.report is None or run.facts is None or left.run.facts is None:
        raise AuditorFailed(run)
    found = first_found(run.report, run.facts, wanted_of(left.found, left.run.facts).name)
    return finding_of(found, run.report, run.facts, Names(legend))


def _size(run: Audited) -> str:
    counts = run.report.counts if run.report is not None else None
    if counts is None:
        raise AuditorFailed(run)
    return f"{counted(counts.events, 'event')} of {counted(counts.committed + counts.aborted + counts.open, 'transaction')}"
