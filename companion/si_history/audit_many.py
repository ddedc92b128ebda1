"""`si-history audit-many`: every log under a folder, audited side by side, with a table and a page of them all."""

from __future__ import annotations

import argparse
import os
from collections.abc import Iterable, Iterator
from dataclasses import replace

from si_history.auditor import FAULT, LEVELS, Auditor, add_auditor_arguments
from si_history.cluster import on_cluster
from si_history.errors import BadInput, quoted
from si_history.files import made_folder, write_output
from si_history.log_kinds import LogKind
from si_history.memory import memory_limit
from si_history.naming import shown
from si_history.policy import add_policy_arguments, policy_of
from si_history.pool import in_processes
from si_history.progress import Progress, silenced
from si_history.run_audit import Job, Row
from si_history.runs import BY_PRODUCTS, Folder, logs_under
from si_history.runs_page import html, page_name
from si_history.runs_table import status_of, summary_of, table_of
from si_history.wording import counted

MOST_JOBS = 1024
SECONDS_OF_PATIENCE = 60.0

DESCRIPTION = """\
Audits every log under a folder side by side, and prints a table: of each run whether
it meets the level, passes the ssi test and is serializable, and its findings by their
names. The verdicts are si_audit's alone. A log is told by what it holds, as by audit."""

EPILOG = f"""\
Files whose names end in one of these are no logs, unless --pattern says so:
  {" ".join(BY_PRODUCTS)}
Any other file that can't be audited has no verdict, and the status isn't 0.

statuses:
  0  each run meets the level
  1  a run falls short of it
  4  none falls short, and the auditor failed for one
  3  else, the auditor refused the history of one
  2  else, a log is bad; or the folder, the auditor or an output
  5  else, one had nothing to audit; or there is no log under the folder

examples:
  si-history audit-many nightly
  si-history audit-many --jobs 8 --check serializable --page pages nightly
  si-history audit-many --dask tcp://scheduler:8786 nightly"""


def register(commands: argparse._SubParsersAction[argparse.ArgumentParser]) -> None:
    """Adds the command."""
    parser = commands.add_parser(
        "audit-many", help="audit every log under a folder side by side", description=DESCRIPTION, epilog=EPILOG,
        formatter_class=argparse.RawDescriptionHelpFormatter,
    )
    parser.add_argument("folder", metavar="DIR", help="the folder of the logs")
    parser.add_argument(
        "--check", metavar="LEVEL", choices=LEVELS, default="si", help="the level to meet: gsi, si, ssi or serializable (si)"
    )
    parser.add_argument("--jobs", metavar="N", type=_jobs, help="how many runs are audited at a time (as many as there are processors)")
    parser.add_argument("--dask", metavar="ADDRESS", help="give the runs to the workers of this Dask scheduler")
    parser.add_argument(
        "--patience", metavar="SECONDS", type=float, default=SECONDS_OF_PATIENCE,
        help=f"how long to wait for a worker where the Dask cluster has none ({SECONDS_OF_PATIENCE:g})",
    )
    parser.add_argument("--page", metavar="DIR", help="write an index page, index.html, and a page of each run to DIR")
    parser.add_argument("--pattern", metavar="GLOB", action="append", default=[], help="audit the files alone whose names are like this")
    parser.add_argument("--as", dest="kind", choices=[kind.value for kind in LogKind], help="what the logs are, where it doesn't show")
    parser.add_argument("--allow-empty", action="store_true", help="take histories of which nothing was committed as they are")
    parser.add_argument("--quiet", action="store_true", help="write no table; the status tells")
    add_auditor_arguments(parser)
    add_policy_arguments(parser)
    parser.set_defaults(run=run, writes_history=False)


def _jobs(word: str) -> int:
    if not (word.isascii() and word.isdigit() and 1 <= int(word) <= MOST_JOBS):
        raise argparse.ArgumentTypeError(f"{word!r} is no number from 1 to {MOST_JOBS}")
    return int(word)


def run(arguments: argparse.Namespace) -> int:
    """Audits the logs that the arguments name, writes the table and the pages, and answers the status."""
    with silenced(arguments.quiet):
        return _run(arguments)


def _run(arguments: argparse.Namespace) -> int:
    if arguments.dask is not None and arguments.jobs is not None:
        raise BadInput("--jobs is for this machine alone: how many runs a Dask cluster does is its own")
    if not os.path.isdir(arguments.folder):
        raise BadInput(f"there is no folder {quoted(arguments.folder)}")
    found = logs_under(arguments.folder, arguments.pattern)
    done = {row.name: row for row in _kept(_rows(arguments, found.logs), len(found.logs), arguments.page)}
    rows = [done.get(name, Row(name, FAULT, "nothing came of it")) for name in found.logs]
    pages = {row.name: page_name(row.name) for row in rows if row.has_verdict}
    if arguments.page is not None:
        index = html(shown(os.path.basename(os.path.abspath(arguments.folder))), arguments.check, rows, pages)
        write_output(index, os.path.join(made_folder(arguments.page), "index.html"))
    if not arguments.quiet:
        _write_table(arguments, rows, found)
    return status_of(rows)


def _write_table(arguments: argparse.Namespace, rows: list[Row], found: Folder) -> None:
    told = table_of(rows, arguments.check) + "\n" + summary_of(rows, arguments.check) if rows else "There is no log to audit."
    passed = f" Passed over: {counted(len(found.passed_over), 'other file')}." if found.passed_over else ""
    write_output(f"{told}{passed}\n")


def _rows(arguments: argparse.Namespace, logs: Iterable[str]) -> Iterator[Row]:
    """The row of each run, as it is done."""
    kind = None if arguments.kind is None else LogKind(arguments.kind)
    jobs = [
        Job(
            name, os.path.join(arguments.folder, name), arguments.check, arguments.auditor, arguments.memory,
            arguments.allow_empty, arguments.page is not None, kind, policy_of(arguments),
        )
        for name in logs
    ]
    if arguments.dask is not None:
        return on_cluster(jobs, arguments.dask, arguments.patience)
    workers = arguments.jobs or os.cpu_count() or 1
    auditor = Auditor.found(arguments.auditor, arguments.memory or memory_limit(workers))
    return in_processes([replace(job, auditor=auditor.path, memory=auditor.memory) for job in jobs], workers)


def _kept(rows: Iterator[Row], count: int, pages: str | None) -> Iterator[Row]:
    """The rows without their pages, which are written as they come."""
    with Progress(f"of {counted(count, 'run')} audited") as progress:
        for number, row in enumerate(rows, 1):
            progress.step(number, count)
            if pages is not None and row.page is not None:
                path = os.path.join(pages, page_name(row.name))
                made_folder(os.path.dirname(path))
                write_output(row.page, path)
            yield replace(row, page=None)
