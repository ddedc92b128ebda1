"""`si-history page`: a report and its history as one page for a browser, or as a picture."""

from __future__ import annotations

import argparse
import os.path

from si_history.document import html, picture
from si_history.errors import BadInput, in_source
from si_history.files import STANDARD_INPUT, check_output, source_name, write_output
from si_history.findings import groups_of
from si_history.matching import check_report, read_history
from si_history.naming import Names, shown
from si_history.pictures import Pictures
from si_history.progress import REPORT_LINES, Progress
from si_history.report_text import ReportText, read_report

EPILOG = """\
The page holds all that it needs: it loads nothing, and can be sent as one file. It has
the verdict in words, the findings in sentences, what breaks isolation first, and a
picture of the transactions of the finding that is chosen, which is the first one until
another is clicked. The whole timeline is one click away. With --svg a history of at
most 24 transactions and 240 events is drawn whole, and of a larger one the first
finding.

examples:
  si_audit <run.history >run.report
  si-history page run.history run.report -o page.html
  si-history page run.history run.report --legend run.legend -o page.html
  si-history page run.history run.report --svg -o picture.svg
"""


def register(commands: argparse._SubParsersAction[argparse.ArgumentParser]) -> None:
    """Adds the command."""
    parser = commands.add_parser(
        "page",
        help="a history and its report as one page for a browser",
        description="Writes a history and its report as one HTML page, or a picture alone as an SVG image.",
        epilog=EPILOG,
        formatter_class=argparse.RawDescriptionHelpFormatter,
    )
    parser.add_argument("history", metavar="HISTORY", help="the text of the history; - is standard input")
    parser.add_argument("report", metavar="REPORT", help="its report; - is standard input")
    parser.add_argument("--legend", metavar="FILE", help="the legend that was written with the history, for the log's names")
    parser.add_argument("--svg", action="store_true", help="a picture alone, as an SVG image")
    parser.add_argument("-o", "--output", metavar="FILE", default="-", help="where to write (default: -, standard output)")
    parser.set_defaults(run=run, writes_history=False)


def run(arguments: argparse.Namespace) -> int:
    """Writes the page or the picture."""
    inputs = [arguments.history, arguments.report, arguments.legend]
    if inputs.count(STANDARD_INPUT) > 1:
        raise BadInput("only one input can be standard input")
    check_output(arguments.output, inputs)
    made = made_page(arguments.history, arguments.report, arguments.legend, arguments.svg)
    write_output(made, arguments.output)
    return 0


def made_page(history_path: str, report_path: str, legend_path: str | None, is_picture: bool) -> str:
    """The page, or the picture alone. Raises BadInput where an input is none, or is not of the same history as the report."""
    with Progress(REPORT_LINES) as progress:
        report = read_report(ReportText.from_path(report_path, progress))
    names = Names.from_path(legend_path)
    facts = read_history(history_path, names)
    with in_source(source_name(history_path)):
        check_report(report, facts)
        groups = groups_of(report, facts, names)
    if is_picture:
        return picture(report, Pictures(facts, groups, names).scene())
    return html(shown(os.path.basename(source_name(history_path))), report, facts, groups, names)
