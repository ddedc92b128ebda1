"""`si-history names`: a report with the log's own names and lines."""

from __future__ import annotations

import argparse
from collections.abc import Callable, Iterator

from si_history.errors import BadInput, in_source
from si_history.files import STANDARD_INPUT, STANDARD_OUTPUT, check_output, source_name, write_output
from si_history.matching import check_report, read_history
from si_history.named_reasons import told, told_remark
from si_history.naming import Names
from si_history.progress import REPORT_LINES, Progress
from si_history.reasons import is_class, is_counts, is_remark, reason_of
from si_history.report_text import INDENT, ReportText, edge_of, read_report
from si_history.report_words import Malformed

UNDECIDED = "undecided"

EPILOG = """\
Each line of the report comes out with the log's names in place of numbers, and with
"line N", a line of the log, in place of the place of an event. Version 0, which no
transaction wrote, stays 0:

  bad-read 7 4 1 saw 2 due 3      becomes  bad-read line 6 T4 acct/5 saw T2 due T3
  edge 1 ww 2 1                   becomes  edge T1 ww T2 acct/5
  cycle 1 >ww:1> 2 >rw:1> 1       becomes  cycle T1 >ww:acct/5> T2 >rw:acct/5> T1

In the lines of an explained report that start with two spaces an event keeps its
number, with its line beside it, since several events can be on one line of a log, and
what it is stands in words:

  saw: event 3 w2[1], event 4 c2  becomes  saw: event 3 (line 2) T2 wrote acct/5,
                                           event 4 (line 2) T2 committed

A finding that depends on whether a transaction committed of which the log doesn't tell
that ends with "undecided". A name that could be misread, with a space or a quote in it for example, is written as
a JSON string.

examples:
  si-history from-events --legend run.legend run.log >run.history
  si_audit <run.history >run.report
  si-history names --legend run.legend --history run.history <run.report
"""


def register(commands: argparse._SubParsersAction[argparse.ArgumentParser]) -> None:
    """Adds the command."""
    parser = commands.add_parser(
        "names",
        help="a report with the log's own names and lines",
        description="Writes a report with the names of transactions and keys, and the lines, that the log has.",
        epilog=EPILOG,
        formatter_class=argparse.RawDescriptionHelpFormatter,
    )
    parser.add_argument(
        "report", metavar="REPORT", nargs="?", default=STANDARD_INPUT, help="the report (default: -, standard input)"
    )
    parser.add_argument("--legend", metavar="FILE", required=True, help="the legend that was written with the history")
    parser.add_argument("--history", metavar="FILE", required=True, help="the history, by which the legend is known to be its")
    parser.set_defaults(run=run, writes_history=False)


def run(arguments: argparse.Namespace) -> int:
    """Writes the report with names."""
    inputs = [arguments.report, arguments.legend, arguments.history]
    if inputs.count(STANDARD_INPUT) > 1:
        raise BadInput("only one input can be standard input")
    check_output(STANDARD_OUTPUT, inputs)
    names = Names.from_path(arguments.legend)
    facts = read_history(arguments.history, names)
    with Progress(REPORT_LINES) as progress:
        text = ReportText.from_path(arguments.report, progress)
        with in_source(source_name(arguments.history)):
            check_report(read_report(text), facts)
        named = "".join(f"{line}\n" for line in named_lines(text, names))
    write_output(named)
    return 0


def named_lines(text: ReportText, names: Names) -> Iterator[str]:
    """The lines of a report, which was read without fault, with names. Raises BadInput for what the legend doesn't name."""
    for number, line in enumerate(text, 1):
        try:
            if line.startswith(INDENT):
                yield INDENT + _told(line.removeprefix(INDENT), names)
            else:
                yield named_line(line, names) + (f" {UNDECIDED}" if names.is_undecided(_deciding(line)) else "")
        except Malformed as fault:
            raise text.no_report(number, fault) from None


def _deciding(line: str) -> list[int]:
    """The transactions on whose outcomes the finding of a line depends. That of a reader makes no difference to its read."""
    head, *words = line.split(" ")
    if head in ("cycle", "dangerous"):
        return [int(word) for word in words if word.isdigit()]
    numbers = [int(words[at]) for at in _PARTIES.get(head, ())]
    return [number for number in numbers if head == "bad-write" or number != int(words[1])]


def _told(line: str, names: Names) -> str:
    """A line that explains another one. One of counts or of a cycle's class names nothing."""
    if is_counts(line) or is_class(line):
        return line
    return told_remark(line, names) if is_remark(line) else told(reason_of(line), names)


def named_line(line: str, names: Names) -> str:
    """One line of a report with names. Raises Malformed for an edge that is none."""
    head, _, rest = line.partition(" ")
    if head == "edge":
        edge = edge_of(line)
        return f"edge {names.transaction(edge.source)} {edge.kind.value} {names.transaction(edge.target)} {names.key(edge.key)}"
    words = rest.split(" ") if rest else []
    if head == "snapshot":
        return " ".join([head, names.transaction(int(words[0])), *_fitting(words[1:], names)])
    if head in _PARTS:
        return " ".join([head, *(part(names, word) for part, word in zip(_PARTS[head], words, strict=True))])
    if head in ("pivot", "dangerous", "order", "cycle"):
        return " ".join([head, *(_stop_or_step(names, word) for word in words)])
    return line


def _fitting(words: list[str], names: Names) -> list[str]:
    """What stands behind the transaction in a line of a snapshot: `from N to M`, or `none`."""
    return [names.event(int(word)) if word.isdigit() else word for word in words]


def _as_it_is(_: Names, word: str) -> str:
    return word


def _transaction(names: Names, word: str) -> str:
    return names.transaction(int(word))


def _version(names: Names, word: str) -> str:
    return word if word == "0" else names.transaction(int(word))


def _key(names: Names, word: str) -> str:
    return names.key(int(word))


def _place(names: Names, word: str) -> str:
    return f"line {names.line(int(word))}"


def _stop_or_step(names: Names, word: str) -> str:
    """A transaction of a list, or what stands between two in the line of a cycle, as `>ww:7>`, or a word such as `in`."""
    if word.startswith(">"):
        kind, _, key = word[1:-1].partition(":")
        return f">{kind}:{_key(names, key)}>"
    return _transaction(names, word) if word.isdigit() else word


_PARTIES = {"bad-read": (4, 6), "bad-write": (1, 2), "unexplained": (3,)}
"""Which words of a line, after the first one, are transactions on whose outcomes it depends."""

_PARTS: dict[str, tuple[Callable[[Names, str], str], ...]] = {
    "bad-read": (_place, _transaction, _key, _as_it_is, _version, _as_it_is, _version),
    "bad-write": (_key, _transaction, _transaction),
    "unexplained": (_place, _transaction, _key, _version),
}
"""What stands where in lines of a fixed length, after the first word."""
