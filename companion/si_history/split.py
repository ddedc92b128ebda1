"""`si-history split`: a long history, cut into parts that have its findings together."""

from __future__ import annotations

import argparse
import re
from collections.abc import Iterator

from si_history.conversion import without_collector
from si_history.endings import endings_of
from si_history.errors import BadInput, in_source
from si_history.files import check_output, source_name, write_output
from si_history.legend import Legend
from si_history.limits import STANDARD
from si_history.new_files import NewFiles, new_files
from si_history.part_text import PartText
from si_history.progress import Progress
from si_history.splitting import parts_of
from si_history.tokens import rereadable, tokens_of
from si_history.wording import counted

DEFAULT_EVENTS = 90_000
HISTORY, LEGEND = ".history", ".legend"
_ACTOR = re.compile("^[brwca]([0-9]+)", re.MULTILINE)
_KEY = re.compile(r"(?:\[|\.\.|;|,)([0-9]+)")
ENDS = r"-[0-9]{3,}\.(history|legend)"

DESCRIPTION = """\
Cuts the text of a history, of any length, into parts PREFIX-001.history and so on,
each of which si_audit takes. Every bad read, bad write and unexplained read of the
whole is in the report of one part, and no other one is. PREFIX-001.legend has the
place in the whole of each event of PREFIX-001.history, as its line."""

EPILOG = """\
A part starts with what is needed of transactions of earlier parts. A transaction that
is open at a cut is in the part in which it ends, with its start named. Cycles and
dangerous structures that join transactions of several parts are in no report; what is
printed says whether there can be such. Which older snapshots would fit a transaction
the whole alone tells: a part lacks versions of the past.

Status 2: the input is no history, or can't be cut so, or a file can't be written or is
there already. Then none is written.

examples:
  si-history split -o parts/run run.history
  si-history audit-many parts
  si_audit --explain <parts/run-001.history >1.report
  si-history names --legend parts/run-001.legend --history parts/run-001.history 1.report"""


def register(commands: argparse._SubParsersAction[argparse.ArgumentParser]) -> None:
    """Adds the command."""
    parser = commands.add_parser(
        "split",
        help="cut a long history into parts",
        description=DESCRIPTION,
        epilog=EPILOG,
        formatter_class=argparse.RawDescriptionHelpFormatter,
    )
    parser.add_argument("history", metavar="HISTORY", help="the text of a history; - is standard input")
    parser.add_argument(
        "--events", metavar="N", type=_events, default=DEFAULT_EVENTS,
        help=f"how many events a part may have, up to {STANDARD.events:,} (default: {DEFAULT_EVENTS:,})",
    )
    parser.add_argument("-o", "--prefix", metavar="PREFIX", required=True, help="what the names of the files start with")
    parser.set_defaults(run=run, writes_history=False)


def _events(word: str) -> int:
    """The number of events of a part."""
    if not (word.isascii() and word.isdigit() and len(word) < 10 and 1 <= int(word) <= STANDARD.events):
        raise argparse.ArgumentTypeError(f"it is no number from 1 to {STANDARD.events:,}: {word}")
    return int(word)


def run(arguments: argparse.Namespace) -> int:
    """Cuts the history that the arguments name, and tells what came of it."""
    name = source_name(arguments.history)
    check_output("-", [arguments.history])
    with new_files(arguments.prefix, ENDS) as files, in_source(name), without_collector():
        parts = list(_written(arguments, files))
    write_output(told(name, parts))
    return 0


def _written(arguments: argparse.Namespace, files: NewFiles) -> Iterator[tuple[str, PartText]]:
    """Writes each part and its legend, and answers them with their paths and without their events."""
    with rereadable(arguments.history) as file, Progress("events") as progress:
        endings = endings_of(tokens_of(file))
        for number, part in enumerate(parts_of(tokens_of(file), endings, arguments.events, progress), 1):
            text = "".join(f"{token}\n" for token in part.tokens)
            path = files.write(f"-{number:03}{HISTORY}", text)
            files.write(f"-{number:03}{LEGEND}", legend_of(text, part.places).to_json(text.encode("ascii")))
            yield path, PartText(part.first, part.last, added=part.added, over=part.over)


def legend_of(text: str, places: list[int]) -> Legend:
    """The legend of a part: each number is its own name, and the place in the whole stands for the line of a log."""
    return Legend(_names(_ACTOR, text), _names(_KEY, text), places)


def _names(number: re.Pattern[str], text: str) -> dict[int, str]:
    return {int(name): name for name in dict.fromkeys(number.findall(text))}


def told(name: str, parts: list[tuple[str, PartText]]) -> str:
    """What is printed: the parts, and what is known of the whole when they are audited."""
    over = sum(part.over for _, part in parts)
    lines = [f"{name}: {counted(parts[-1][1].last, 'event')}, in {counted(len(parts), 'part')}.", ""]
    lines += [
        f"  {path}  places {part.first:,} to {part.last:,}, {part.added:,} added" for path, part in parts
    ]
    lines += ["", "Each bad read, bad write and unexplained read is in the report of one part."]
    if over:
        lines += [
            f"{counted(over, 'committed transaction')} started before a cut and ended behind it. Cycles and",
            "dangerous structures of several parts are in no report: the whole fails ssi or",
            "serializable if a part does, and may fail them if none does.",
        ]
    else:
        lines += [
            "No committed transaction started before a cut and ended behind it: the whole meets",
            "si, ssi and serializable each exactly if each part meets it.",
        ]
    lines += ["It falls short of gsi if a part does, and may if none does: parts lack versions of the past."]
    return "".join(f"{line}\n" for line in lines)
