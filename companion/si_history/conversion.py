"""What the commands that read logs have in common: their arguments, and what they write."""

from __future__ import annotations

import argparse
import gc
from collections.abc import Callable, Iterator
from contextlib import contextmanager
from dataclasses import dataclass, field
from typing import BinaryIO

from si_history.errors import BadInput, in_source
from si_history.files import OUTPUT_DEVICE, STANDARD_INPUT, STANDARD_OUTPUT, check_output, opened, source_name, write_error, write_output
from si_history.history import Event, text_of
from si_history.legend import Legend
from si_history.limits import add_limit_arguments, limits_of


@dataclass(slots=True)
class Conversion:
    """The history of a log, its legend, and what a person should know of the log."""

    events: list[Event]
    legend: Legend
    warnings: list[str] = field(default_factory=list)


def add_log_arguments(parser: argparse.ArgumentParser) -> None:
    """Adds the log, the legend and the limits of the history to a command's arguments."""
    parser.add_argument("log", metavar="LOG", help="the log; - is standard input")
    parser.add_argument(
        "--legend",
        metavar="FILE",
        help="write the log's names of transactions and keys, and the line of each event, to FILE as JSON",
    )
    add_limit_arguments(parser)


@contextmanager
def without_collector() -> Iterator[None]:
    """Within it, Python doesn't look for cycles of objects: a conversion makes none, and looking takes a third of its time."""
    was_on = gc.isenabled()
    gc.disable()
    try:
        yield
    finally:
        if was_on:
            gc.enable()


def run_conversion(arguments: argparse.Namespace, convert: Callable[[BinaryIO], Conversion]) -> int:
    """Converts the log that the arguments name: writes the legend, if wanted, and then the history. Answers the status."""
    if arguments.legend == STANDARD_INPUT:
        raise BadInput("--legend needs a file of its own: standard output has the history")
    check_output(STANDARD_OUTPUT, [arguments.log])
    check_output(arguments.legend, [arguments.log, OUTPUT_DEVICE])
    with in_source(source_name(arguments.log)), without_collector():
        with opened(arguments.log) as file:
            conversion = convert(file)
        if not conversion.events:
            raise BadInput("the log has no event, so there is no history of it")
        text = text_of(conversion.events, limits_of(arguments))
    for warning in conversion.warnings:
        write_error(f"si-history: {source_name(arguments.log)}: {warning}")
    if arguments.legend is not None:
        write_output(conversion.legend.to_json(text.encode()), arguments.legend)
    write_output(text)
    return 0
