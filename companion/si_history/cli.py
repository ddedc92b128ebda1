"""The command line: one parser, made of what each command's module registers."""

from __future__ import annotations

import argparse
from collections.abc import Sequence
from typing import IO, Any, NoReturn, Protocol

from si_history import (
    __version__, audit_command, audit_many, completion, from_events, from_jepsen, from_transactions, graph, minimize, names, page,
    split, startup,
)
from si_history.errors import BadInput, OutputIsInput
from si_history.files import STANDARD_OUTPUT, write_error, write_output
from si_history.incomplete import Output, Stopped, end_by, stops_met
from si_history.record import command as record

OK = 0
BAD_INPUT = 2

DESCRIPTION = """\
Goes from the log of a multiversion store to the verdict of si_audit, and puts the
log's names into its report, in words and in pictures. It judges nothing: the verdict
is si_audit's alone."""

EPILOG = """\
Status 0: all went well. Status 2: the input or the command line is bad, or what
was made can't be written; one line on standard error says why. Where a history was
to be written into a file or a pipe, the token !incomplete is, which no auditor takes.
The statuses of audit and audit-many stand in their help.
Each command has its own help: si-history COMMAND --help"""


class Command(Protocol):
    """A module that adds one command, or several, to the command line."""

    def register(self, commands: argparse._SubParsersAction[argparse.ArgumentParser]) -> None:
        """Adds the command's parser. Its default `run` takes the arguments and answers the status, or raises BadInput.

        Where its default `writes_history` is not False, a run that fails ends its output by a token that no history has.
        """


# The command modules, in the order in which --help lists them.
COMMANDS: tuple[Command, ...] = (
    audit_command,
    audit_many,
    minimize,
    split,
    from_events,
    from_transactions,
    from_jepsen,
    names,
    graph,
    page,
    record,
)


class BadCommandLine(BadInput):
    """A faulty command line; `writes_history` is as the command has it, and True where no command was told."""

    def __init__(self, message: str, program: str, writes_history: bool) -> None:
        super().__init__(f"{message} (see {program} --help)", source=program)
        self.writes_history = writes_history


class OneLineParser(argparse.ArgumentParser):
    """A parser that tells a faulty command line in one line, and whose help is output like any other."""

    def print_help(self, file: IO[str] | None = None) -> None:
        write_output(self.format_help())

    def error(self, message: str) -> NoReturn:
        raise BadCommandLine(message, self.prog, self.get_default("writes_history") is not False)


class ShowVersion(argparse.Action):
    """Writes the version, and ends."""

    def __call__(self, parser: argparse.ArgumentParser, *_: Any) -> None:
        write_output(f"si-history {__version__}\n")
        parser.exit()


def make_parser() -> argparse.ArgumentParser:
    """The parser of the whole command line."""
    parser: argparse.ArgumentParser = OneLineParser(
        prog="si-history",
        description=DESCRIPTION,
        epilog=EPILOG,
        formatter_class=argparse.RawDescriptionHelpFormatter,
    )
    parser.add_argument("--version", action=ShowVersion, nargs=0, help="show the version and exit")
    commands = parser.add_subparsers(metavar="COMMAND", required=True)
    for command in COMMANDS:
        command.register(commands)
    completion.register(commands, make_parser)
    return parser


def main(words: Sequence[str] | None = None) -> int:
    """Runs one command line (that of the process, if none is given), and answers the status.

    However a command ends that was to write a history and failed, its output ends by the mark of `incomplete`.
    """
    output = Output()
    run = _Run()
    try:
        with startup.interrupts_raised():
            return run.status_of(words)
    except KeyboardInterrupt:
        return startup.INTERRUPTED
    finally:
        if run.writes_history and not run.is_done:
            output.mark()
        output.close()
        if run.ending_signal is not None:
            end_by(run.ending_signal)


class _Run:
    """One command line that is run."""

    def __init__(self) -> None:
        self.writes_history = True
        self.is_done = False
        self.ending_signal: int | None = None

    def status_of(self, words: Sequence[str] | None) -> int:
        """Runs the command line, and tells what went wrong."""
        try:
            status = self._end_of(words)
            self.is_done = status == OK
            return status
        except BadCommandLine as fault:
            self.writes_history = fault.writes_history
            write_error(str(fault))
        except BadInput as fault:
            self.writes_history = self.writes_history and not isinstance(fault, OutputIsInput)
            write_error(f"si-history: {fault}")
        except MemoryError:
            write_error("si-history: not enough memory")
        except Stopped as stop:
            self.ending_signal = stop.number
        return BAD_INPUT

    def _end_of(self, words: Sequence[str] | None) -> int:
        """The status of the command, or 0 where the help or the version was wanted."""
        parser = make_parser()
        try:
            arguments, unknown = parser.parse_known_args(words)
        except SystemExit:
            self.is_done = True
            raise
        is_elsewhere = getattr(arguments, "output", None) not in (None, STANDARD_OUTPUT)
        self.writes_history = getattr(arguments, "writes_history", True) and not is_elsewhere
        if unknown:
            raise BadCommandLine(f"unrecognized arguments: {' '.join(unknown)}", parser.prog, self.writes_history)
        with stops_met():
            status: int = arguments.run(arguments)
        return status
