"""What a user lets pass in a log, and what the log's versions are named by: the options of the commands that read logs."""

from __future__ import annotations

import argparse
from dataclasses import dataclass

from si_history.header import UNIQUE, WRITERS
from si_history.limits import STANDARD, Limits, limits_of

REFUSE, AS_OPEN, AS_BAD = "refuse", "as-open", "as-bad"


@dataclass(frozen=True, slots=True)
class Policy:
    """What passes. By default nothing does that a history can't say of the log's own transactions.

    `by_values` is None where the command line doesn't say what versions are named by. `limits` are those of the history.
    """

    by_values: bool | None = None
    takes_unknown_values: bool = False
    takes_unknown_writers: bool = False
    takes_intermediate: bool = False
    limits: Limits = STANDARD


STRICT = Policy()


def add_values_argument(parser: argparse.ArgumentParser) -> None:
    """Adds what says that a log without a header names versions by values."""
    parser.add_argument(
        "--values", choices=(WRITERS, UNIQUE),
        help=f"what reads and writes name beside a key: the writer ({WRITERS}), or a value that no other transaction writes "
        f"to the key ({UNIQUE}); a header of the log says the same",
    )


def add_writer_argument(parser: argparse.ArgumentParser) -> None:
    """Adds what becomes of a writer that the log doesn't have."""
    parser.add_argument(
        "--unknown-writer", choices=(REFUSE, AS_OPEN), default=REFUSE,
        help="a version of a transaction that never wrote the key is refused, or becomes one of an open transaction that "
        "the log doesn't have, so that the read is a bad one",
    )


def add_value_arguments(parser: argparse.ArgumentParser) -> None:
    """Adds what becomes of values that name no version."""
    parser.add_argument(
        "--unknown-values", choices=(REFUSE, AS_OPEN), default=REFUSE, help="the same for a value that nobody wrote"
    )
    parser.add_argument(
        "--intermediate", choices=(REFUSE, AS_BAD), default=REFUSE,
        help="a value that its writer overwrote itself is refused where it is read (G1b), or becomes a version of an open "
        "transaction of its own, so that the read is a bad one",
    )


def add_policy_arguments(parser: argparse.ArgumentParser) -> None:
    """Adds all of these."""
    add_values_argument(parser)
    add_writer_argument(parser)
    add_value_arguments(parser)


def policy_of(arguments: argparse.Namespace) -> Policy:
    """The policy that a command line asks for."""
    values: str | None = getattr(arguments, "values", None)
    return Policy(
        None if values is None else values == UNIQUE,
        getattr(arguments, "unknown_values", REFUSE) == AS_OPEN,
        getattr(arguments, "unknown_writer", REFUSE) == AS_OPEN,
        getattr(arguments, "intermediate", REFUSE) == AS_BAD,
        limits_of(arguments),
    )
