"""What all databases take on the command line, and what each word of it has to be."""

from __future__ import annotations

import argparse
from collections.abc import Callable, Mapping

from si_history.limits import STANDARD
from si_history.record.local import Kind
from si_history.record.workloads import MOST_EVENTS, Rows, Workload

FORMATS = ("transactions", "events", "history")
FEWEST_SESSIONS, MOST_SESSIONS = 2, 32
FEWEST_KEYS, MOST_KEYS = 2, 10_000
LONGEST_LOCK_SECONDS = 3600.0
WORKLOADS = """\
counters: read, modify, write; skew: read a pair, write one of it; ranges: read a range, insert and delete in it; blind: write
unread; mix: these four; transfers: read two, write both; statements: read and write in one statement; walks: read keys and
ranges, write one; readers: only read them; general: all of these, and some roll back, of those that only read one in two"""


def add_common(parser: argparse.ArgumentParser, workload: Workload) -> None:
    """Adds what all databases take."""
    size = parser.add_mutually_exclusive_group()
    size.add_argument("--transactions", type=number(1, STANDARD.events // MOST_EVENTS), metavar="N",
                      help="how many transactions begin (300)")
    size.add_argument("--events", type=number(1, STANDARD.events - MOST_SESSIONS * MOST_EVENTS), metavar="N",
                      help="instead: begin none any more once N events are recorded")
    size.add_argument("--script", metavar="HISTORY",
                      help="instead: play the events of a history, one after another; - is standard input")
    size.add_argument("--tell-version", action="store_true", help="instead: print the version of the store")
    parser.add_argument("--seed", type=number(0, 2**63 - 1), default=1, metavar="S",
                        help="what the transactions are made from (1)")
    parser.add_argument("--workload", choices=[kind.value for kind in Workload], default=workload.value,
                        help=f"{WORKLOADS} ({workload.value})")
    parser.add_argument("--sessions", type=number(FEWEST_SESSIONS, MOST_SESSIONS), default=8, metavar="N",
                        help="concurrent sessions, 2 to 32 (8)")
    parser.add_argument("--keys", type=number(FEWEST_KEYS, MOST_KEYS), default=16, metavar="N",
                        help="how many keys there are, 2 to 10,000 (16)")
    parser.add_argument("--rows", choices=[rows.value for rows in Rows], default=Rows.EVEN.value,
                        help="which keys have a row before the run (even)")
    parser.add_argument("--format", choices=FORMATS, default="transactions",
                        help="a log of one transaction a line, or of one event a line, or the text of a history (transactions)")
    parser.add_argument("--legend", metavar="FILE", help="with --format history: write the names of its transactions to FILE")
    parser.add_argument("-o", "--output", metavar="FILE", help="write to FILE and not to standard output")


def add_served(parser: argparse.ArgumentParser) -> None:
    """Adds what those databases take that tell their own order."""
    parser.add_argument("--interleave", action="store_true",
                        help="one thread interleaves the sessions, so that the seed repeats the run, as it always does a script")
    parser.add_argument("--lock-timeout", type=_seconds, default=10.0, metavar="SECONDS",
                        help="how long a statement may wait for a lock (10); with MariaDB in whole seconds")
    parser.add_argument("--connect", metavar="WORDS", help="use the server that these words connect to")
    parser.set_defaults(notes="snapshots")


def add_local(parser: argparse.ArgumentParser, kind: Kind) -> None:
    """Adds what those stores take whose order is that of the recorder's own statements."""
    first = next(iter(kind.levels))
    parser.add_argument("--level", choices=list(kind.levels), default=first, help=f"{_told(kind.levels)} ({first})")
    if kind.settings:
        parser.add_argument("--setting", choices=list(kind.settings), action="append", default=[], dest="settings",
                            help=f"any number of these: {_told(kind.settings)}")
    if kind.most_tables > 1:
        parser.add_argument("--tables", type=number(1, kind.most_tables), default=1, metavar="N",
                            help=f"over how many tables the keys are spread, 1 to {kind.most_tables} (1)")
    if kind.has_threads:
        parser.add_argument("--threads", action="store_true",
                            help="each session in a thread of its own, with one lock around commits and snapshots")
    parser.add_argument("--notes", choices=["snapshots", "begins"], default="snapshots",
                        help="begins: a control that notes each start at the begin, wherever the snapshot is taken (snapshots)")
    parser.set_defaults(connect=None, lock_timeout=1.0, threads=False, tables=1, settings=[])


def _told(words: Mapping[str, str]) -> str:
    """Words of a command line with what they mean."""
    return "; ".join(f"{word}: {meaning}" for word, meaning in words.items()).replace("%", "%%")


def number(least: int, greatest: int) -> Callable[[str], int]:
    """A whole number within bounds, as argparse wants it."""
    def read(word: str) -> int:
        if not (word.isascii() and word.isdigit() and len(word) < 20 and least <= int(word) <= greatest):
            raise argparse.ArgumentTypeError(f"{word!r} is no whole number from {least} to {greatest}")
        return int(word)
    return read


def _seconds(word: str) -> float:
    """A number of seconds, as argparse wants it."""
    try:
        seconds = float(word)
    except ValueError:
        seconds = -1.0
    if not 0 < seconds <= LONGEST_LOCK_SECONDS:
        raise argparse.ArgumentTypeError(f"{word!r} is no number of seconds above 0 and up to {LONGEST_LOCK_SECONDS:g}")
    return seconds
