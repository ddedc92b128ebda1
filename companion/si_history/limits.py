"""How many events and bytes a history may have: what the auditor takes by itself, and what a command line lets it take."""

from __future__ import annotations

import argparse
from collections.abc import Callable
from dataclasses import dataclass


@dataclass(frozen=True, slots=True)
class Limits:
    """The most events and bytes of a history."""

    events: int = 100_000
    bytes: int = 16_777_216

    @property
    def words(self) -> list[str]:
        """The auditor's arguments for these limits: none where it takes as much by itself."""
        words = ["--max-events", str(self.events)] if self.events != STANDARD.events else []
        return words + (["--max-bytes", str(self.bytes)] if self.bytes != STANDARD.bytes else [])


STANDARD = Limits()
GREATEST = Limits(500_000_000, 17_179_869_184)


def add_limit_arguments(parser: argparse.ArgumentParser) -> None:
    """Adds the options by which a command takes other limits."""
    for name, most, usual in (("events", GREATEST.events, STANDARD.events), ("bytes", GREATEST.bytes, STANDARD.bytes)):
        parser.add_argument(
            f"--max-{name}", metavar="N", type=_up_to(most), default=usual,
            help=f"how many {name} a history may have, up to {most:,} ({usual:,})",
        )


def limits_of(arguments: argparse.Namespace) -> Limits:
    """The limits that a command line asks for; the standard ones where its command has no such options."""
    return Limits(getattr(arguments, "max_events", STANDARD.events), getattr(arguments, "max_bytes", STANDARD.bytes))


def _up_to(most: int) -> Callable[[str], int]:
    def number(word: str) -> int:
        if not (word.isascii() and word.isdigit() and len(word) <= len(str(most)) and 1 <= int(word) <= most):
            raise argparse.ArgumentTypeError(f"{word!r} is no number from 1 to {most:,}")
        return int(word)

    return number
