#!/usr/bin/env python3
"""Gives the program long histories of a simulated store, and compares its reports with what is known of the anomalies planted.

    long_texts.py PROGRAM [EVENTS]

EVENTS is how many the longest history has, from 50,000 on, and 1,000,000 where it isn't given. Of each history the brief and
the explained report are looked at. Up to the line `ssi` they have to be those that the generator gives, byte for byte: the
counts, and each bad read, bad write and unexplained read, in the explained one with its name and its events, and there too
which snapshots would fit the transactions that their starts don't fit. Behind it stands whether the test of serializable
snapshot isolation fails and whether there is an order, which has each committed transaction once. Limits of one event less, and
of one byte less, refuse the longest. The last line is 'N passed, M failed'.
"""

from __future__ import annotations

import os
import subprocess
import sys
import tempfile
from collections.abc import Iterator, Sequence
from itertools import dropwhile, takewhile
from pathlib import Path

from long_histories import HERE
from measuring import limits, run
from planting import PLANTS

LEAST, LONGEST = 50_000, 1_000_000
SECONDS = 60
FORMS = ("brief", "explained")
OPTIONS = {"brief": "--brief", "explained": "--explain"}
# Of each history: its kind, which share of the longest one's events it has, and how many of each anomaly are planted.
HISTORIES: tuple[tuple[str, float, dict[str, int]], ...] = (
    ("even", 1, dict.fromkeys(PLANTS, 3)),
    ("even", 0.2, {"stale-read": 3}),
    ("even", 0.2, {"write-skew": 1}),
    ("even", 0.2, {}),
    ("ranges", 0.1, dict.fromkeys(PLANTS, 5)),
)
BREAKS_ORDER = {"aborted-read", "uncommitted-read", "own-write-missed", "lost-update", "write-skew"}


class Text:
    """The text of a history, with the lines that its reports start with."""

    def __init__(self, room: str, kind: str, events: int, plants: dict[str, int]) -> None:
        self.path, self.events, self.plants = Path(room, "text"), events, plants
        self.heads = {form: Path(room, form) for form in FORMS}
        words = [word for form, path in self.heads.items() for word in (f"--{form}", str(path))]
        words += [word for name, count in plants.items() for word in ("--plant", f"{name}={count}")]
        with self.path.open("wb") as taken:
            command = [sys.executable, "-B", f"{HERE}/long_histories.py", kind, str(events), *words]
            subprocess.run(command, stdout=taken, check=True)
        self.limits = limits(events, self.path.stat().st_size)


class Tried:
    """What was tried so far, with files in a folder of its own."""

    def __init__(self, program: str, room: str) -> None:
        self.program, self.report = program, Path(room, "report")
        self.passed = self.failed = 0

    def count(self, name: str, wrong: str) -> None:
        self.passed, self.failed = self.passed + (not wrong), self.failed + bool(wrong)
        if wrong:
            print(f"{name}: {wrong}", flush=True)

    def forms(self, name: str, text: Text) -> None:
        """The brief and the explained report of a text."""
        for form in FORMS:
            it = run([self.program, OPTIONS[form], *text.limits], str(text.path), str(self.report), SECONDS)
            said = it.said.decode(errors="replace").strip()
            self.count(f"{name}, {form}", said or next(self.faults(text, form, it.status), ""))
            print(f"{name}, {form}: {it.seconds:.2f} s, {it.megabytes:.0f} MB", flush=True)

    def faults(self, text: Text, form: str, status: int) -> Iterator[str]:
        """What is wrong with the report that is there."""
        with self.report.open(encoding="ascii") as lines:
            head = list(takewhile(lambda line: not line.startswith("ssi "), lines))
        with self.report.open(encoding="ascii") as lines:
            tail = [line.rstrip("\n") for line in dropwhile(lambda line: not line.startswith("ssi "), lines) if line[0] != " "]
        wanted = text.heads[form].read_text(encoding="ascii").splitlines(keepends=True)
        yield from (f"line {at} is {one!r} and not {other!r}" for at, (one, other) in enumerate(zip(head, wanted), 1) if one != other)
        if len(head) != len(wanted):
            yield f"the line ssi is line {len(head) + 1}, and not {len(wanted) + 1}"
        if len(tail) < 3:
            yield "it ends early"
            return
        yield from faults_behind(tail, head, text.plants)
        if status != int(tail[-2] != "serializable yes" or head[1] != "isolation kept\n"):
            yield f"the status is {status}"

    def refusals(self, text: Text) -> None:
        """The same text under limits that are less by one."""
        size = text.path.stat().st_size
        for words, line in (
            (limits(text.events - 1, size), f"refused: token {text.events}: too many events\n"),
            (limits(text.events, size - 1), "refused: text too long\n"),
        ):
            it = run([self.program, *words], str(text.path), str(self.report), SECONDS)
            told = self.report.read_text(encoding="ascii")
            self.count(" ".join(words), "" if (it.status, told) == (3, line) else f"status {it.status}, and {told[:200]!r}")


def faults_behind(tail: list[str], head: list[str], plants: dict[str, int]) -> Iterator[str]:
    """What is wrong with the lines from `ssi` on, without reasons."""
    if plants and tail[0] != "ssi fail":
        yield "it passes ssi"
    if plants.keys() & BREAKS_ORDER and tail[-2] != "serializable no":
        yield "it is serializable"
    word, *order = tail[-1].split(" ")
    committed = head[0].split(" ")[3]
    if tail[-2] == "serializable yes" and (word != "order" or len(set(order)) != len(order) or len(order) != int(committed)):
        yield f"the order has {len(order)} transactions, and {committed} committed"


def main(words: Sequence[str]) -> int:
    if len(words) not in (1, 2) or not all(it.isdecimal() and int(it) >= LEAST for it in words[1:]):
        print(__doc__, end="", file=sys.stderr)
        return 2
    longest = int(words[1]) if words[1:] else LONGEST
    with tempfile.TemporaryDirectory() as room:
        tried = Tried(os.path.abspath(words[0]), room)
        for kind, share, plants in HISTORIES:
            text = Text(room, kind, int(share * longest), plants)
            tried.forms(f"{kind} of {text.events:,} events with {sum(plants.values())} anomalies", text)
            if share == 1:
                tried.refusals(text)
    print(f"{tried.passed} passed, {tried.failed} failed")
    return 1 if tried.failed else 0


if __name__ == "__main__":
    sys.exit(main(sys.argv[1:]))
