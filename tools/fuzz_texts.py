#!/usr/bin/env python3
"""Gives the program texts that nobody means.

    PYTHONPATH=tools python3 -m fuzz_texts PROGRAM [--count N] [--seed N] [--only N]

Each text is an example, or a random history, with some of its bytes or tokens changed, and is given five times: for the full and
for the explained report by the default workers, and for the full, the brief and the explained report by some workers, with some
cuts and under some level. They have to agree as docs/FORMAT.md and docs/USAGE.md say: the status is 0, 1 or 3, and that of the
level, which of gsi only the explained report tells; standard error stays empty; each report ends with a line feed and holds
nothing but printable ASCII; the brief report is the full one without edges and pivots, and the explained one without its reasons
and without the lines of snapshots is the brief one. A text is made from the seed and its own number
alone, so --only gives one text again. The first text that fails is kept as out/fuzzed.history. The last line is
'N passed, M failed'.
"""

from __future__ import annotations

import argparse
import os
import re
import signal
import sys
import tempfile
from collections import Counter
from collections.abc import Iterator, Sequence
from dataclasses import dataclass
from multiprocessing import Pool
from pathlib import Path
from random import Random

from mutating import mutated
from oracle import small

SECONDS = 60
SHARES = 50
# Of all runs at least so many have each of the statuses, so that each kind is tried.
LEAST_SHARE = 0.05
MAX_KEY = 2**64 - 1
LEVELS = ("serializable", "ssi", "si", "gsi")
FORMS: tuple[list[str], ...] = ([], ["--brief"], ["--explain"])
EXAMPLES = [path.read_bytes() for path in sorted(Path("examples").glob("**/*.history"))]


@dataclass(frozen=True)
class Ran:
    """What came of a run."""

    status: int
    report: bytes
    said: bytes


@dataclass(frozen=True)
class Reports:
    """The full and the explained report of a text, by the default workers."""

    full: bytes
    explained: bytes


class Hanging(Exception):
    """A run takes too long."""


class Runner:
    """Runs a program on one text after the other, with files that are made once, and counts the statuses of its runs."""

    def __init__(self, program: str) -> None:
        self.program = program
        self.statuses = Counter[int]()
        self.files = [tempfile.TemporaryFile(buffering=0) for _ in range(3)]
        signal.signal(signal.SIGALRM, self._hang)

    def give(self, text: bytes) -> None:
        """The text of the next runs."""
        given = self.files[0]
        given.seek(0)
        given.truncate()
        given.write(text)

    def run(self, words: Sequence[str]) -> Ran:
        """One run on the text. Raises Hanging where it takes too long."""
        for file in self.files:
            file.seek(0)
        for file in self.files[1:]:
            file.truncate()
        actions = [(os.POSIX_SPAWN_DUP2, file.fileno(), number) for number, file in enumerate(self.files)]
        process = os.posix_spawn(self.program, [self.program, *words], os.environ, file_actions=actions)
        signal.alarm(SECONDS)
        try:
            _, status = os.waitpid(process, 0)
        except Hanging:
            os.kill(process, signal.SIGKILL)
            os.waitpid(process, 0)
            raise
        finally:
            signal.alarm(0)
        for file in self.files[1:]:
            file.seek(0)
        ran = Ran(os.waitstatus_to_exitcode(status), self.files[1].read(), self.files[2].read())
        self.statuses[ran.status] += 1
        return ran

    @staticmethod
    def _hang(*_: object) -> None:
        raise Hanging


def retokened(text: bytes, other: bytes, rng: Random) -> bytes:
    """A text after some of its tokens were left out, doubled, swapped, or replaced by one of another text."""
    tokens, others = text.split(), other.split() or [b"b1"]
    for _ in range(rng.randint(1, 4)):
        one, two = (rng.randrange(len(tokens) + 1) for _ in range(2))
        way = rng.randrange(4)
        if way == 0:
            del tokens[one:one + 1]
        elif way == 1:
            tokens[one:one] = tokens[two:two + 1]
        elif way == 2:
            tokens[one:one + 1] = [rng.choice(others)]
        else:
            tokens[one:one + 1], tokens[two:two + 1] = tokens[two:two + 1], tokens[one:one + 1]
    return b" ".join(tokens)


def text_of(rng: Random) -> bytes:
    """A text: of an example or a random history, mostly with changes."""
    text = rng.choice(EXAMPLES) if rng.random() < 0.4 else small.text_of(rng)
    way = rng.random()
    if way < 0.05:
        return text
    change = mutated if way < 0.65 else retokened
    return change(text, rng.choice(EXAMPLES), rng)


def shared(text: bytes, rng: Random) -> list[str]:
    """Words that share the work: some workers, and cuts at keys of the text or anywhere."""
    keys = [number for number in map(int, re.findall(rb"[0-9]{1,20}", text)) if number <= MAX_KEY] or [0]
    cuts = [str(rng.choice(keys) if rng.random() < 0.8 else rng.randint(0, MAX_KEY)) for _ in range(rng.choice((0, 1, 2, 3, 20)))]
    return ["--workers", str(rng.choice((1, 2, 3, 4, 7, 64))), *cuts]


def status_of(reports: Reports, level: str) -> int:
    """The status that a text with these reports has under a level, as docs/USAGE.md says it."""
    if reports.full.startswith(b"refused: "):
        return 3
    if level == "gsi":
        return 1 if re.search(rb"^snapshot [0-9]+ none$", reports.explained, re.MULTILINE) else 0
    line = {"serializable": b"serializable yes", "ssi": b"ssi pass", "si": b"isolation kept"}[level]
    lines = reports.full.split(b"\n")
    return 0 if b"isolation kept" in lines and line in lines else 1


def told(report: bytes) -> bytes:
    """What every form of a report tells: a brief report."""
    others = b"  ", b"snapshot ", b"dangerous ", b"edge ", b"pivot "
    return b"".join(line for line in report.splitlines(keepends=True) if not line.startswith(others))


def fault_of(ran: Ran, level: str, form: list[str], reports: Reports) -> str | None:
    """What is wrong with a run on a text that has these reports."""
    if ran.said or ran.status != status_of(reports, level):
        return f"status {ran.status}, and {ran.said!r} on standard error"
    if not re.fullmatch(rb"[ -~\n]*\n", ran.report):
        return "a report that doesn't end with a line feed, or holds what can't be printed"
    if told(ran.report) != told(reports.full) or (form == ["--brief"] and ran.report != told(reports.full)):
        return "the report is another"
    if not form and ran.report != reports.full:
        return "the full report is another"
    if form == ["--explain"] and ran.report != reports.explained:
        return "the explained report is another"
    return "the explained report has edges or pivots" if form and re.search(rb"^(edge|pivot) ", ran.report, re.MULTILINE) else None


def faults(runner: Runner, text: bytes, rng: Random) -> Iterator[str]:
    """What is wrong with the runs on a text."""
    runner.give(text)
    full, explained = runner.run([]), runner.run(["--explain"])
    reports = Reports(full.report, explained.report)
    for ran, form in ((full, FORMS[0]), (explained, FORMS[2])):
        yield from filter(None, [fault_of(ran, LEVELS[0], form, reports)])
    for form in FORMS:
        level = rng.choice(LEVELS)
        words = [*form, "--check", level, *shared(text, rng)]
        fault = fault_of(runner.run(words), level, form, reports)
        if fault:
            yield f"{' '.join(words)}: {fault}"


def share(job: tuple[str, str, range]) -> tuple[Counter[int], list[tuple[int, str]]]:
    """Some of the texts, by their numbers: how many had which status, and what failed."""
    program, seed, numbers = job
    runner, failed = Runner(program), []
    for number in numbers:
        rng = Random(f"{seed} {number}")
        try:
            fault = next(faults(runner, text_of(rng), rng), None)
        except Hanging:
            fault = f"no end after {SECONDS} seconds"
        if fault is not None:
            failed.append((number, fault))
    return runner.statuses, failed


def main() -> int:
    """Gives all texts, and answers the status."""
    parser = argparse.ArgumentParser(description="Gives the program texts that nobody means.")
    parser.add_argument("program", metavar="PROGRAM")
    parser.add_argument("--count", type=int, default=20_000, metavar="N", help="how many texts (20,000)")
    parser.add_argument("--seed", default="1", metavar="N", help="what the texts are made from (1)")
    parser.add_argument("--only", type=int, metavar="N", help="the text of this number alone")
    words = parser.parse_args()
    numbers = range(words.count) if words.only is None else range(words.only, words.only + 1)
    jobs = [(os.path.abspath(words.program), words.seed, numbers[start::SHARES]) for start in range(SHARES)]
    statuses, failed = Counter[int](), []
    with Pool() as pool:
        for some, faulty in pool.imap_unordered(share, jobs):
            statuses += some
            failed += faulty
    for number, fault in sorted(failed)[:10]:
        print(f"text {number} of seed {words.seed}: {fault}")
    if failed:
        Path("out").mkdir(exist_ok=True)
        Path("out/fuzzed.history").write_bytes(text_of(Random(f"{words.seed} {min(failed)[0]}")))
    print("statuses of the runs: " + ", ".join(f"{status} of {statuses[status]:,}" for status in sorted(statuses)))
    if words.only is None and min(statuses[status] for status in (0, 1, 3)) < LEAST_SHARE * statuses.total():
        print("1 failed: too few runs have one of the statuses 0, 1 and 3")
        return 1
    print(f"{len(numbers) - len(failed)} passed, {len(failed)} failed")
    return 1 if failed else 0


if __name__ == "__main__":
    sys.exit(main())
