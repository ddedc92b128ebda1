"""Compares the program with the definitions.

    PYTHONPATH=tools python3 -m oracle PROGRAM [--seed N] [KIND=COUNT ...]

COUNT texts of each KIND go through the program: small, crowd, versions, ranges, rings, edges, most_edges. With no KIND it is
small=1000. A small text is given once, with some number of workers and a few cuts, which must not show; a larger one with 1,
2, 3, 7 and 64 workers, each time with 0 to 63 cuts. Of these runs some ask for the brief report, and some check another
level. Some texts are read under limits that they just meet, or miss by one. Each text is given once more, for the explained
report. A line for each kind tells how many texts and runs there were, and how many explained reports show what. The first
text that tells the program and the definitions apart is kept as out/differs.history, with both reports beside it, and the
status is then 1. The last line is 'N passed, M failed'.
"""

import shutil
import subprocess
import sys
from pathlib import Path
from random import Random

from oracle import larger, small, taking, trying
from oracle.account import Account
from oracle.events import Event
from oracle.reading import Refusal, read
from oracle.runs import Case, Line, command_lines, some_limits
from oracle.tally import Tally

SMALL = "small"
SECONDS = 120
ROOM = Path("out")


def text_of(kind: str, rng: Random) -> bytes:
    return small.text_of(rng) if kind == SMALL else larger.text_of(kind, rng)


def judged(kind: str, events: list[Event] | Refusal) -> Account | Refusal:
    """What the definitions say of the events. What is small is judged both ways."""
    if isinstance(events, Refusal):
        return events
    account = taking.account_of(events)
    if kind == SMALL and trying.account_of(events) != account:
        raise taking.Disagreement("by trying all, and by the procedures")
    return account


def difference(program: str, line: Line, case: Case) -> str:
    """Tells where a run differs from what is wanted, or answers an empty text."""
    wanted, status = case.wanted(line)
    try:
        ran = subprocess.run([program, *case.limits.words, *line.words], input=case.text, capture_output=True, timeout=SECONDS)
        ended, report = f"status {ran.returncode}, and {ran.stderr!r} on standard error", ran.stdout
        if (ran.stdout, ran.stderr, ran.returncode) == (wanted, b"", status):
            return ""
    except subprocess.TimeoutExpired:
        ended, report = f"no end after {SECONDS} seconds", b""
    ROOM.mkdir(exist_ok=True)
    for name, it in (("history", case.text), ("program", report), ("definitions", wanted)):
        (ROOM / f"differs.{name}").write_bytes(it)
    return f"{' '.join([*case.limits.words, *line.words])}: {ended}, and by the definitions status {status}; see {ROOM}/differs.*"


def compare(program: str, kind: str, rng: Random, tally: Tally) -> str:
    """Makes a text and tells where the program and the definitions differ on it, or answers an empty text."""
    text = text_of(kind, rng)
    limits = some_limits(rng, text)
    events = read(text, limits)
    try:
        case = Case(text, events, judged(kind, events), limits)
    except taking.Disagreement as why:
        return f"the definitions disagree on {text.decode()}: {why}"
    for line in command_lines(rng, events, kind == SMALL):
        differs = difference(program, line, case)
        if differs:
            return differs
        tally.add_run(case, line)
    tally.add(case)
    return ""


def counts_in(words: list[str]) -> dict[str, int]:
    """How many texts of each kind the words ask for."""
    counts: dict[str, int] = {}
    for word in words:
        kind, _, count = word.partition("=")
        if kind not in (SMALL, *larger.KINDS) or not count.isdecimal():
            raise ValueError(f"{word!r} is not KIND=COUNT, where KIND is one of {', '.join((SMALL, *larger.KINDS))}")
        counts[kind] = int(count)
    return counts or {SMALL: 1000}


def compare_all(program: str, seed: int, counts: dict[str, int]) -> int:
    """Compares so many texts of each kind, and tells what came of it. Returns the status."""
    passed = 0
    for kind, count in counts.items():
        tally = Tally()
        for number in range(count):
            differs = compare(program, kind, Random(f"{seed} {kind} {number}"), tally)
            if differs:
                print(f"{kind} {number} of seed {seed}: {differs}\n{passed} passed, 1 failed")
                return 1
            passed += 1
        print(f"{kind}: {tally}", flush=True)
    print(f"{passed} passed, 0 failed")
    return 0


def main(words: list[str]) -> int:
    seed = 1
    try:
        if not words or shutil.which(words[0]) is None:
            raise ValueError("the first argument is to be the program")
        if words[1:2] == ["--seed"]:
            if not words[2:] or not words[2].isdecimal():
                raise ValueError("--seed wants a number")
            seed = int(words[2])
            del words[1:3]
        counts = counts_in(words[1:])
    except ValueError as why:
        print(f"oracle: {why}", file=sys.stderr)
        return 2
    return compare_all(words[0], seed, counts)


if __name__ == "__main__":
    sys.exit(main(sys.argv[1:]))
