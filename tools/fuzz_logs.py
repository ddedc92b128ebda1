#!/usr/bin/env python3
"""Gives the companion logs that nobody means.

    PYTHONPATH=tools:companion python3 -m fuzz_logs PROGRAM [--count N] [--seed N] [--only N]

Each log is an example with some of its bytes, lines or values changed. The companion takes it or refuses it in one line, and ends
in no other way. What it takes, PROGRAM takes too; and of the report the companion then makes names, a graph, a page and a
picture. Some of the logs go through the command line, which ends with status 0 or 2 and no traceback. A log is made from the seed
and its own number alone, so --only gives one log again. The first log that fails is kept as out/fuzzed.jsonl. The last line is
'N passed, M failed'.
"""

from __future__ import annotations

import argparse
import io
import json
import os
import signal
import subprocess
import sys
import traceback
from collections import Counter
from multiprocessing import Pool
from pathlib import Path
from random import Random
from typing import Any

from mutating import mutated
from si_history import from_events, from_transactions
from si_history.conversion import Conversion
from si_history.document import html, picture
from si_history.errors import BadInput
from si_history.facts import Facts
from si_history.findings import groups_of
from si_history.graph import dot, graph_of
from si_history.history import parse, text_of
from si_history.legend import Legend
from si_history.matching import check_report
from si_history.names import named_lines
from si_history.naming import Names
from si_history.pictures import Pictures
from si_history.report_text import ReportText, read_report
from si_history.startup import MARK
from si_history.unseen import is_seen

SECONDS = 60
SHARES = 20
COMMAND_EACH = 40
# Of all logs at least so many are taken, and as many refused, so that each is tried.
LEAST_SHARE = 0.05
CONVERTS = {"events": from_events.convert, "transactions": from_transactions.convert}
LOGS = {kind: [path.read_bytes() for path in sorted(Path("examples").glob(f"**/*.{kind}.jsonl"))] for kind in CONVERTS}
VALUES: tuple[Any, ...] = (
    None, True, 0, 1, -1, 2**32, 2**64, 1.5, "", "A", "\u2800", "\ud800", "a\nb", "</script>", [], [[]], {}, {"a": 1})


def changed_value(value: Any, known: list[Any], rng: Random) -> Any:
    """A value of JSON with another in the place of it, or of one within it."""
    if rng.random() < 0.3 or not isinstance(value, (list, dict)) or not value:
        return rng.choice(known if rng.random() < 0.7 else VALUES)
    if isinstance(value, list):
        place = rng.randrange(len(value))
        return [changed_value(it, known, rng) if at == place else it for at, it in enumerate(value)]
    name = rng.choice(list(value))
    return {it: changed_value(of, known, rng) if it == name else of for it, of in value.items()}


def relined(log: bytes, other: bytes, rng: Random) -> bytes:
    """A log after some of its lines were left out, doubled, swapped, or had a value changed."""
    lines, others = log.splitlines(keepends=True), other.splitlines(keepends=True)
    known = [of for line in lines for it in [json.loads(line)] for of in it.values() if not isinstance(of, bool)]
    for _ in range(rng.choice((1, 1, 2, 4))):
        one, two = (rng.randrange(len(lines) + 1) for _ in range(2))
        way = rng.randrange(6)
        if way == 0:
            del lines[one:one + 1]
        elif way == 1:
            lines[one:one] = rng.choice((lines[two:two + 1], [rng.choice(others)]))
        elif way == 2:
            lines[one:one + 1], lines[two:two + 1] = lines[two:two + 1], lines[one:one + 1]
        else:
            changed = [changed_value(json.loads(it), known, rng) for it in lines[one:one + 1]]
            lines[one:one + 1] = [json.dumps(it).encode() + b"\n" for it in changed]
    return b"".join(lines)


def log_of(rng: Random) -> tuple[str, bytes]:
    """A log, and its kind."""
    kind = rng.choice(sorted(LOGS))
    log, other = rng.choice(LOGS[kind]), rng.choice(LOGS[rng.choice(sorted(LOGS))])
    return kind, mutated(log, other, rng) if rng.random() < 0.4 else relined(log, other, rng)


def audited(program: str, text: str) -> str:
    """The explained report of a history. Raises AssertionError where the program doesn't take it."""
    ran = subprocess.run([program, "--explain"], input=text.encode(), capture_output=True, timeout=SECONDS)
    assert ran.returncode in (0, 1) and not ran.stderr, f"the program ends with {ran.returncode}: {ran.stdout[:200]!r}"
    return ran.stdout.decode()


def use(conversion: Conversion, text: str, report_text: str) -> None:
    """Makes all that the companion makes of a report."""
    names = Names(Legend.from_json(conversion.legend.to_json(text.encode())))
    names.check_history(text.encode())
    lines = ReportText(report_text.encode())
    report = read_report(lines)
    facts = Facts(parse(text))
    check_report(report, facts)
    made = ["\n".join(named_lines(lines, names)), dot(graph_of(report, lines, False), names)]
    groups = groups_of(report, facts, names)
    made += [html("log", report, facts, groups, names), picture(report, Pictures(facts, groups, names).scene())]
    for one in made:
        one.encode()
        assert is_seen(one.replace("\n", "")), "what was made holds what can't be seen"


def ended(kind: str, log: bytes) -> str:
    """What is wrong with the command line, given a log."""
    ran = subprocess.run([sys.executable, "-B", "-m", "si_history", f"from-{kind}", "-"], input=log, capture_output=True,
                         timeout=SECONDS)
    said = ran.stderr.decode().splitlines()
    is_told = all(line.startswith("si-history: ") for line in said)
    is_refused = ran.returncode == 2 and len(said) == 1 and ran.stdout == f"{MARK}\n".encode()
    return "" if is_told and (ran.returncode == 0 or is_refused) else f"the command line ends with {ran.returncode}: {ran.stderr!r}"


def fault_of(program: str, number: int, rng: Random, outcomes: Counter[str]) -> str:
    """What is wrong with what comes of a log."""
    kind, log = log_of(rng)
    if number % COMMAND_EACH == 0 and (wrong := ended(kind, log)):
        return wrong
    try:
        conversion = CONVERTS[kind](io.BytesIO(log))
        text = text_of(conversion.events)
    except BadInput as fault:
        outcomes["refused"] += 1
        return "" if is_seen(str(fault)) else f"a refusal that can't be seen: {str(fault)!r}"
    outcomes["taken"] += 1
    use(conversion, text, audited(program, text))
    return ""


def share(job: tuple[str, str, range]) -> tuple[Counter[str], list[tuple[int, str]]]:
    """Some of the logs, by their numbers: how many were taken and refused, and what failed."""
    program, seed, numbers = job
    outcomes, failed = Counter[str](), []

    def hang(*_: object) -> None:
        raise TimeoutError(f"no end after {SECONDS} seconds")

    signal.signal(signal.SIGALRM, hang)
    for number in numbers:
        signal.alarm(SECONDS)
        try:
            fault = fault_of(program, number, Random(f"{seed} {number}"), outcomes)
        except Exception:
            fault = traceback.format_exc()
        if fault:
            failed.append((number, fault))
    signal.alarm(0)
    return outcomes, failed


def main() -> int:
    """Gives all logs, and answers the status."""
    parser = argparse.ArgumentParser(description="Gives the companion logs that nobody means.")
    parser.add_argument("program", metavar="PROGRAM")
    parser.add_argument("--count", type=int, default=2_000, metavar="N", help="how many logs (2,000)")
    parser.add_argument("--seed", default="1", metavar="N", help="what the logs are made from (1)")
    parser.add_argument("--only", type=int, metavar="N", help="the log of this number alone")
    words = parser.parse_args()
    numbers = range(words.count) if words.only is None else range(words.only, words.only + 1)
    jobs = [(os.path.abspath(words.program), words.seed, numbers[start::SHARES]) for start in range(SHARES)]
    outcomes, failed = Counter[str](), []
    with Pool() as pool:
        for some, faulty in pool.imap_unordered(share, jobs):
            outcomes += some
            failed += faulty
    for number, fault in sorted(failed)[:10]:
        print(f"log {number} of seed {words.seed}: {fault}")
    if failed:
        Path("out").mkdir(exist_ok=True)
        Path("out/fuzzed.jsonl").write_bytes(log_of(Random(f"{words.seed} {min(failed)[0]}"))[1])
    print(f"{outcomes['taken']:,} logs were taken, and {outcomes['refused']:,} refused")
    if words.only is None and min(outcomes["taken"], outcomes["refused"]) < LEAST_SHARE * len(numbers):
        print("1 failed: too few logs were taken, or refused")
        return 1
    print(f"{len(numbers) - len(failed)} passed, {len(failed)} failed")
    return 1 if failed else 0


if __name__ == "__main__":
    sys.exit(main())
