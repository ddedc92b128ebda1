#!/usr/bin/env python3
"""Refuses the crates' own tests memory, one call at a time, and looks at what comes of it.

    growths.py PROGRAM..

Each PROGRAM is one that the kit leaves as crates/NAME/out/NAME_tests once it has run the tests of a crate. Each test is
run with its first call for memory refused, then with the second, and so on until a run ends without a refusal: each of
the first 500, and of what lies beyond each about a twentieth further on. A run must pass, or its test must fail because
a call answered that there is no memory: it is left by `?`, or it says `left: Err(NoMemory)`. Another answer, a panic, a
signal and a run that doesn't end are faults. Left out are the tests in which workers wait for one another, since they
don't meet where a thread could not be started. The last line is 'N passed, M failed'. What refuses is refuse.c, as in
refusals.py, with what it needs.
"""

from __future__ import annotations

import os
import re
import signal
import subprocess
import sys
import tempfile
from collections.abc import Sequence
from concurrent.futures import ThreadPoolExecutor
from dataclasses import dataclass, field

from refusals import lacking, refused

EACH = 500
LEFT_OUT = "tests::meetings::"
PASSED = re.compile(rb"(.*\n)?test result: ok\n", re.DOTALL)
# What a test says that is left by `?`, and one that compares an answer, which stands on the left.
ERROR = rb"error: (NoMemory|AllocError|AllocFailed \{ \.\. \})\nthe test failed: its result gives status 1\n"
COMPARED = rb"assertion `left == right` failed(:.*)?\n +left: (Some|Err)\(NoMemory\)\n right: .*\n"
NO_MEMORY = re.compile(rb"%b|%b" % (ERROR, COMPARED))


@dataclass
class Tried:
    calls: int = 0
    wrong: list[str] = field(default_factory=list)


def tests_of(program: str) -> list[str]:
    """The names of the tests that the program lists, without those that are left out."""
    listed = subprocess.run([program, "--list"], capture_output=True, check=True, text=True).stdout
    return [it for it in re.findall(r"(?m)^(\S+): test$", listed) if not it.startswith(LEFT_OUT)]


def fault(words: Sequence[str], room: str, number: int) -> tuple[str, bool]:
    """Returns what was wrong with a run, or an empty text, and whether a call was refused in it."""
    try:
        (status, out, err), refusals = refused(words, room, "REFUSE_MEMORY", number)
    except subprocess.TimeoutExpired:
        return "it did not end", True
    is_told = refusals and status in (101, -signal.SIGABRT) and NO_MEMORY.fullmatch(err)
    is_passed = status == 0 and PASSED.fullmatch(out)
    said = " ".join(err.decode(errors="replace").split())
    return "" if is_told or is_passed else f"status {status}: {said}", refusals > 0


def tried(program: str, test: str, room: str) -> Tried:
    it = Tried()
    number = 1
    while True:
        why, was_refused = fault([program, test], room, number)
        if why:
            it.wrong.append(f"{test}: {f'call {number}' if was_refused else 'no call'} refused: {why}")
        if not was_refused:
            return it
        it.calls += 1
        number += 1 if number < EACH else number // 20


def main(programs: Sequence[str]) -> int:
    if not programs:
        print(__doc__, end="", file=sys.stderr)
        return 2
    passed = failed = 0
    with tempfile.TemporaryDirectory() as room, ThreadPoolExecutor(os.cpu_count()) as pool:
        lacks = lacking(room)
        if lacks:
            print(f"left out: {lacks}")
            return 0
        paths = [os.path.abspath(it) for it in programs]
        begun = {it: [pool.submit(tried, it, test, room) for test in tests_of(it)] for it in paths}
        for path, runs in begun.items():
            them = [it.result() for it in runs]
            calls, wrong = sum(it.calls for it in them), [line for it in them for line in it.wrong]
            print(*wrong, f"{os.path.basename(path)}: {len(them)} tests, {calls} calls refused", sep="\n", flush=True)
            passed, failed = passed + calls - len(wrong), failed + len(wrong) + (not calls)
    print(f"{passed} passed, {failed} failed")
    return 1 if failed else 0


if __name__ == "__main__":
    sys.exit(main(sys.argv[1:]))
