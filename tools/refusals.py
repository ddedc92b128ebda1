#!/usr/bin/env python3
"""Refuses the program memory and threads, one call at a time, and looks at what comes of it.

    refusals.py PROGRAM

On each history and command line, the first call that asks for memory is refused, then the second in a new run, and so
on until a run ends without a refusal. Each run must end as it does when nothing is refused, or with status 4, nothing on
standard output and the line for want of memory. The same is done with the calls that start a thread, whose refusal must
not show at all. As many threads are started as there are workers and parts for, less the one that is there already. The
last line is 'N passed, M failed'. What refuses is refuse.c, so this wants a C compiler, and a system that loads a
library before a program's own; where one of them is missing, the one line says so, and nothing is tried.
"""

from __future__ import annotations

import os
import shutil
import subprocess
import sys
import tempfile
from collections.abc import Container, Iterator, Sequence
from typing import IO

HERE = os.path.dirname(os.path.abspath(__file__))
EXAMPLES = f"{HERE}/../examples"
LINES: tuple[list[str], ...] = ([], ["--workers", "1"], ["--workers", "2", "2"])
# Those whose explained reports have reasons below each kind of line.
EXPLAINED = ("aborted_read", "lost_update", "read_only_anomaly", "refused_name", "stale_read")
BUSY = (("hot", 600), ("ranges", 200))
BUSY_LINE = ["--workers", "3", "5", "20", "100"]
# How many threads a brief report starts: one less than there are workers, or parts, whichever are fewer.
STARTS: tuple[tuple[list[str], int], ...] = (
    (["--brief", "--workers", "4"], 0),
    (["--brief", "--workers", "1", "1", "2", "3"], 0),
    (["--brief", "--workers", "2", "1", "2", "3"], 1),
    (["--brief", "--workers", "4", "1", "2", "3"], 3),
    (["--brief", "--workers", "64", "5"], 1),
)
# How a run ended: its status, and what it wrote on standard output and on standard error.
Ended = tuple[int, bytes, bytes]
NO_MEMORY: Ended = (4, b"", b"si_audit: no memory\n")
ALLOWED: dict[str, list[Ended]] = {"REFUSE_MEMORY": [NO_MEMORY], "REFUSE_THREAD": []}


def cases(room: str) -> Iterator[tuple[str, list[str]]]:
    """Each file of a history with the arguments to give."""
    names = sorted(it for it in os.listdir(EXAMPLES) if it.endswith(".history"))
    for name in names:
        for line in LINES:
            yield f"{EXAMPLES}/{name}", line
    for name in EXPLAINED:
        yield f"{EXAMPLES}/{name}.history", ["--explain"]
    yield f"{EXAMPLES}/{names[0]}", ["--help"]
    yield f"{EXAMPLES}/{names[0]}", ["--workers", "65"]
    for kind, events in BUSY:
        path = f"{room}/{kind}"
        with open(path, "wb") as it:
            subprocess.run([sys.executable, f"{HERE}/histories.py", kind, str(events)], stdout=it, check=True)
        yield path, BUSY_LINE
        yield path, ["--explain", *BUSY_LINE]


def lacking(room: str) -> str:
    """Makes refuse.so in the room, and returns what is missing here, or an empty text."""
    cc = shutil.which(os.environ.get("CC", "cc"))
    words = ["-shared", "-fPIC", "-O1", "-o", f"{room}/refuse.so", f"{HERE}/refuse.c", "-ldl"]
    if not cc or subprocess.run([cc, *words], stderr=subprocess.DEVNULL).returncode:
        return "no C compiler makes refuse.c here"
    _, refusals = refused([sys.executable, "-c", ""], room, "REFUSE_MEMORY", 1)
    return "" if refusals else "refuse.c is not loaded before a program here"


def refused(
    words: Sequence[str], room: str, what: str = "", number: int = 0, given: int | IO[bytes] = subprocess.DEVNULL
) -> tuple[Ended, int]:
    """Returns how a program ended and what it wrote, and how many calls it was refused."""
    with tempfile.TemporaryFile(dir=room) as told:
        fd = told.fileno()
        names = {"LD_PRELOAD": f"{room}/refuse.so", "REFUSALS": str(fd), what: str(number)} if what else {}
        ran = subprocess.run(
            words, env={**os.environ, **names}, stdin=given, capture_output=True, timeout=60, pass_fds=[fd]
        )
        return (ran.returncode, ran.stdout, ran.stderr), os.fstat(fd).st_size


class Refuser:
    def __init__(self, program: str, room: str) -> None:
        self.program, self.room = program, room

    def run(self, history: str, line: Sequence[str], what: str = "", number: int = 0) -> tuple[Ended, int]:
        """Returns how the program ended on a history, and how many calls it was refused."""
        with open(history, "rb") as given:
            return refused([self.program, *line], self.room, what, number, given)

    def counts(self, history: str, line: Sequence[str], what: str, allowed: Container[Ended]) -> tuple[int, list[int]]:
        """Returns how many calls were refused, and the numbers of those whose refusal went wrong."""
        wanted, _ = self.run(history, line)
        number = 1
        bad: list[int] = []
        while True:
            ended, refused = self.run(history, line, what, number)
            if ended != wanted and not (refused and ended in allowed):
                bad.append(number)
            if not refused:
                return number - 1, bad
            number += 1


def main(words: Sequence[str]) -> int:
    if len(words) != 1:
        print(__doc__, end="", file=sys.stderr)
        return 2
    tried, failed = {what: 0 for what in ALLOWED}, 0
    with tempfile.TemporaryDirectory() as room:
        lacks = lacking(room)
        if lacks:
            print(f"left out: {lacks}")
            return 0
        refuser = Refuser(os.path.abspath(words[0]), room)
        for history, line in cases(room):
            for what, allowed in ALLOWED.items():
                calls, bad = refuser.counts(history, line, what, allowed)
                if bad:
                    print(f"{os.path.basename(history)} {' '.join(line)}: {what} {' '.join(map(str, bad))}")
                tried[what], failed = tried[what] + calls, failed + len(bad)
        for line, threads in STARTS:
            started, _ = refuser.counts(f"{EXAMPLES}/write_skew.history", line, "REFUSE_THREAD", [])
            tried["REFUSE_THREAD"] += 1
            if started != threads:
                print(f"{' '.join(line)}: {started} threads are started in place of {threads}")
                failed += 1
    for what in (it for it in tried if not tried[it]):
        print(f"{what}: no call was refused")
        failed += 1
    print(f"{sum(tried.values()) - failed} passed, {failed} failed")
    return 1 if failed else 0


if __name__ == "__main__":
    sys.exit(main(sys.argv[1:]))
