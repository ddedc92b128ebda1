#!/usr/bin/env python3
"""Lets the program have less memory than a text needs, and looks at what comes of it.

    shortage.py PROGRAM [EVENTS]

EVENTS is how many the longest history has, 1,000,000 where it isn't given; the others have a half, a fourth and a tenth of it. The
limit is one of address space, as `ulimit -v` sets it. Of each history it is looked for how much a brief and an explained report
need. With a half of that a run must end with status 4, nothing on standard output and the line for want of memory. With any other
limit that is tried it must end so, or as it does without a limit. The last line is 'N passed, M failed'.
"""

from __future__ import annotations

import os
import subprocess
import sys
import tempfile
from collections.abc import Sequence
from hashlib import sha256
from pathlib import Path

from long_histories import HERE
from measuring import ADDRESSES, limits, run

LONGEST = 1_000_000
SHARES = (0.1, 0.25, 0.5, 1)
SECONDS = 60
# The least limit under which a run succeeds is looked for up to this factor.
NEAR = 1.1
# With less the system may not even start a program.
LEAST = 4_000_000
FORMS = (["--brief"], ["--explain"], ["--brief", "--workers", "4", "20000", "40000", "60000"])
NO_MEMORY = (4, "", b"si_audit: no memory\n")
# How a run ended: its status, a hash of what is on standard output, which is empty where nothing is, and what it said of a fault.
Ended = tuple[int, str, bytes]


class Text:
    """A history, and the runs on it."""

    def __init__(self, program: str, room: str, events: int) -> None:
        self.text, self.report = Path(room, "text"), Path(room, "report")
        with self.text.open("wb") as taken:
            subprocess.run([sys.executable, "-B", f"{HERE}/long_histories.py", "even", str(events)], stdout=taken, check=True)
        self.words = [program, *limits(events, self.text.stat().st_size)]

    def run(self, form: list[str], addresses: int) -> Ended:
        """How a run ends that may have so many bytes of address space."""
        it = run([*self.words, *form], str(self.text), str(self.report), SECONDS, addresses)
        told = self.report.read_bytes()
        return it.status, sha256(told).hexdigest() if told else "", it.said

    def need(self, form: list[str]) -> tuple[int, list[str]]:
        """How many bytes a run needs, and how those ended that went wrong while that was looked for."""
        wanted, wrong = self.run(form, ADDRESSES), list[str]()
        if wanted[0] not in (0, 1) or not wanted[1]:
            return 0, [f"it ends with {wanted} under no limit"]
        low, high = LEAST, ADDRESSES
        while high > low * NEAR:
            middle = int((low * high) ** 0.5)
            ended = self.run(form, middle)
            if ended == wanted:
                high = middle
            else:
                low = middle
                wrong += [f"it ends with {ended} under a limit of {middle:,} bytes"] * (ended != NO_MEMORY)
        return high, wrong

    def faults(self, form: list[str]) -> tuple[int, list[str]]:
        """How many bytes a run needs, and what is wrong with this one and those that have less."""
        need, wrong = self.need(form)
        ended = self.run(form, need // 2) if need else NO_MEMORY
        return need, wrong + [f"it ends with {ended} under a half of the {need:,} bytes that it needs"] * (ended != NO_MEMORY)


def main(words: Sequence[str]) -> int:
    if len(words) not in (1, 2) or not all(it.isdecimal() for it in words[1:]):
        print(__doc__, end="", file=sys.stderr)
        return 2
    longest, passed, failed = int(words[1]) if words[1:] else LONGEST, 0, 0
    for share in SHARES:
        events = int(share * longest)
        with tempfile.TemporaryDirectory() as room:
            text = Text(os.path.abspath(words[0]), room, events)
            for form in FORMS:
                need, wrong = text.faults(form)
                passed, failed = passed + (not wrong), failed + bool(wrong)
                print(f"{events:,} events {' '.join(form)}: {need / 1e6:.0f} MB {'; '.join(wrong)}".rstrip(), flush=True)
    print(f"{passed} passed, {failed} failed")
    return 1 if failed else 0


if __name__ == "__main__":
    sys.exit(main(sys.argv[1:]))
