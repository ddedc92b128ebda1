"""Times a program on longer and longer histories of a simulated store, and prints a table.

    python3 tools/growth.py [--long] [--seed N] [--kind KIND] PROGRAM

The histories are those of long_histories.py, of 100,000 events and of a million, and with --long of ten million too, which
takes minutes, some gigabytes of the disk for temporary files, and as much memory. Of each the brief and the explained report
are asked for. A figure is the least seconds that the program was busy in some runs, or its peak memory in megabytes of a
million bytes; beside it stands the same for each million events. So where a figure grows with the text alone, the one beside
it stays. The text is in megabytes too. The last line is there as in bench.py.
"""

from __future__ import annotations

import argparse
import os
import subprocess
import sys
import tempfile
from collections.abc import Sequence

from long_histories import HERE, KINDS
from measuring import Run, limits, run

SIZES = (100_000, 1_000_000)
LONG = 10_000_000
# How often each report is made. Of the long ones one is enough.
TIMES = 3
SECONDS = 1_200
FORMS = {"brief": "--brief", "explained": "--explain"}


def machine_memory() -> int:
    """How many bytes the machine has, which no program needs more of."""
    return os.sysconf("SC_PHYS_PAGES") * os.sysconf("SC_PAGE_SIZE")


def per_million(number: float, events: int) -> float:
    return number / (events / 1_000_000)


class Growth:
    """The program, and a folder for files."""

    def __init__(self, program: str, room: str, seed: int) -> None:
        self.program, self.seed = program, seed
        self.text, self.report = f"{room}/text", f"{room}/report"
        self.faults = 0

    def row(self, kind: str, events: int) -> str:
        """Times a history in both forms, and answers its row of the table."""
        words = ["-B", f"{HERE}/long_histories.py", kind, str(events), "--seed", str(self.seed)]
        with open(self.text, "wb") as taken:
            subprocess.run([sys.executable, *words], stdout=taken, check=True)
        size = os.path.getsize(self.text)
        cells = "".join(self.cells(events, [option, *limits(events, size)]) for option in FORMS.values())
        return f"{kind:<8}{events:>12,}{size / 1e6:>10.1f}{cells}"

    def cells(self, events: int, words: list[str]) -> str:
        """The cells of a form: seconds and megabytes, each with the same for a million events; or why there are none."""
        runs = list[Run]()
        for _ in range(TIMES if events < LONG else 1):
            runs.append(run([self.program, *words], self.text, self.report, SECONDS, machine_memory()))
            if runs[-1].status not in (0, 1):
                self.faults += 1
                return f"{runs[-1].said.decode(errors='replace').strip() or f'status {runs[-1].status}':>48}"
        seconds, megabytes = min(it.busy for it in runs), min(it.megabytes for it in runs)
        figures = (seconds, per_million(seconds, events), megabytes, per_million(megabytes, events))
        return "".join(f"{figure:>12.{2 if at < 2 else 1}f}" for at, figure in enumerate(figures))


def chosen(words: Sequence[str]) -> argparse.Namespace:
    parser = argparse.ArgumentParser(description="Times a program on longer and longer histories, and prints a table.")
    parser.add_argument("--long", action="store_true", help=f"also times {LONG:,} events")
    parser.add_argument("--seed", type=int, default=1, metavar="N", help="what the histories are made from (1)")
    parser.add_argument("--kind", choices=KINDS, help="histories of this kind alone")
    parser.add_argument("program")
    return parser.parse_args(words)


def main(words: Sequence[str]) -> int:
    asked = chosen(words)
    heads = "".join(f"{it:>12}" for form in FORMS for it in (f"{form} s", "per M", "MB", "per M"))
    print(f"{'kind':<8}{'events':>12}{'text MB':>10}{heads}")
    with tempfile.TemporaryDirectory() as room:
        growth = Growth(asked.program, room, asked.seed)
        for kind in [asked.kind] if asked.kind else KINDS:
            for events in (*SIZES, LONG) if asked.long else SIZES:
                print(growth.row(kind, events), flush=True)
        print(f"peak MB of a program that does nothing: {run(['true'], os.devnull, growth.report, SECONDS).megabytes:.1f}")
    return 1 if growth.faults else 0


if __name__ == "__main__":
    sys.exit(main(sys.argv[1:]))
