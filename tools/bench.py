"""Times a program on generated histories, in the three forms of the report, with one worker and with four, and prints a table.

    python3 tools/bench.py [--keep] [--events N] PROGRAM

Each figure is the median of some runs: the seconds, and the peak memory in megabytes of a million bytes, which is shown of
one worker. Where tools/bench_figures.txt is there, which has the figures of an earlier day, each stands with its change from that day in
percent. With --keep that file is written anew. The histories of hard.py have some N events, and 100,000 where it isn't
given. The system counts the peak memory of a program from that of the process that
starts it, so the last line tells the peak of a program that does nothing.
"""

from __future__ import annotations

import argparse
import os
import platform
import subprocess
import sys
import tempfile
from collections.abc import Sequence
from dataclasses import dataclass
from datetime import date
from pathlib import Path
from statistics import median

from measuring import Run, limits, run

HERE = Path(__file__).resolve().parent
FIGURES = HERE / "bench_figures.txt"
TIMES = 5
# A history of more needs options.
MAX_EVENTS = 100_000
# No run may take longer.
SECONDS = 60
FORMS: dict[str, list[str]] = {"full": [], "brief": ["--brief"], "explained": ["--explain"]}
WORKERS = ("1", "4")
Name = tuple[str, str, str, str]


@dataclass(frozen=True)
class Figure:
    seconds: float
    megabytes: float


@dataclass(frozen=True)
class Kept:
    """What was seen on a day: of which program, by which machine, and the figures by kind, events, form and workers."""

    day: str
    machine: str
    program: str
    figures: dict[Name, Figure]

    def lines(self) -> list[str]:
        """The lines of the file."""
        head = ["# Written by `make bench KEEP=1`: seconds and peak megabytes of each kind, number of events, form and number of workers."]
        head += [f"day {self.day}", f"machine {self.machine}", f"program {self.program}"]
        return head + [f"{' '.join(name)} {it.seconds:.4f} {it.megabytes:.1f}" for name, it in self.figures.items()]


def read_kept(path: Path) -> Kept | None:
    """What an earlier day's file says, where there is one."""
    if not path.exists():
        return None
    heads = {"day": "", "machine": "", "program": ""}
    figures: dict[Name, Figure] = {}
    for line in path.read_text(encoding="utf-8").splitlines():
        word, _, rest = line.partition(" ")
        if word in heads:
            heads[word] = rest
        elif word != "#":
            kind, events, form, workers, seconds, megabytes = line.split()
            figures[kind, events, form, workers] = Figure(float(seconds), float(megabytes))
    return Kept(**heads, figures=figures)


def texts(events: int) -> list[tuple[str, int, list[str]]]:
    """The kinds, the events of each, and the forms that are asked for. Hard kinds whose edges grow with the square of the
    events give full reports only where there are few."""
    store = [(kind, it, [*FORMS]) for kind in ("short", "hot", "ranges", "one_reader") for it in (4000, 16000)]
    few_edges = ("all_at_once", "key_by_key", "one_list", "stale_list", "one_transaction", "none_ends", "ring")
    many_edges = ("counter", "lost_updates", "readers_ahead", "held_snapshots", "writers", "wide_ranges", "phantoms")
    hard = [(kind, it, [*FORMS]) for kinds, it in ((few_edges, events), (many_edges, events // 25)) for kind in kinds]
    return store + hard + [(kind, events, ["brief", "explained"]) for kind in many_edges]


def machine() -> str:
    """The name of the processor, and how many there are."""
    name = platform.processor() or platform.machine()
    if os.path.exists("/proc/cpuinfo"):
        with open("/proc/cpuinfo", encoding="utf-8") as lines:
            names = [line.partition(":")[2].strip() for line in lines if line.startswith("model name")]
        name = names[0] if names else name
    return f"{name}, {os.cpu_count()} processors"


def version(program: str) -> str:
    """The line that the program tells of its version."""
    told = subprocess.run([program, "--version"], capture_output=True, text=True, check=False)
    return told.stdout.strip() if told.returncode == 0 else "of an unknown version"


def middle(runs: Sequence[Run]) -> Figure:
    return Figure(median(it.seconds for it in runs), median(it.megabytes for it in runs))


def change(now: float, before: float | None) -> str:
    """How much more or less it is, in percent."""
    return f"{round(100 * (now / before - 1)):+}%" if before else ""


def cell(number: float, digits: int, before: float | None) -> str:
    """A number, and its change."""
    return f"{number:>9.{digits}f}{change(number, before):>6}"


class Bench:
    """The program, a folder for files, and the figures so far."""

    def __init__(self, program: str, room: str, before: Kept | None) -> None:
        self.program, self.text, self.report = program, f"{room}/text", f"{room}/report"
        self.before = before.figures if before else {}
        self.figures: dict[Name, Figure] = {}
        self.faults = 0

    def row(self, kind: str, events: int, forms: list[str]) -> str:
        """Times one text, and answers its row of the table."""
        with open(self.text, "wb") as it:
            subprocess.run([sys.executable, "-B", HERE / "histories.py", kind, str(events)], stdout=it, check=True)
        return f"{kind:<16}{events:>7}" + "".join(self.cells(kind, str(events), form, form in forms) for form in FORMS)

    def cells(self, kind: str, events: str, form: str, wanted: bool) -> str:
        """The cells of a form: the seconds with one worker and with four, and the memory with one; or why there are none."""
        names = [(kind, events, form, workers) for workers in WORKERS]
        why = "-" if not wanted else next(filter(None, map(self.time, names)), "")
        if why:
            return f"{why:>45}"
        now, before = [self.figures[name] for name in names], [self.before.get(name) for name in names]
        seconds = "".join(cell(it.seconds, 3, was and was.seconds) for it, was in zip(now, before))
        return seconds + cell(now[0].megabytes, 1, before[0] and before[0].megabytes)

    def time(self, name: Name) -> str:
        """Takes the figure of a text, form and number of workers, or answers why there is none."""
        runs: list[Run] = []
        most = limits(2 * int(name[1]), os.path.getsize(self.text)) if int(name[1]) > MAX_EVENTS else []
        words = [self.program, "--workers", name[3], *FORMS[name[2]], *most]
        for _ in range(TIMES):
            runs.append(run(words, self.text, self.report, SECONDS))
            if runs[-1].status not in (0, 1):
                self.faults += 1
                return runs[-1].said.decode(errors="replace").strip() or f"status {runs[-1].status}"
        self.figures[name] = middle(runs)
        return ""

    def idle(self) -> float:
        """The peak of a program that does nothing."""
        return run(["true"], os.devnull, self.report, SECONDS).megabytes


def told_before(before: Kept | None, at: str) -> str:
    """What the changes are from."""
    if before is None:
        return "no figures are kept: make bench KEEP=1 keeps these"
    other = "" if before.machine == at else f", on another machine: {before.machine}"
    return f"changes are from {before.day}, {before.program}{other}"


def chosen(words: Sequence[str]) -> argparse.Namespace:
    parser = argparse.ArgumentParser(description="Times a program on generated histories, and prints a table.")
    parser.add_argument("--keep", action="store_true", help="keeps the figures, for the next run to compare with")
    parser.add_argument("--events", type=int, default=100_000, help="some events of each hard history, 100000 by default")
    parser.add_argument("program")
    return parser.parse_args(words)


def main(words: Sequence[str]) -> int:
    asked = chosen(words)
    before, at, program = read_kept(FIGURES), machine(), version(asked.program)
    print(f"{program}, on {at}", told_before(before, at), sep="\n")
    forms = "".join(f"{form + ' s':>15}{'with 4':>15}{'MB':>15}" for form in FORMS)
    print(f"{'text':<16}{'events':>7}{forms.removeprefix(' ' * 6)}")
    with tempfile.TemporaryDirectory() as room:
        bench = Bench(asked.program, room, before)
        for text in texts(asked.events):
            print(bench.row(*text), flush=True)
        print(f"peak MB of a program that does nothing: {bench.idle():.1f}")
    if asked.keep and not bench.faults:
        kept = Kept(date.today().isoformat(), at, program, bench.figures)
        FIGURES.write_text("".join(f"{it}\n" for it in kept.lines()), encoding="utf-8")
        print(f"kept in {os.path.relpath(FIGURES)}")
    return 1 if bench.faults else 0


if __name__ == "__main__":
    sys.exit(main(sys.argv[1:]))
