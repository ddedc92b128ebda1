#!/usr/bin/env python3
"""Records real databases and audits the records.

    databases.py PROGRAM [RUNS [EVENTS]] [--only STORE].. [--keep DIR]

Each of the kinds in database_kinds.py (a store and a setting) is recorded RUNS times, 20 if it isn't said, with the seeds 1,
2, .., and EVENTS events in each run, 2,000 if it isn't said. The logs are DIR/KIND/SEED.jsonl; DIR is out/runs if it isn't
said. PROGRAM audits them as `si-history audit-many` does. The table of what was found is printed, and beside it whether it is as
expected: then the status is 0, else 1. It is 2 where a run could not be recorded or has no verdict, and then one line says why.
A store that isn't installed is left out, and one line says so. --only names a store by its word for the recorder. `si_history`
is to be found on the path.
"""
import argparse
import collections
import os
import re
import signal
import subprocess
import sys
import threading
from collections.abc import Iterable, Iterator, Sequence
from concurrent.futures import ThreadPoolExecutor
from pathlib import Path
from typing import NoReturn

from database_kinds import FEWEST_RUNS, KINDS, Kind, Share
from si_history.account import counts_against
from si_history.auditor import MEETS, Auditor
from si_history.errors import BadInput
from si_history.files import made_folder
from si_history.log_kinds import LogKind
from si_history.memory import memory_limit
from si_history.pool import in_processes
from si_history.progress import Progress
from si_history.run_audit import Job, Row

HEAD = ("store", "version", "setting", "runs", "isolation kept", "findings", "ssi", "serializable", "as expected")
LEVEL = "si"
# How many keys and sessions a run has. Few of them bring transactions together; each seed takes one of these.
SIZES = ((4, 3), (8, 4), (16, 8))
USAGE = "databases.py PROGRAM [RUNS [EVENTS]] [--only STORE].. [--keep DIR]"
WORKERS = os.cpu_count() or 1


class Failure(Exception):
    """A run could not be recorded or audited; the text is the one line that says why."""


class Recorder:
    """Starts the recorder, several at a time, and ends all that run where it is asked to."""

    def __init__(self) -> None:
        self._running: set[subprocess.Popen[str]] = set()
        self._lock = threading.Lock()
        self._is_ended = False

    def run(self, words: Sequence[str]) -> str:
        """What the recorder writes, given these words."""
        with self._lock:
            if self._is_ended:
                raise Failure("it was interrupted")
            try:
                process = subprocess.Popen([sys.executable, "-m", "si_history", "record", *words], stdout=subprocess.PIPE,
                                           stderr=subprocess.PIPE, text=True, start_new_session=True)
            except OSError as fault:
                raise Failure(f"{sys.executable} did not start: {fault.strerror}") from None
            self._running.add(process)
        written, said = process.communicate()
        with self._lock:
            self._running.remove(process)
        if process.returncode != 0:
            raise Failure(said.strip() or f"si-history record {' '.join(words)} ended with status {process.returncode}")
        return written

    def end(self) -> None:
        """Has each recorder stop its store and take its files away, and starts no more."""
        with self._lock:
            self._is_ended = True
            for process in self._running:
                process.send_signal(signal.SIGTERM)


def run_name(kind: Kind, seed: int) -> str:
    """What the log of a run is called, below the folder of all runs."""
    return f"{kind.folder}/{seed}.jsonl"


def versions(recorder: Recorder, pool: ThreadPoolExecutor, commands: Iterable[str]) -> dict[str, str]:
    """The versions of the stores that are there. Of each other one a line says what is missing."""
    def version(command: str) -> str | None:
        try:
            return recorder.run([command, "--tell-version"]).strip()
        except Failure as failure:
            print(f"make databases: {command} is left out: {str(failure).removeprefix('si-history: ')}", file=sys.stderr)
            return None

    names = list(dict.fromkeys(commands))
    return {name: told for name, told in zip(names, pool.map(version, names)) if told is not None}


def recorded(options: argparse.Namespace) -> dict[Kind, str]:
    """Records every kind of the stores that are there. Of each such kind the version of its store."""
    def record(run: tuple[Kind, int]) -> None:
        kind, seed = run
        keys, sessions = SIZES[seed % len(SIZES)]
        recorder.run([kind.command, *kind.words, "--events", str(options.events), "--seed", str(seed), "--keys", str(keys),
                      "--sessions", str(sessions), "--format", "events", "--output", str(options.keep / run_name(kind, seed))])

    wanted = [kind for kind in KINDS if not options.only or kind.command in options.only]
    recorder = Recorder()
    pool = ThreadPoolExecutor(WORKERS)
    try:
        told = versions(recorder, pool, (kind.command for kind in wanted))
        kinds = {kind: told[kind.command] for kind in wanted if kind.command in told}
        for kind in kinds:
            made_folder(str(options.keep / kind.folder))
        runs = [(kind, seed) for kind in kinds for seed in range(1, options.runs + 1)]
        with Progress(f"of {len(runs):,} runs recorded") as progress:
            for number, _ in enumerate(pool.map(record, runs), 1):
                progress.step(number, len(runs))
    finally:
        recorder.end()
        pool.shutdown(cancel_futures=True)
    return kinds


def audited(auditor: Auditor, folder: Path, names: Sequence[str]) -> Iterator[Row]:
    """The row of each run below the folder, as it is audited. Raises Failure where one has no verdict."""
    jobs = [Job(name, str(folder / name), LEVEL, auditor.path, auditor.memory, takes_nothing=False, wants_page=False,
                kind=LogKind.EVENTS) for name in names]
    with Progress(f"of {len(jobs):,} runs audited") as progress:
        for number, row in enumerate(in_processes(jobs, WORKERS), 1):
            progress.step(number, len(jobs))
            if not row.has_verdict:
                raise Failure(f"{folder / row.name}: {row.problem}")
            yield row


def is_expected(kind: Kind, runs: Sequence[Row]) -> bool:
    """Whether the runs of a kind are as expected."""
    def holds(share: Share, count: int) -> bool:
        return len(runs) < FEWEST_RUNS and share in (Share.SOME, Share.NOT_ALL) or share.holds(count, len(runs))

    return (holds(kind.kept, sum(run.status == MEETS for run in runs))
            and holds(kind.serializable, sum(run.is_serializable is True for run in runs))
            and holds(Share.SOME if kind.finding else Share.ANY, sum(kind.finding in run.counts for run in runs)))


def line(kind: Kind, version: str, runs: Sequence[Row]) -> tuple[str, ...]:
    """The line of the table for the runs of one kind. Of the findings it has those that break isolation."""
    found = [collections.Counter(counts_against(LEVEL, run.counts)) for run in runs]
    findings = ", ".join(f"{name} {count} in {sum(name in counts for counts in found)}"
                         for name, count in sorted(sum(found, collections.Counter()).items()))
    return (kind.store, version, kind.setting, str(len(runs)), f"in {sum(run.status == MEETS for run in runs)}",
            findings or "none", f"in {sum(run.passes_ssi is True for run in runs)}",
            f"in {sum(run.is_serializable is True for run in runs)}", "yes" if is_expected(kind, runs) else "NO")


def table(options: argparse.Namespace) -> list[tuple[str, ...]]:
    """Records every kind of the stores that are there, audits the logs, and answers the lines."""
    auditor = Auditor.found(options.program, memory_limit(WORKERS))
    kinds = recorded(options)
    if not kinds:
        raise Failure("there is no store to record")
    names = {kind: [run_name(kind, seed) for seed in range(1, options.runs + 1)] for kind in kinds}
    rows = {row.name: row for row in audited(auditor, options.keep, [name for runs in names.values() for name in runs])}
    return [line(kind, version, [rows[name] for name in names[kind]]) for kind, version in kinds.items()]


class OneLineParser(argparse.ArgumentParser):
    """A parser that tells a faulty command line in one line."""

    def error(self, message: str) -> NoReturn:
        self.exit(2, f"usage: {USAGE}\n")


def options_of(words: Sequence[str]) -> argparse.Namespace:
    """What the command line asks for."""
    def number(word: str) -> int:
        if re.fullmatch("[1-9][0-9]{0,8}", word) is None:
            raise argparse.ArgumentTypeError("no number")
        return int(word)

    parser = OneLineParser(usage=USAGE)
    parser.add_argument("program", nargs="?", default="crates/si_audit/out/si_audit")
    parser.add_argument("runs", nargs="?", type=number, default=20)
    parser.add_argument("events", nargs="?", type=number, default=2000)
    parser.add_argument("--only", action="append", choices=sorted({kind.command for kind in KINDS}))
    parser.add_argument("--keep", type=Path, default=Path("out/runs"))
    return parser.parse_args(words)


def main(words: Sequence[str]) -> int:
    """Records and audits every kind, and prints the table."""
    options = options_of(words)
    # SIGTERM is met as SIGINT is, so that no store is left running.
    signal.signal(signal.SIGTERM, signal.default_int_handler)
    try:
        lines = table(options)
    except (Failure, BadInput) as failure:
        print(f"make databases: {failure}", file=sys.stderr)
        return 2
    except KeyboardInterrupt:
        return 130
    print("\n".join(f"| {' | '.join(cells)} |" for cells in [HEAD, ("---",) * len(HEAD), *lines]))
    return 0 if all(cells[-1] == "yes" for cells in lines) else 1


if __name__ == "__main__":
    sys.exit(main(sys.argv[1:]))
