"""Runs audited side by side on this machine, each by one of several processes.

Where a process dies all that its pool was about to do is lost. That is done again in two pools, and so on, until the run that kills
its process is alone: it is told, and no other one is lost.
"""

from __future__ import annotations

import signal
from collections.abc import Iterator, Sequence
from concurrent.futures import Future, ProcessPoolExecutor, as_completed
from concurrent.futures.process import BrokenProcessPool
from multiprocessing import active_children

from si_history.auditor import FAULT
from si_history.run_audit import Job, Row, audit_run

DIED = "the process that audited it died"


def in_processes(jobs: Sequence[Job], workers: int) -> Iterator[Row]:
    """The row of each job, as it is done."""
    lost: list[Job] = []
    pool = ProcessPoolExecutor(min(workers, len(jobs)) or 1, initializer=_forget_signals)
    try:
        done: dict[Future[Row], Job] = {}
        for job in jobs:
            try:
                done[pool.submit(audit_run, job)] = job
            except BrokenProcessPool:
                lost.append(job)
        for future in as_completed(done):
            try:
                yield future.result()
            except BrokenProcessPool:
                lost.append(done[future])
    except BaseException:
        for process in active_children():
            process.terminate()
        raise
    finally:
        pool.shutdown(cancel_futures=True)
    if len(jobs) == 1:
        yield from (Row(job.name, FAULT, DIED) for job in lost)
    elif lost:
        half = (len(lost) + 1) // 2
        yield from in_processes(lost[:half], workers)
        yield from in_processes(lost[half:], workers)


def _forget_signals() -> None:
    """A process of the pool ends as any does, and not by an interrupt, which ends the auditor and is the command's to meet."""
    for number in (signal.SIGTERM, signal.SIGHUP):
        signal.signal(number, signal.SIG_DFL)
    signal.signal(signal.SIGINT, lambda *_: None)
