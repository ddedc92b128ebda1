"""Runs audited by the workers of a Dask cluster.

The scheduler gives what a dead worker was about to do to another one. Logs are sent to the workers, which need no folder of the
command's; they need this package, and the auditor.
"""

from __future__ import annotations

import importlib
import logging
import time
from collections.abc import Iterator, Sequence
from contextlib import suppress
from dataclasses import replace
from typing import Any

from si_history.audited import read_log
from si_history.auditor import BAD_COMMAND_LINE, FAULT
from si_history.errors import BadInput, quoted
from si_history.run_audit import Job, Row, audit_run

SECONDS_TO_CONNECT = 10
SECONDS_BETWEEN = 1.0
RUNS_AHEAD = 2
"""How many runs a thread of a worker is given at a time: the logs of these are in memory."""
NOISY = ("asyncio", "distributed", "tornado")
"""What writes on standard error by itself. What went wrong is told by the rows."""
NO_SCHEDULER = "the Dask scheduler is gone"


def on_cluster(jobs: Sequence[Job], address: str, patience: float) -> Iterator[Row]:
    """The row of each job, as it is done. Raises BadInput where there is no such scheduler.

    `patience` is for how many seconds runs wait for a worker where the cluster has none.
    """
    distributed = _distributed()
    client = _client(distributed, address)
    try:
        yield from _Cluster(distributed, client, patience).rows(jobs)
    finally:
        client.close(timeout=SECONDS_TO_CONNECT)


def _distributed() -> Any:
    try:
        distributed = importlib.import_module("distributed")
    except ImportError:
        raise BadInput("--dask needs the package distributed, which this Python doesn't have (python3-distributed of Debian)") from None
    for name in list(logging.root.manager.loggerDict):
        if name.split(".")[0] in NOISY:
            logging.getLogger(name).setLevel(logging.CRITICAL)
    return distributed


def _client(distributed: Any, address: str) -> Any:
    try:
        return distributed.Client(address, timeout=SECONDS_TO_CONNECT)
    except (OSError, ValueError, TypeError, ImportError) as fault:
        words = " ".join(str(fault).split())
        raise BadInput(f"there is no Dask scheduler at {quoted(address)}: {words or type(fault).__name__}") from None


class _Cluster:
    """Gives runs to the workers, a few ahead, and waits for them."""

    def __init__(self, distributed: Any, client: Any, patience: float) -> None:
        self._distributed = distributed
        self._client = client
        self._patience = patience
        self._running: dict[Any, Job] = {}
        self._seen_worker = time.monotonic()

    def rows(self, jobs: Sequence[Job]) -> Iterator[Row]:
        left = list(reversed(jobs))
        while left or self._running:
            threads = self._threads()
            problem = self._problem(threads)
            if problem is not None:
                yield from (Row(job.name, FAULT, problem) for job in (*self._running.values(), *left))
                return
            while left and len(self._running) < max(1, (threads or 0) * RUNS_AHEAD):
                yield from self._submit(left.pop())
            yield from self._done()

    def _submit(self, job: Job) -> Iterator[Row]:
        """Gives a run to the cluster. Where its log can't be read, or the cluster can't be told, that is its row."""
        try:
            content = read_log(job.path, job.policy.limits)
            self._running[self._client.submit(audit_run, replace(job, content=content), pure=False)] = job
        except BadInput as fault:
            yield Row(job.name, BAD_COMMAND_LINE, fault.reason)
        except Exception as fault:  # whatever Dask has
            yield Row(job.name, FAULT, f"the Dask cluster does not take it: {_words(fault)}")

    def _done(self) -> Iterator[Row]:
        """The rows of the runs that are done, after at most a moment."""
        if not self._running:
            return
        with suppress(TimeoutError, self._distributed.TimeoutError, self._distributed.CancelledError):
            self._distributed.wait(list(self._running), timeout=SECONDS_BETWEEN, return_when="FIRST_COMPLETED")
        for future in [future for future in self._running if future.status != "pending"]:
            yield self._row(future, self._running.pop(future))

    def _row(self, future: Any, job: Job) -> Row:
        """What came of a run, and the problem where nothing did."""
        if future.status == "finished":
            try:
                row = future.result(timeout=SECONDS_TO_CONNECT)
            except Exception as fault:
                return Row(job.name, FAULT, f"its result was lost: {_words(fault)}")
            return row if isinstance(row, Row) else Row(job.name, FAULT, "its result is none")
        failure = future.exception() if future.status == "error" else None
        if isinstance(failure, self._distributed.scheduler.KilledWorker):
            return Row(job.name, FAULT, "each worker that audited it died")
        return Row(job.name, FAULT, f"the worker failed: {_words(failure)}" if failure is not None else "the Dask scheduler lost it")

    def _threads(self) -> int | None:
        """How many runs the workers can do at a time, and None where the scheduler is gone."""
        try:
            workers = self._client.scheduler_info()["workers"]
            return sum(worker.get("nthreads", 1) for worker in workers.values()) if self._client.status == "running" else None
        except (OSError, KeyError):
            return None

    def _problem(self, threads: int | None) -> str | None:
        """Why no run will be done any more, if that is so."""
        now = time.monotonic()
        if threads:
            self._seen_worker = now
        if threads is None:
            return NO_SCHEDULER
        return f"the Dask cluster had no worker for {self._patience:g} seconds" if now - self._seen_worker > self._patience else None


def _words(fault: BaseException) -> str:
    return f"{type(fault).__name__}: {' '.join(str(fault).split())}"
