"""Runs a workload's transactions on a store: by concurrent sessions in threads, or by one thread that interleaves them."""

from __future__ import annotations

import itertools
import random
import threading
import time
from collections.abc import Callable, Iterator, Sequence
from contextlib import ExitStack, closing, nullcontext
from dataclasses import dataclass, field
from functools import partial

from si_history.progress import Progress
from si_history.record import signals
from si_history.record.model import (
    NOBODY, Aborted, Connection, RangeDone, ReadDone, Recorded, Row, Store, StoreFault, WriteDone)
from si_history.record.script import Script
from si_history.record.workloads import Bump, Flip, GiveUp, Look, Plan, Put, Scan, Step, Workload, is_reader, plan

SECONDS_BETWEEN_LOOKS = 0.05
# How long jobs that are asked to stop are waited for.
STOPPING_SECONDS = 3.0

# The steps of one transaction.
Steps = Iterator[None]


@dataclass(frozen=True)
class Settings:
    """What is run. Exactly one of `transactions` and `events` is given: how many transactions begin, or after how many
    recorded events none begins any more. Where it `notes_begins`, a start is noted at the begin though the first statement
    takes the snapshot: a fault on purpose, to see it found."""

    workload: Workload
    keys: int
    sessions: int
    seed: int
    interleave: bool
    transactions: int | None = None
    events: int | None = None
    notes_begins: bool = False


@dataclass
class Run:
    """What the sessions of a run share. Threads may take tickets and numbers, and hand in records, at once.

    `steps` only tells that something moves: steps of two threads at once may count as one.
    """

    settings: Settings
    take_ticket: Callable[[], int] = field(default_factory=lambda: itertools.count(1).__next__)
    take_number: Callable[[], int] = field(default_factory=lambda: itertools.count(1).__next__)
    records: list[Recorded] = field(default_factory=list)
    is_stopped: threading.Event = field(default_factory=threading.Event)
    steps: int = 0
    events: int = 0
    keeping: threading.Lock = field(default_factory=threading.Lock)

    def next_number(self) -> int | None:
        """The next transaction's number, or None where no more shall begin."""
        if self.is_stopped.is_set() or (self.settings.events is not None and self.events >= self.settings.events):
            return None
        number = self.take_number()
        return None if self.settings.transactions is not None and number > self.settings.transactions else number

    def keep(self, record: Recorded) -> None:
        """Takes a transaction that has ended into the record. Besides its operations it has a begin and an end."""
        with self.keeping:
            self.records.append(record)
            self.events += len(record.operations) + 2


def run(store: Store, settings: Settings, look: Callable[[], None], patience: float,
        script: Script | None = None) -> list[Recorded]:
    """Runs the transactions, those of a script where there is one, and answers what was recorded of them, by their numbers.

    `look` is called now and then and raises StoreFault where the server is known to have failed. `patience` is how many
    seconds the store may take for one statement. Raises StoreFault where the run can't be brought to its end.
    """
    the_run = Run(settings)
    if script is not None:
        jobs: list[Callable[[], None]] = [partial(play, store, the_run, script)]
    elif settings.interleave:
        jobs = [lambda: interleave(store, the_run)]
    else:
        jobs = [partial(work, store, the_run, session) for session in range(settings.sessions)]
    with Progress("transactions recorded") as progress:
        def beat() -> int:
            progress.step(len(the_run.records))
            return the_run.steps
        watched(jobs, look, beat, patience, the_run.is_stopped)
    return sorted(the_run.records, key=lambda record: record.number)


def work(store: Store, the_run: Run, session: int) -> None:
    """One session of its own: transaction after transaction, until no more shall begin."""
    dice = random.Random(f"{the_run.settings.seed} session {session}")
    with closing(store.connect()) as connection:
        while (number := the_run.next_number()) is not None:
            for _ in transact(store, connection, _next_plan(the_run, dice), number, the_run):
                the_run.steps += 1
                if the_run.is_stopped.is_set():
                    return


def interleave(store: Store, the_run: Run) -> None:
    """All sessions by one thread: each step is one of a session that the dice choose. A seed repeats the run."""
    dice = random.Random(f"{the_run.settings.seed} interleaved")
    busy: list[tuple[Connection, Steps]] = []
    with ExitStack() as stack:
        idle = [stack.enter_context(closing(store.connect())) for _ in range(the_run.settings.sessions)]
        while not the_run.is_stopped.is_set():
            while idle and (number := the_run.next_number()) is not None:
                connection = idle.pop(0)
                busy.append((connection, transact(store, connection, _next_plan(the_run, dice), number, the_run)))
            if not busy:
                return
            place = dice.randrange(len(busy))
            connection, steps = busy[place]
            the_run.steps += 1
            if next(steps, _ENDED) is _ENDED:
                del busy[place]
                idle.append(connection)


def play(store: Store, the_run: Run, script: Script) -> None:
    """The transactions of a script, each in the first session that is idle when it begins. What is refused is over."""
    running: dict[int, tuple[int, Steps]] = {}
    begun: set[int] = set()
    with ExitStack() as stack:
        sessions = [stack.enter_context(closing(store.connect())) for _ in range(script.sessions)]
        idle = list(range(len(sessions)))
        for number in script.turns:
            if the_run.is_stopped.is_set():
                return
            if number not in begun:
                begun.add(number)
                session = min(idle)
                idle.remove(session)
                running[number] = session, transact(store, sessions[session], script.plans[number], number, the_run)
            session, steps = running.get(number, (0, iter(())))
            the_run.steps += 1
            if next(steps, _ENDED) is _ENDED and running.pop(number, None) is not None:
                idle.append(session)


_ENDED = object()


def _next_plan(the_run: Run, dice: random.Random) -> Plan:
    return plan(the_run.settings.workload, the_run.settings.keys, dice)


def transact(store: Store, connection: Connection, steps: Plan, number: int, the_run: Run) -> Steps:
    """One transaction: each step of the generator is its begin, one statement of its plan, or its end."""
    record = Recorded(number, 0)
    is_late = store.is_late(is_reader(steps)) and not the_run.settings.notes_begins
    seen: dict[int, Row | None] = {}
    try:
        with store.ordered():
            connection.begin(number, is_reader(steps))
            record.begun = the_run.take_ticket()
        yield
        for step in steps:
            if isinstance(step, GiveUp):
                raise Aborted("the transaction gives up")
            with store.ordered() if is_late else nullcontext():
                if is_late:
                    record.begun, is_late = the_run.take_ticket(), False
                _perform(connection, step, record, seen, the_run.take_ticket)
            yield
        with store.ordered():
            record.ended = the_run.take_ticket()
            connection.commit(number)
        record.is_committed = True
    except Aborted:
        record.begun = record.begun or the_run.take_ticket()
        record.ended = the_run.take_ticket()
        connection.rollback()
    the_run.keep(record)


def _perform(connection: Connection, step: Step, record: Recorded, seen: dict[int, Row | None],
             take_ticket: Callable[[], int]) -> None:
    """One statement. `seen` has what the transaction knows of each key's row; None is a key that has none."""
    match step:
        case Look(key):
            seen[key] = row = connection.read(key)
            record.operations.append(ReadDone(take_ticket(), key, row.writer if row else NOBODY))
        case Scan(low, high):
            rows = connection.scan(low, high)
            seen.update(dict.fromkeys(range(low, high + 1)))
            seen.update({row.key: row for row in rows})
            found = tuple((row.key, row.writer) for row in rows if row.writer != NOBODY)
            record.operations.append(RangeDone(take_ticket(), low, high, found))
        case Put(key) | Flip(key):
            # A write is recorded even if the store refuses it: then the transaction aborts, and nobody may see it.
            record.operations.append(WriteDone(take_ticket(), key))
            is_gone = isinstance(step, Flip) and (row := seen[key]) is not None and not row.is_gone
            _write(connection, key, record.number, is_gone, seen)
            seen[key] = Row(key, record.number, is_gone)
        case Bump(key):
            saw = connection.bump(key, record.number)
            record.operations += [ReadDone(take_ticket(), key, saw), WriteDone(take_ticket(), key)]
            seen[key] = Row(key, record.number, False)


def _write(connection: Connection, key: int, number: int, is_gone: bool, seen: dict[int, Row | None]) -> None:
    """Writes a key as an application would: by what it knows of the row."""
    if key not in seen:
        connection.put(key, number)
    elif seen[key] is None:
        connection.insert(key, number)
    else:
        connection.update(key, number, is_gone)


def watched(jobs: Sequence[Callable[[], None]], look: Callable[[], None], beat: Callable[[], int], patience: float,
            is_stopped: threading.Event | None = None) -> None:
    """Does each job in a thread, and comes back when all are done. Raises the first fault that one of them raised.

    The main thread only waits here, so that a signal is met at once, whatever a driver is waiting for. Where `beat`
    doesn't rise for `patience` seconds the store has stopped to answer. On the way out of a fault or a signal the jobs are
    asked to stop, and are left to themselves where they don't: they end with the server that they wait for.
    """
    is_stopped = is_stopped or threading.Event()
    faults: list[Exception] = []
    # Events tell which jobs are done: a thread whose join a signal interrupts counts as ended, though it isn't.
    ends = [threading.Event() for _ in jobs]
    threads = [threading.Thread(target=_caught, args=(job, faults, end), daemon=True) for job, end in zip(jobs, ends)]
    try:
        for thread in threads:
            thread.start()
        last, since = beat(), time.monotonic()
        while (running := [end for end in ends if not end.is_set()]) and not faults:
            signals.look()
            look()
            if (now := beat()) != last:
                last, since = now, time.monotonic()
            elif time.monotonic() - since > patience:
                raise StoreFault(f"the store gave no answer for {patience:.0f} seconds")
            running[0].wait(SECONDS_BETWEEN_LOOKS)
    finally:
        is_stopped.set()
        last_moment = time.monotonic() + STOPPING_SECONDS
        for thread, end in zip(threads, ends):
            if thread.ident is not None and end.wait(max(0.0, last_moment - time.monotonic())):
                thread.join()
    if faults:
        _look_again(look)
        raise faults[0]


def _look_again(look: Callable[[], None]) -> None:
    """Looks some times more: a server that has just dropped a connection may take a moment to end."""
    for _ in range(5):
        look()
        time.sleep(SECONDS_BETWEEN_LOOKS)


def _caught(job: Callable[[], None], faults: list[Exception], end: threading.Event) -> None:
    """Does a job, keeps the fault that it raises, and tells its end."""
    try:
        job()
    except Aborted as fault:
        faults.append(StoreFault(f"the store refused a statement that none of its rules of isolation touches: {fault}"))
    except Exception as fault:
        faults.append(fault)
    finally:
        end.set()
