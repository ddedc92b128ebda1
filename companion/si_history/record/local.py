"""Stores that the recorder runs in a folder of its own, and whose order of starts and commits is that of its own statements.

One thread sends one statement at a time, each ended before the next is sent, so the order of the recorder's tickets is the
store's. Threads hold one lock around each commit and around each statement that takes a snapshot, with the ticket for it.
"""

from __future__ import annotations

import shutil
import tempfile
import threading
from abc import ABC, abstractmethod
from collections.abc import Callable, Iterator, Mapping, Sequence
from contextlib import AbstractContextManager, closing, contextmanager
from dataclasses import dataclass
from pathlib import Path

from si_history.record import signals
from si_history.record.model import Connection, Moment, Point, Recorded, Store, StoreFault, Timeline

MEGABYTE = 2**20
# With less room than this a store's next write may fail.
LEAST_ROOM = 100 * MEGABYTE

# A store that stays open within a context, and a call that raises StoreFault once the store is known to have failed.
Opened = tuple[Store, Callable[[], None]]


@dataclass(frozen=True)
class Choice:
    """What a store is opened with: its level, more settings by their names, and over how many tables the keys are spread."""

    level: str
    settings: frozenset[str]
    tables: int


@dataclass(frozen=True)
class Kind:
    """A kind of stores: its words on the command line, what they mean, and how such a store is opened.

    The first of the levels is the one that is taken where none is named. `most_tables` is 1 where the store has no tables.
    """

    name: str
    title: str
    levels: Mapping[str, str]
    settings: Mapping[str, str]
    most_tables: int
    has_threads: bool
    opened: Callable[[Choice], AbstractContextManager[Opened]]


class LocalStore(ABC):
    """A store whose order is that of the tickets."""

    def __init__(self) -> None:
        self._order = threading.RLock()

    @abstractmethod
    def version(self) -> str:
        """The version of the store."""

    @abstractmethod
    def prepare(self, keys: Sequence[int]) -> None:
        """Makes what one run needs, with a row of NOBODY for each of the keys."""

    @abstractmethod
    def connect(self) -> Connection:
        """Opens a session."""

    @abstractmethod
    def is_late(self, is_reader: bool) -> bool:
        """Whether a transaction's first statement takes its snapshot, and not its begin."""

    @abstractmethod
    def close(self) -> None:
        """Ends the store."""

    def ordered(self) -> AbstractContextManager[object]:
        return self._order

    def timeline(self, records: Sequence[Recorded]) -> Timeline:
        return timeline(records)

    def remove(self) -> None:
        """Nothing has to be taken away: the folder goes with all that is in it."""


class Holders:
    """Which session holds what, for stores in which a wait for a lock has no end that one thread could see."""

    def __init__(self) -> None:
        self._holders: dict[int, object] = {}
        self._keeping = threading.Lock()

    def is_free(self, what: int, session: object) -> bool:
        """Whether a session may take it. Where it may, it has it from now on."""
        with self._keeping:
            return self._holders.setdefault(what, session) is session

    def let_go(self, session: object) -> None:
        """The session's transaction has ended."""
        with self._keeping:
            self._holders = {what: holder for what, holder in self._holders.items() if holder is not session}


def timeline(records: Sequence[Recorded]) -> Timeline:
    """The order of starts and commits that the tickets tell."""
    points = [(record.begun, Point(Moment.START, record.number)) for record in records]
    points += [(record.ended, Point(Moment.COMMIT, record.number)) for record in records if record.is_committed]
    return [point for _, point in sorted(points, key=lambda one: one[0])]


def in_folder(make: Callable[[Choice, Path], LocalStore]) -> Callable[[Choice], AbstractContextManager[Opened]]:
    """How a store is opened that keeps all it has in one folder."""
    @contextmanager
    def opened(choice: Choice) -> Iterator[Opened]:
        with folder() as place, closing(make(choice, place)) as store:
            yield store, lambda: check_room(place)
    return opened


@contextmanager
def folder() -> Iterator[Path]:
    """A new folder that nobody else may look into, removed at the end. Raises StoreFault where something of it stays."""
    place: Path | None = None
    try:
        with signals.held():
            place = Path(tempfile.mkdtemp(prefix="si-history-"))
        check_room(place)
        yield place
    finally:
        with signals.held():
            _remove(place)


def _remove(place: Path | None) -> None:
    """Removes a folder, if it was made. Raises StoreFault where something of it stays."""
    if place is None:
        return
    shutil.rmtree(place, ignore_errors=True)
    if place.exists():
        raise StoreFault(f"the directory {place} could not be removed: remove it by hand")


def check_room(place: Path) -> None:
    """Raises StoreFault where the folder's disk is full, or nearly so."""
    free = shutil.disk_usage(place).free
    if free < LEAST_ROOM:
        raise StoreFault(f"the disk of {place.parent} has {free // MEGABYTE} MB free, and a store needs "
                         f"{LEAST_ROOM // MEGABYTE} MB there: free them, or set TMPDIR to a directory that has them")
