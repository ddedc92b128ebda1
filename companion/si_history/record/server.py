"""A database server of one's own: in a temporary directory, on a socket there, stopped and removed at the end.

Where the recorder is root, the server runs under an account of its own. What is root's stands outside the directory that this
account can write: the directory above it, and the file of what the server says, which has no name.
"""

from __future__ import annotations

import os
import shutil
import signal
import subprocess
import tempfile
import time
from collections.abc import Callable, Iterable, Sequence
from contextlib import suppress
from pathlib import Path
from types import TracebackType
from typing import IO

from si_history.record import signals
from si_history.record.account import Account
from si_history.record.model import StoreFault

INSTALL = "tools/install_databases.sh installs it"
PREPARE_SECONDS = 120.0
START_SECONDS = 60.0
STOP_SECONDS = 10.0
SECONDS_BETWEEN_LOOKS = 0.02
LONGEST_SOCKET_PATH = 107
MEGABYTE = 2**20
# With less room than this a server's next write may fail.
LEAST_ROOM = MEGABYTE
LONGEST_LAST_WORDS = 200
LAST_BYTES = 1 << 16


def program(name: str, title: str, places: Iterable[Path] = ()) -> Path:
    """The path of one of a server's programs: on the PATH, or else in the first of some places that has it.

    Raises StoreFault where there is none.
    """
    found = shutil.which(name) or next((str(place / name) for place in places if (place / name).is_file()), None)
    if found is None:
        raise StoreFault(f"no {title} server was found (there is no program {name}): {INSTALL}")
    return Path(found)


class Server:
    """A server that runs as long as the context lasts.

    `title` is its name in messages. `account` is the account that it runs under where this process is root's, which
    servers refuse; else it runs as the user. `ending` is the signal that makes it stop at once. `room` is the number of
    bytes that its directory needs.
    """

    def __init__(self, title: str, account: str, ending: signal.Signals, room: int) -> None:
        self._title = title
        self._account_name = account
        self._ending = ending
        self._room = room
        self._process: subprocess.Popen[bytes] | None = None
        self._processes: set[int] = set()
        self._said: IO[bytes]
        self._place = Path()
        self.directory = Path()

    def __enter__(self) -> Server:
        try:
            self._account = Account(self._account_name)
        except KeyError:
            raise StoreFault(f"a {self._title} server does not run as root, and there is no account {self._account_name}: "
                             f"{INSTALL}") from None
        try:
            with signals.held():
                self._make_directory()
            self._look_around()
        except BaseException:
            self._end()
            raise
        return self

    def __exit__(self, kind: type[BaseException] | None, fault: BaseException | None, trace: TracebackType | None) -> None:
        self._end()

    @property
    def data(self) -> Path:
        """Where the server keeps its data."""
        return self.directory / "data"

    def prepare(self, command: Sequence[str | Path]) -> None:
        """Runs a command that makes the data. Raises StoreFault where it fails."""
        self._launch(command)
        assert self._process is not None
        try:
            status = self._process.wait(PREPARE_SECONDS)
        except subprocess.TimeoutExpired:
            raise StoreFault(f"{self._title}: {command[0]} took longer than {PREPARE_SECONDS:.0f} seconds") from None
        if status != 0:
            raise self._fault(f"{self._title}: {Path(command[0]).name} failed")

    def start(self, command: Sequence[str | Path], is_ready: Callable[[], bool]) -> None:
        """Starts the server, and comes back once it is ready. Raises StoreFault where that fails."""
        self._launch(command)
        end = time.monotonic() + START_SECONDS
        while not is_ready():
            signals.look()
            self.look()
            if time.monotonic() > end:
                raise self._fault(f"the {self._title} server was not ready within {START_SECONDS:.0f} seconds")
            time.sleep(SECONDS_BETWEEN_LOOKS)

    def look(self) -> None:
        """Raises StoreFault where the server has ended, or its disk is full."""
        if self._process is None or self._process.poll() is not None:
            raise self._fault(f"the {self._title} server ended by itself; run it again")
        if self._free() < LEAST_ROOM:
            raise self._full()

    def _make_directory(self) -> None:
        """Makes the directory, for the server's account, and before it all that stays this process's own."""
        try:
            self._said = tempfile.TemporaryFile(buffering=0)
            self._place = Path(tempfile.mkdtemp(prefix="si-history-"))
            self.directory = self._place / "server"
            if self._account.is_other:
                self._place.chmod(0o711)
            self.directory.mkdir(0o700)
            self._account.own(self.directory)
        except OSError as fault:
            raise StoreFault(f"no temporary directory can be made: {fault.strerror}: set TMPDIR to another") from None

    def _look_around(self) -> None:
        """Raises StoreFault where the directory won't do."""
        if len(os.fsencode(self.directory / ".s.PGSQL.5432")) > LONGEST_SOCKET_PATH:
            raise StoreFault(f"{self.directory} is too long for a socket's path: set TMPDIR to a shorter directory")
        if self._free() < self._room:
            raise self._full()

    def _launch(self, command: Sequence[str | Path]) -> None:
        """Starts a command in the directory. Where this process is killed, the command is ended too, if setpriv is there."""
        setpriv = shutil.which("setpriv")
        ended_too = [setpriv, "--pdeathsig", self._ending.name[3:]] if setpriv else []
        environment = {"PATH": os.environ.get("PATH", os.defpath), "LC_ALL": "C", "TMPDIR": str(self.directory)}
        with signals.held():
            try:
                self._process = subprocess.Popen(
                    [*ended_too, *map(str, command)], stdin=subprocess.DEVNULL, stdout=self._said, stderr=self._said,
                    cwd=self.directory, env=environment, start_new_session=True, **self._account.rights())
            except OSError as fault:
                raise StoreFault(f"{self._title}: {command[0]} did not start: {fault.strerror}") from None
            self._processes.add(self._process.pid)

    def _end(self) -> None:
        """Stops what runs and removes the directory, if it was made. Raises StoreFault where something of it stays."""
        with signals.held():
            if not self._place.name:
                return
            self._stop()
            self._processes |= self._account.end_processes_in(self.directory)
            self._account.free_shared_memory(self._processes)
            self._said.close()
            try:
                self._account.remove(self.directory)
                with suppress(FileNotFoundError):
                    self.directory.rmdir()
                self._place.rmdir()
            except OSError:
                raise StoreFault(f"the directory {self._place} could not be removed: remove it by hand") from None

    def _stop(self) -> None:
        """Stops the process: by the server's own signal, and where that takes too long by SIGKILL."""
        if self._process is None or self._process.poll() is not None:
            return
        os.killpg(self._process.pid, self._ending)
        try:
            self._process.wait(STOP_SECONDS)
        except subprocess.TimeoutExpired:
            os.killpg(self._process.pid, signal.SIGKILL)
            self._process.wait()

    def _free(self) -> int:
        """The free bytes of the directory's disk."""
        return shutil.disk_usage(self._place).free

    def _full(self) -> StoreFault:
        """The fault of a disk with too little room."""
        return StoreFault(f"the disk of {self._place.parent} has {self._free() // MEGABYTE} MB free, and a {self._title} "
                          f"server needs {self._room // MEGABYTE} MB there: free them, or set TMPDIR to a directory that has them")

    def _fault(self, reason: str) -> StoreFault:
        """The reason with the server's last words, or a full disk where that is behind it."""
        if self._free() < LEAST_ROOM:
            return self._full()
        last = self._last_words()
        return StoreFault(f"{reason} (its last words: {last})" if last else reason)

    def _last_words(self) -> str:
        """The last line of what the server said."""
        start = max(0, os.fstat(self._said.fileno()).st_size - LAST_BYTES)
        said = os.pread(self._said.fileno(), LAST_BYTES, start).decode(errors="replace").split("\n")
        return next((line.strip() for line in reversed(said) if line.strip()), "")[:LONGEST_LAST_WORDS]
