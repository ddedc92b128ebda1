"""The account that a server runs under, and what is done with its rights.

What the account can write may be anything: a link, a pipe, a lie. So a recorder that is root neither opens nor removes nor
believes it. It has that done by processes with the account's rights, which can do no more than the account could anyway.
"""

from __future__ import annotations

import os
import pwd
import signal
import subprocess
import time
from collections.abc import Iterable, Iterator, Sequence
from pathlib import Path
from typing import Any

MOST_SECONDS = 10.0
SECONDS_BETWEEN_LOOKS = 0.02
SHARED_MEMORY = Path("/proc/sysvipc/shm")


class Account:
    """An account of the system by its name, or that of this process where it isn't root's. Raises KeyError where there is none."""

    def __init__(self, name: str) -> None:
        self.is_other = os.geteuid() == 0
        entry = pwd.getpwnam(name) if self.is_other else None
        self.user = os.geteuid() if entry is None else entry.pw_uid
        self._group = os.getegid() if entry is None else entry.pw_gid

    def rights(self) -> dict[str, Any]:
        """The words for subprocess that give a process the account's rights and no others."""
        return {"user": self.user, "group": self._group, "extra_groups": []} if self.is_other else {}

    def own(self, directory: Path) -> None:
        """Gives the account a directory, which stands in one that it can't write."""
        if self.is_other:
            os.chown(directory, self.user, self._group, follow_symlinks=False)

    def remove(self, directory: Path) -> None:
        """Removes what stands in a directory of the account's, and the directory where the account may do that."""
        self._run(["rm", "-rf", "--", str(directory)])

    def end_processes_in(self, directory: Path) -> set[int]:
        """Ends the account's processes that work in a directory or within it, and waits until they are gone. Answers which.

        A server's workers outlive a server that was killed for some moments, and each works in the server's directory.
        """
        ended: set[int] = set()
        end = time.monotonic() + MOST_SECONDS
        while (found := self._processes_in(directory)) and time.monotonic() < end:
            ended.update(found)
            self._run(["sh", "-c", 'kill -KILL "$@"', "sh", *map(str, found)])
            time.sleep(SECONDS_BETWEEN_LOOKS)
        return ended

    def free_shared_memory(self, processes: Iterable[int]) -> None:
        """Frees the shared memory that these processes of the account made, and that nothing uses any more.

        PostgreSQL frees its own as it stops, but not where it was killed.
        """
        left = list(_shared_memory_of(set(processes)))
        if left:
            self._run(["ipcrm", *(word for one in left for word in ("-m", str(one)))])

    def _processes_in(self, directory: Path) -> list[int]:
        """The account's processes whose working directory is this one or lies within it. Empty where the system doesn't tell."""
        found = []
        for entry in Path("/proc").glob("[0-9]*"):
            try:
                place = Path(os.readlink(entry / "cwd"))
                if entry.stat().st_uid == self.user and (place == directory or directory in place.parents):
                    found.append(int(entry.name))
            except OSError:
                continue
        return found

    def _run(self, command: Sequence[str]) -> None:
        """Runs a command with the account's rights. What comes of it is seen by what it leaves."""
        # A session of its own, so that an interrupt at the keyboard doesn't reach it.
        with subprocess.Popen(command, stdin=subprocess.DEVNULL, stdout=subprocess.DEVNULL, stderr=subprocess.DEVNULL, cwd="/",
                              start_new_session=True, **self.rights()) as process:
            try:
                process.wait(MOST_SECONDS)
            except subprocess.TimeoutExpired:
                os.killpg(process.pid, signal.SIGKILL)


def _shared_memory_of(processes: set[int]) -> Iterator[int]:
    """The ids of unused shared memory that one of these processes made: the kernel's list, and nothing that they wrote."""
    try:
        lines = SHARED_MEMORY.read_text().split("\n")
    except OSError:
        return
    titles = lines[0].split()
    for line in lines[1:]:
        row = dict(zip(titles, line.split()))
        if row and int(row["cpid"]) in processes and row["nattch"] == "0":
            yield int(row["shmid"])
