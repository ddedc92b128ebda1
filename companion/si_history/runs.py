"""The runs under a folder: which files are logs."""

from __future__ import annotations

import fnmatch
import os
from collections.abc import Iterator, Sequence
from dataclasses import dataclass

from si_history.errors import BadInput, quoted

BY_PRODUCTS = (".legend", ".report", ".explained", ".status", ".html", ".svg", ".json", ".xml", ".md")
"""What lies beside logs and is none. A file with any other name is a log, or it is told that it can't be audited."""


@dataclass(frozen=True, slots=True)
class Folder:
    """The logs under a folder, by their names there, and the names of the files that are passed over."""

    logs: tuple[str, ...]
    passed_over: tuple[str, ...]


def logs_under(folder: str, patterns: Sequence[str] = ()) -> Folder:
    """The logs under a folder and the folders in it. With patterns only those are whose file's name is as one of them.

    Hidden files and folders are none. Raises BadInput where a folder can't be read.
    """
    logs: list[str] = []
    others: list[str] = []
    for name in sorted(_files(folder)):
        base = os.path.basename(name)
        is_log = any(fnmatch.fnmatchcase(base, pattern) for pattern in patterns) if patterns else not base.endswith(BY_PRODUCTS)
        (logs if is_log else others).append(name)
    return Folder(tuple(logs), tuple(others))


def _files(folder: str) -> Iterator[str]:
    """The names of all files, and of links that lead nowhere: that their logs are missing has to be told."""
    for place, folders, files in os.walk(folder, onerror=_refuse):
        folders[:] = [name for name in folders if not name.startswith(".")]
        for name in files:
            path = os.path.join(place, name)
            if not name.startswith(".") and (os.path.isfile(path) or not os.path.exists(path)):
                yield os.path.relpath(path, folder)


def _refuse(fault: OSError) -> None:
    raise BadInput(f"the folder {quoted(os.fsdecode(fault.filename))} can't be read: {fault.strerror}")
