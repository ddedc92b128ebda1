"""Several new files with a common front of their names, which come all together or not at all."""

from __future__ import annotations

import os
import re
import shutil
import tempfile
from collections.abc import Iterator
from contextlib import contextmanager, suppress

from si_history.errors import BadInput
from si_history.files import write_output


class NewFiles:
    """Files that are written into a folder of their own, beside the place where they will be."""

    def __init__(self, prefix: str, folder: str) -> None:
        self._prefix = prefix
        self._folder = folder
        self._ends: list[str] = []

    def write(self, end: str, text: str) -> str:
        """Writes the file whose name is the prefix and this end, and answers its path."""
        path = self._prefix + end
        try:
            write_output(text, os.path.join(self._folder, f"file{end}"))
        except BadInput as fault:
            fault.source = path
            raise
        self._ends.append(end)
        return path

    def put(self) -> None:
        """Puts all files into their place. Where that fails none of them stays there."""
        placed: list[str] = []
        try:
            for end in self._ends:
                os.rename(os.path.join(self._folder, f"file{end}"), self._prefix + end)
                placed.append(self._prefix + end)
        except BaseException:
            for path in placed:
                with suppress(OSError):
                    os.unlink(path)
            raise


@contextmanager
def new_files(prefix: str, ends: str) -> Iterator[NewFiles]:
    """Within, files can be written whose names start with the prefix; at the end all of them are put into their place.

    Raises BadInput where they can't be written, or where there is a file already whose name is the prefix and an end that fits
    the pattern.
    """
    place, front = os.path.split(prefix)
    if not front:
        raise BadInput("can't be written: a prefix of names has to end with some characters", source=prefix)
    try:
        there = sorted(name for name in os.listdir(place or ".") if re.fullmatch(re.escape(front) + ends, name))
        if there:
            raise BadInput("can't be written: it is there already", source=os.path.join(place, there[0]))
        folder = tempfile.mkdtemp(prefix=".si-history-", dir=place or ".")
    except OSError as fault:
        raise BadInput(f"can't be written: {fault.strerror}", source=prefix) from None
    try:
        files = NewFiles(prefix, folder)
        yield files
        files.put()
    except OSError as fault:
        raise BadInput(f"can't be written: {fault.strerror}", source=prefix) from None
    finally:
        shutil.rmtree(folder, ignore_errors=True)
