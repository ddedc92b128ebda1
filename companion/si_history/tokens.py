"""The tokens of a history of any length, read piece by piece, as often as is wanted."""

from __future__ import annotations

import re
import shutil
import tempfile
from collections.abc import Iterator
from contextlib import contextmanager
from typing import BinaryIO

from si_history.errors import BadInput
from si_history.files import opened
from si_history.limits import STANDARD

BYTES_OF_PIECE = 1 << 20
_TOKEN = re.compile("[^ \t\r\n]+")
_SEPARATORS = " \t\r\n"


@contextmanager
def rereadable(path: str) -> Iterator[BinaryIO]:
    """Opens an input that is read more than once: a file itself, and of a pipe a copy that has no name."""
    with opened(path) as given:
        if given.seekable():
            yield given
            return
        with tempfile.TemporaryFile() as copy:
            shutil.copyfileobj(given, copy, BYTES_OF_PIECE)
            yield copy


def tokens_of(file: BinaryIO) -> Iterator[str]:
    """The tokens of a whole file, from its start. Bytes that no token has stand as characters that none has."""
    file.seek(0)
    left = ""
    while piece := file.read(BYTES_OF_PIECE):
        text = left + piece.decode("latin-1")
        found = _TOKEN.findall(text)
        left = found.pop() if found and text[-1] not in _SEPARATORS else ""
        if len(left) > STANDARD.bytes:
            raise BadInput(f"an event is too long: the limit of bytes of a part is {STANDARD.bytes:,}")
        yield from found
    if left:
        yield left
