"""What is read and written: files, standard input and standard output."""

from __future__ import annotations

import os
import stat
import sys
from collections.abc import Iterable, Iterator
from contextlib import contextmanager, suppress
from typing import BinaryIO

from si_history.errors import BadInput, OutputIsInput, quoted
from si_history.unseen import visible

STANDARD_INPUT = STANDARD_OUTPUT = "-"
OUTPUT_DEVICE = "/dev/stdout"
"""What standard output is called among the files that an output must not be."""
DESCRIPTORS = ("/dev", "/dev/fd", "/proc/self/fd")
"""Where names stand for devices and for what is open already: that is written to, and never replaced by another file."""


def source_name(path: str) -> str:
    """What an input is called in messages."""
    return "standard input" if path == STANDARD_INPUT else path


@contextmanager
def opened(path: str) -> Iterator[BinaryIO]:
    """Opens a file, or standard input where the path is `-`. Raises BadInput where it can't be opened or read."""
    try:
        if path == STANDARD_INPUT:
            if sys.stdin is None:
                raise BadInput("it is closed", source=source_name(path))
            yield sys.stdin.buffer
        else:
            with open(path, "rb") as file:
                yield file
    except (OSError, ValueError) as fault:
        raise BadInput(_words(fault), source=source_name(path)) from None


def read_text(path: str, limit: int) -> str:
    """A whole input as text. Raises BadInput where it can't be read, isn't UTF-8, or has more than `limit` bytes."""
    with opened(path) as file:
        content = file.read(limit + 1)
    if len(content) > limit:
        raise BadInput(f"too long: the limit of bytes is {limit:,}", source=source_name(path))
    try:
        return content.decode("utf-8")
    except UnicodeDecodeError:
        raise BadInput("not UTF-8", source=source_name(path)) from None


def check_output(path: str | None, others: Iterable[str | None] = ()) -> None:
    """Raises BadInput where what is written to this path would destroy another file of the command line, by whatever name.

    The others are the inputs, and outputs that are written too. Each command calls this before it works.
    """
    output = None if path is None else _identity(path, 1)
    same = next((name for name in others if name is not None and output is not None and output == _identity(name, 0)), None)
    if path is not None and same is not None:
        kind = OutputIsInput if path == STANDARD_OUTPUT else BadInput
        raise kind(f"can't be written: it is the same file as {source_name(same)}", source=output_name(path))


def output_name(path: str) -> str:
    """What an output is called in messages."""
    return "standard output" if path == STANDARD_OUTPUT else path


def write_output(text: str, path: str = STANDARD_OUTPUT) -> None:
    """Writes a text as UTF-8 to a file, or to standard output where the path is `-`: each command writes by this alone.

    Raises BadInput where that fails. A reader that ends early is no fault.
    """
    if path != STANDARD_OUTPUT:
        _write_file(path, text)
        return
    if sys.stdout is None:
        raise BadInput("can't be written: it is closed", source=output_name(path))
    try:
        left = memoryview(text.encode("utf-8"))
        while left:  # without a buffer, as PYTHONUNBUFFERED has it, a call may take a part alone
            left = left[sys.stdout.buffer.write(left) :]
        sys.stdout.buffer.flush()
    except BrokenPipeError:
        _drop(1)
    except OSError as fault:
        _drop(1)
        raise BadInput(f"can't be written: {_words(fault)}", source=output_name(path)) from None


def made_folder(path: str) -> str:
    """The folder, which is made where it is missing. Raises BadInput where that fails."""
    try:
        os.makedirs(path, exist_ok=True)
    except OSError as fault:
        raise BadInput(f"the folder {quoted(path)} can't be made: {fault.strerror}") from None
    return path


def write_error(line: str) -> None:
    """Writes a line to standard error, what can't be seen as `visible` shows it. Where that fails, the status alone tells."""
    if sys.stderr is None:
        return
    try:
        print(visible(line), file=sys.stderr, flush=True)
    except OSError:
        _drop(2)


def _write_file(path: str, text: str) -> None:
    """Writes a file. It is there whole or, where BadInput is raised, as it was before."""
    try:
        if _is_kept(path):
            _write_to(os.open(path, os.O_WRONLY | os.O_APPEND), text)
        else:
            _replace(path, text)
    except (OSError, ValueError) as fault:
        raise BadInput(f"can't be written: {_words(fault)}", source=path) from None


def _identity(path: str, standard: int) -> tuple[int, int] | str | None:
    """What tells a file from all others: its device and inode, or where it will be. None for what nothing is lost by.

    `standard` is the descriptor that the path `-` stands for.
    """
    try:
        status = os.fstat(standard) if path == "-" else os.stat(path)
    except FileNotFoundError:
        return os.path.realpath(path)
    except (OSError, ValueError):
        return None
    return (status.st_dev, status.st_ino) if stat.S_ISREG(status.st_mode) else None


def _is_kept(path: str) -> bool:
    """Whether a path is that of a device, a pipe or something open, to which a text goes directly."""
    if os.path.dirname(os.path.abspath(path)) in DESCRIPTORS:
        return True
    try:
        return not stat.S_ISREG(os.stat(path).st_mode)
    except FileNotFoundError:
        return False


def _write_to(descriptor: int, text: str, like: os.stat_result | None = None) -> None:
    """Writes a text to an open file, and closes it. `like` is the file that it replaces."""
    with open(descriptor, "w", encoding="utf-8", newline="\n") as file:
        file.write(text)
        if like is not None:
            with suppress(PermissionError):
                os.fchown(descriptor, like.st_uid, like.st_gid)
            os.fchmod(descriptor, like.st_mode & 0o777)


def _replace(path: str, text: str) -> None:
    """Puts a file in the place of what is there: written beside it, and renamed when it is whole. Links stay links."""
    if not os.path.basename(path):
        raise FileNotFoundError(2, os.strerror(2))
    before = _writable(path)
    place = os.path.realpath(path)
    temporary = os.path.join(os.path.dirname(place), f".si-history-{os.urandom(8).hex()}")
    mode = 0o666 if before is None else before.st_mode & 0o777
    try:
        _write_to(os.open(temporary, os.O_WRONLY | os.O_CREAT | os.O_EXCL | os.O_NOFOLLOW, mode), text, before)
        os.replace(temporary, place)
    except BaseException:
        with suppress(OSError):
            os.unlink(temporary)
        raise


def _writable(path: str) -> os.stat_result | None:
    """What is known of a file that may be written, or None where there is none. Raises OSError where it may not.

    The system itself follows the path, so that it can refuse another's link in a directory of all.
    """
    try:
        descriptor = os.open(path, os.O_WRONLY)
    except FileNotFoundError:
        return None
    try:
        return os.fstat(descriptor)
    finally:
        os.close(descriptor)


def _drop(descriptor: int) -> None:
    """Lets what is still unwritten go nowhere, so that the end of the process doesn't try again."""
    os.dup2(os.open(os.devnull, os.O_WRONLY), descriptor)


def _words(fault: Exception) -> str:
    """Why a call of the system failed."""
    return (fault.strerror if isinstance(fault, OSError) else None) or str(fault)
