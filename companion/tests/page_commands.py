"""The commands that a page shows with what they print, and a folder in which they are run."""

from __future__ import annotations

import os
import shutil
import subprocess
import tempfile
from collections.abc import Iterator
from contextlib import contextmanager
from pathlib import Path

from tests.support import COMPANION, LONG_SECONDS, PROGRAM, REPOSITORY

INDENT = "    "


def commands(page: Path) -> list[tuple[str, str]]:
    """Each command of the page, and what the page says that it prints."""
    made: list[tuple[str, str]] = []
    is_shown = False
    for line in page.read_text(encoding="utf-8").splitlines():
        if line.startswith(f"{INDENT}$ "):
            made.append((line.removeprefix(f"{INDENT}$ "), ""))
            is_shown = True
        elif is_shown and line.startswith(INDENT):
            made[-1] = made[-1][0], f"{made[-1][1]}{line.removeprefix(INDENT)}\n"
        elif is_shown and not line:
            made[-1] = made[-1][0], f"{made[-1][1]}\n"
        else:
            is_shown = False
    return [(command, shown.rstrip("\n")) for command, shown in made]


class Place:
    """A folder with the repository's examples and tools, in which both programs are commands."""

    def __init__(self, path: Path) -> None:
        self.path = path
        bin_directory = path / "bin"
        bin_directory.mkdir()
        shutil.copy(PROGRAM, bin_directory / "si_audit")
        (bin_directory / "si-history").write_text('#!/bin/sh\nexec python3 -m si_history "$@"\n')
        (bin_directory / "si-history").chmod(0o755)
        for name in ("examples", "tools"):
            (path / name).symlink_to(REPOSITORY / name)
        self._environment = {
            **os.environ, "PATH": os.pathsep.join([str(bin_directory), os.environ["PATH"]]), "PYTHONPATH": str(COMPANION),
            "PYTHONDONTWRITEBYTECODE": "1",
        }

    def run(self, command: str) -> subprocess.CompletedProcess[str]:
        """Runs a line of the shell."""
        return subprocess.run(
            ["sh", "-c", command], cwd=self.path, capture_output=True, timeout=LONG_SECONDS, text=True, env=self._environment
        )


@contextmanager
def place() -> Iterator[Place]:
    """A place that is removed at the end."""
    with tempfile.TemporaryDirectory() as directory:
        yield Place(Path(directory))
