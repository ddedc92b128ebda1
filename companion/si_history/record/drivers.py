"""The drivers of databases: Python modules that are found, or told how to be had."""

from __future__ import annotations

import importlib
import subprocess
import sys
from collections.abc import Sequence
from typing import Any

from si_history.record.model import StoreFault
from si_history.record.server import INSTALL

SYSTEM_PYTHON = "/usr/bin/python3"
LONGEST_LINE = 300


def load(title: str, names: Sequence[str]) -> Any:
    """The first of some modules that is there. Raises StoreFault, saying what to do, where none is."""
    for name in names:
        try:
            return importlib.import_module(name)
        except ImportError:
            continue
    either = " or ".join(names)
    other = next((name for name in names if _has_module(SYSTEM_PYTHON, name)), None)
    if other is not None and sys.executable != SYSTEM_PYTHON:
        raise StoreFault(f"no driver for {title}: {sys.executable} has no module {either}, but {SYSTEM_PYTHON} has {other}: "
                         f"use {SYSTEM_PYTHON} -m si_history")
    raise StoreFault(f"no driver for {title}: there is no Python module {either}: {INSTALL}")


def _has_module(python: str, name: str) -> bool:
    """Whether another Python has a module."""
    try:
        return subprocess.run([python, "-I", "-c", f"import {name}"], stdin=subprocess.DEVNULL, stdout=subprocess.DEVNULL,
                              stderr=subprocess.DEVNULL, timeout=20, check=False).returncode == 0
    except (OSError, subprocess.TimeoutExpired):
        return False


def quoted(value: str) -> str:
    """A value of PostgreSQL's connection words."""
    return "'" + value.replace("\\", "\\\\").replace("'", "\\'") + "'"


def first_line(fault: Exception) -> str:
    """The first line of what a driver says of a fault."""
    text = str(fault.args[-1]) if fault.args else type(fault).__name__
    return next((line.strip() for line in text.split("\n") if line.strip()), type(fault).__name__)[:LONGEST_LINE]


def broken(title: str, fault: Exception) -> StoreFault:
    """A connection that is lost, by a server that ended, restarted or dropped it."""
    return StoreFault(f"the connection to {title} broke in mid-run; run it again ({first_line(fault)})")


def lock_fault(title: str, seconds: float) -> StoreFault:
    """A lock that wasn't given in time, though every session of the run gives its locks back soon."""
    return StoreFault(f"{title} gave no lock within {seconds:g} seconds: end what else holds locks on the table, or take fewer "
                      "--sessions or a greater --lock-timeout")
