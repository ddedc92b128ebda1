"""How much memory there is, and how much a program may take."""

from __future__ import annotations

import argparse
import os
import re

UNITS = {"": 1, "K": 1 << 10, "M": 1 << 20, "G": 1 << 30, "T": 1 << 40}
LEAST_LIMIT = 16 << 20
"""With less no program starts."""
LIMITS_OF_THE_GROUP = ("/sys/fs/cgroup/memory.max", "/sys/fs/cgroup/memory/memory.limit_in_bytes")
"""Where Linux tells how much the container may take that this process is in."""


def size_of(word: str) -> int:
    """A number of bytes, as argparse wants it: digits, and K, M, G or T for 1,024 of the one before."""
    found = re.fullmatch("([0-9]{1,15})([KMGT]?)", word.upper())
    if found is None:
        raise argparse.ArgumentTypeError(f"{word!r} is no size such as 512M or 8G")
    size = int(found[1]) * UNITS[found[2]]
    if not LEAST_LIMIT <= size < 1 << 62:
        raise argparse.ArgumentTypeError(f"{word!r} is no size from {in_words(LEAST_LIMIT)} up")
    return size


def in_words(size: int) -> str:
    """A number of bytes, rounded to three digits."""
    for unit, factor in (("GB", 1 << 30), ("MB", 1 << 20), ("KB", 1 << 10)):
        if size >= factor:
            return f"{size / factor:.3g} {unit}"
    return f"{size} bytes"


def memory_limit(programs: int = 1) -> int:
    """What each of so many programs may take: together three quarters of the memory that there is."""
    return max(LEAST_LIMIT, machine_memory() * 3 // 4 // programs)


def machine_memory() -> int:
    """How many bytes of memory the machine has, or the container that this process is in."""
    sizes = [os.sysconf("SC_PHYS_PAGES") * os.sysconf("SC_PAGE_SIZE")]
    for path in LIMITS_OF_THE_GROUP:
        try:
            with open(path, encoding="ascii") as file:
                word = file.read(32).strip()
        except (OSError, ValueError):
            continue
        if word.isdigit():
            sizes.append(int(word))
    return min(sizes)
