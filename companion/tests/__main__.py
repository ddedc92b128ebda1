"""Runs the tests, and tells which kinds were left out.

    PYTHONPATH=companion python3 -m tests [SHARE/SHARES]

With 2/4 it runs those of every fourth module, from the second on.
"""

from __future__ import annotations

import re
import sys
import unittest
from collections.abc import Sequence
from pathlib import Path

HERE = Path(__file__).resolve().parent


def modules(share: int, shares: int) -> list[str]:
    """The names of the modules with tests of a share."""
    return [f"tests.{it.stem}" for it in sorted(HERE.glob("test_*.py"))][share - 1 :: shares]


def main(words: Sequence[str]) -> int:
    found = re.fullmatch(r"([1-9]\d*)/([1-9]\d*)", "".join(words) or "1/1")
    if not found or int(found[1]) > int(found[2]):
        print(__doc__, end="", file=sys.stderr)
        return 2
    suite = unittest.defaultTestLoader.loadTestsFromNames(modules(int(found[1]), int(found[2])))
    result = unittest.TextTestRunner().run(suite)
    for reason in sorted({reason for _, reason in result.skipped}):
        print(reason)
    return 0 if result.testsRun and result.wasSuccessful() else 1


if __name__ == "__main__":
    sys.exit(main(sys.argv[1:]))
