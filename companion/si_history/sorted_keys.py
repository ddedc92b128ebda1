"""Keys in their order, to which single ones are added."""

from __future__ import annotations

from bisect import bisect_left, insort
from collections.abc import Iterator

MOST_IN_RUN = 2_000


class SortedKeys:
    """Different keys, ascending, in short runs, so that one more moves few others."""

    def __init__(self) -> None:
        self._firsts: list[int] = []
        self._runs: list[list[int]] = []

    def add(self, key: int) -> None:
        """Adds a key that isn't there."""
        if not self._runs:
            self._firsts, self._runs = [key], [[key]]
            return
        at = self._run_of(key)
        run = self._runs[at]
        insort(run, key)
        if len(run) > MOST_IN_RUN:
            self._runs[at : at + 1] = run[: MOST_IN_RUN // 2], run[MOST_IN_RUN // 2 :]
            self._firsts.insert(at + 1, self._runs[at + 1][0])
        self._firsts[at] = self._runs[at][0]

    def within(self, low: int, high: int) -> Iterator[int]:
        """The keys from `low` to `high`, both included."""
        for at in range(self._run_of(low), len(self._runs)):
            run = self._runs[at]
            for index in range(bisect_left(run, low), len(run)):
                if run[index] > high:
                    return
                yield run[index]

    def _run_of(self, key: int) -> int:
        """The run in which a key stands, or would stand."""
        at = bisect_left(self._firsts, key)
        is_first = at < len(self._firsts) and self._firsts[at] == key
        return at if is_first else max(0, at - 1)
