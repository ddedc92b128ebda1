"""The versions that ended transactions of a long history wrote: which was due to a snapshot, and which came after it."""

from __future__ import annotations

from collections.abc import Iterable, Iterator

from si_history.sorted_keys import SortedKeys


class PastVersions:
    """Of each key the writers that committed, in the order of their commits, and the others, each with the place of its end."""

    def __init__(self) -> None:
        self._committed: dict[int, dict[int, int]] = {}
        self._lost: dict[int, dict[int, int]] = {}
        self._keys = SortedKeys()

    def commit(self, writer: int, keys: Iterable[int], place: int) -> None:
        """Takes what a transaction wrote that committed at the place, which is behind all commits before."""
        for key in keys:
            versions = self._committed.get(key)
            if versions is None:
                self._committed[key] = {writer: place}
                self._keys.add(key)
            else:
                versions[writer] = place

    def lose(self, writer: int, keys: Iterable[int], place: int) -> None:
        """Takes what a transaction wrote that aborted at the place, or had its last event there."""
        for key in keys:
            self._lost.setdefault(key, {})[writer] = place

    def end_of(self, key: int, writer: int) -> int | None:
        """The place where a writer of the key ended, or None where it didn't write it or hasn't ended."""
        end = self._committed.get(key, {}).get(writer)
        return self._lost.get(key, {}).get(writer) if end is None else end

    def due(self, key: int, start: int) -> int:
        """The writer of the version that a snapshot taken at the start has."""
        versions = self._committed.get(key)
        if versions is not None:
            for writer in reversed(versions):
                if versions[writer] <= start:
                    return writer
        return 0

    def since(self, key: int, start: int) -> Iterator[int]:
        """The writers of the key that committed after the start."""
        versions = self._committed.get(key)
        if versions is not None:
            for writer in reversed(versions):
                if versions[writer] <= start:
                    return
                yield writer

    def keys_within(self, low: int, high: int) -> Iterator[int]:
        """The keys of a range of which a version was committed."""
        return self._keys.within(low, high)
