"""The narrow edges of a small history, by their definition, and where edges lead in steps."""

from collections.abc import Iterator

from oracle.account import RW, WR, WW, Edge
from oracle.trying import History


def looks(history: History, txn: int, key: int) -> list[int]:
    """As of which places a committed transaction looked at a key: 0 for version 0, else the commit of what it saw."""
    saw = {it.saw for it in history.reads() if (it.txn, it.key) == (txn, key) and it.saw != txn}
    return sorted(history.commit(it) if it else 0 for it in saw if it == 0 or it in history.committed)


def narrow_edges_of(history: History, key: int) -> Iterator[Edge]:
    """The narrow edges on one key."""
    versions = {history.commit(it): it for it in history.committed if history.wrote(it, key)}

    def after(place: int) -> list[int]:
        """The version that is the next one after the place, or none."""
        return [versions[it] for it in sorted(versions) if it > place][:1]

    for place, txn in versions.items():
        yield from (Edge(txn, it, WW, key) for it in after(place))
    for txn in history.committed:
        seen = looks(history, txn, key)
        if seen and seen[-1] in versions:
            yield Edge(versions[seen[-1]], txn, WR, key)
        if seen:
            yield from (Edge(txn, it, RW, key) for it in after(seen[0]) if it != txn)


def narrow_edges(history: History) -> set[Edge]:
    """All narrow edges."""
    return {edge for key in history.keys for edge in narrow_edges_of(history, key)}


def closure(edges: set[Edge]) -> set[tuple[int, int]]:
    """From whom to whom one or more of the edges lead."""
    led = {(it.source, it.target) for it in edges}
    while True:
        further = {(t, v) for t, u in led for w, v in led if u == w} - led
        if not further:
            return led
        led |= further
