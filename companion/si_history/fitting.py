"""Which snapshots would fit a transaction that its start doesn't fit, in sentences."""

from __future__ import annotations

from collections.abc import Iterator

from si_history.history import Event, RangeRead, Read
from si_history.report import Placed, Reason, Role, Snapshot
from si_history.wording import Wording


def told_snapshot(snapshot: Snapshot, say: Wording) -> Iterator[str]:
    """Which snapshots would fit, or that none would, and why."""
    who = say.transaction(snapshot.transaction)
    if snapshot.fitting is None:
        yield f"No snapshot would fit {who}."
        for reason in snapshot.reasons:
            yield _why(reason, say)
        return
    first, last = (f"after {say.place(count)}" if count else "before all events" for count in snapshot.fitting)
    if first == last:
        yield f"A snapshot that was taken {first} would fit {who}."
    else:
        yield f"A snapshot that was taken from {first} to {last} would fit {who}."


def _why(reason: Reason, say: Wording) -> str:
    """A reason why no snapshot would fit."""
    placed = [part for part in reason.parts if isinstance(part, Placed)]
    last = placed[-1]
    did = f"its {_noun(last.event)} at {say.place(last.place)}"
    if reason.head is Role.IN_NO_SNAPSHOT:
        return f"No snapshot has what it saw at {say.place(last.place)}."
    if reason.head is Role.NOT_AFTER:
        return f"It would have to be taken before {did}, the first thing that it did."
    commit = f"the commit of {say.transaction(placed[0].event.transaction)} at {say.place(placed[0].place)}"
    if reason.head is Role.NOT_WITHOUT:
        return f"It would have to have {commit}: {did} asks for that."
    return f"It would have to be without {commit}: {did} excludes that."


def _noun(event: Event) -> str:
    return "read" if isinstance(event, (Read, RangeRead)) else "write"
