"""Says why the events of a transactions log can't be put into one order: a line for the user."""

from __future__ import annotations

from collections import deque

from si_history.errors import BadInput, quoted
from si_history.keys import shown_key
from si_history.operations import WriteOperation
from si_history.placing import EventGraph, Why

# How many steps of a long explanation are told at its front and at its end.
FIRST_STEPS = 3
LAST_STEPS = 2


def conflict(graph: EventGraph, placed: list[int]) -> BadInput:
    """Names a reader and the writer of what it saw, whose write can't come before the read, and why.

    `placed` has the events that could be placed, and some could not. So those left have a cycle. Begins stand after
    commits that the snapshot has, and commits by their timestamps; these rules alone make no cycle. So each cycle has a
    read and the write that it waits for.
    """
    left = set(range(len(graph.owners))) - set(placed)
    write, read = _read_of_a_cycle(graph, left)
    path = _shortest_path(graph, left, read, write)
    reader, writer = (graph.transactions[graph.owners[event]] for event in (read, write))
    key = _key_of_write(graph, write)
    steps = ["after this read", *_cut(_steps(graph, path)), f"and only then did {quoted(writer.name)} write it"]
    return BadInput(
        f"{quoted(reader.name)} saw the version of {key} that {quoted(writer.name)} (line {writer.line}) wrote, and that "
        f"write can't be put before the read: {', '.join(steps)}",
        line=reader.line,
    )


def _read_of_a_cycle(graph: EventGraph, left: set[int]) -> tuple[int, int]:
    """A write, and a read that waits for it, next to each other on one cycle."""
    before: dict[int, tuple[int, Why]] = {}
    for event in sorted(left, reverse=True):
        for follower, why in graph.after[event]:
            before[follower] = (event, why)
    # Each event that is left waits for another one that is left, so a walk back comes to a cycle.
    walk: dict[int, None] = {}
    event = min(left)
    while event not in walk:
        walk[event] = None
        event = before[event][0]
    steps = list(walk)
    cycle = steps[steps.index(event):]
    read = next(event for event in cycle if before[event][1] is Why.VERSION)
    return before[read][0], read


def _shortest_path(graph: EventGraph, left: set[int], first: int, last: int) -> list[tuple[int, int, Why]]:
    """The edges of a shortest path from one event to another, among the events that are left."""
    came: dict[int, tuple[int, Why]] = {}
    waiting = deque([first])
    while last not in came:
        event = waiting.popleft()
        for follower, why in graph.after[event]:
            if follower in left and follower not in came:
                came[follower] = (event, why)
                waiting.append(follower)
    path: list[tuple[int, int, Why]] = []
    event = last
    while event != first:
        before, why = came[event]
        path.append((before, event, why))
        event = before
    return path[::-1]


def _steps(graph: EventGraph, path: list[tuple[int, int, Why]]) -> list[str]:
    """The edges of a path in words, without those that each transaction's own order gives."""
    steps: list[str] = []
    committed: int | None = None
    for before, after, why in path:
        one, other = (graph.transactions[graph.owners[event]] for event in (before, after))
        if why is Why.VERSION:
            steps.append(f"{quoted(other.name)} saw the version of {_key_of_write(graph, before)} that {quoted(one.name)} wrote")
        elif why is Why.COMMIT_ORDER:
            committed = graph.owners[before] if committed is None else committed
        elif why is Why.SNAPSHOT:
            first = one if committed is None else graph.transactions[committed]
            steps.append(f"{quoted(first.name)} committed at {first.commit}")
            steps.append(f"{quoted(other.name)} started at {other.start}")
            committed = None
    return steps


def _cut(steps: list[str]) -> list[str]:
    """The same steps, with a count for the middle ones where there are many."""
    if len(steps) <= FIRST_STEPS + LAST_STEPS + 1:
        return steps
    left_out = len(steps) - FIRST_STEPS - LAST_STEPS
    return [*steps[:FIRST_STEPS], f"and so on for {left_out:,} steps", *steps[-LAST_STEPS:]]


def _key_of_write(graph: EventGraph, event: int) -> str:
    """The key that an event writes, as it is shown."""
    position = graph.owners[event]
    operation = graph.transactions[position].operations[event - graph.firsts[position] - 1]
    assert isinstance(operation, WriteOperation)
    return shown_key(operation.key)
