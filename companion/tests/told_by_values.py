"""Random runs of a store, told by values: as logs of events and of transactions, and as Jepsen histories."""

from __future__ import annotations

from si_history.history import Event, RangeRead, Read, Write
from tests.random_store import Line, Names, Run, events_log

HEADER: Line = {"values": "unique"}


def value(version: int, key: int) -> int | None:
    """The value that a transaction writes to a key, each time: no other one writes it to that key."""
    return version * 10 + key % 7 if version else None


def value_events_log(run: Run, names: Names) -> list[Line]:
    """The run as a log of events with values."""
    lines = events_log(run, names)
    for line, event in zip(lines, run.events):
        if isinstance(event, Read):
            del line["saw"]
            line["value"] = value(event.saw, event.key)
        elif isinstance(event, RangeRead):
            line["found"] = [[names.keys[key], value(saw, key)] for key, saw in event.listed]
        elif isinstance(event, Write):
            line["value"] = value(event.transaction, event.key)
    return [HEADER, *lines]


def value_transactions_log(run: Run, lines: list[Line], names: Names) -> list[Line]:
    """A log of transactions with values, of the same run as one with writers."""
    made = []
    for line, transaction in zip(lines, run.starts):
        operations = [_operation(event, names) for event in _operations(run, transaction)]
        made.append(line | {"ops": operations})
    return [HEADER, *made]


def _operations(run: Run, transaction: int) -> list[Event]:
    """The reads and writes of a transaction."""
    return [one for one in run.events if one.transaction == transaction and isinstance(one, Read | RangeRead | Write)]


def _operation(event: Event, names: Names) -> list[object]:
    match event:
        case Read(key=key, saw=saw):
            return ["r", names.keys[key], value(saw, key)]
        case RangeRead(low=low, high=high):
            return ["range", names.keys[low], names.keys[high], [[names.keys[key], value(saw, key)] for key, saw in event.listed]]
        case Write(key=key):
            return ["w", names.keys[key], value(event.transaction, key)]
    raise ValueError(f"{event} is neither a read nor a write")


def register_history(run: Run, lines: list[Line]) -> bytes:
    """A Jepsen history of registers, of the same run as a log of transactions. Keys are the run's numbers."""
    return _history(run, lines, {
        transaction: [
            f"[:r {event.key} {value(event.saw, event.key) or 'nil'}]" if isinstance(event, Read)
            else f"[:w {event.key} {value(transaction, event.key)}]"
            for event in _operations(run, transaction) if not isinstance(event, RangeRead)
        ] for transaction in run.starts
    })


def append_history(run: Run, lines: list[Line]) -> bytes:
    """A Jepsen history of lists: a version is the list that the writer's snapshot has, and the writer's own item."""
    lists: dict[tuple[int, int], list[int]] = {}
    done: dict[int, list[str]] = {transaction: [] for transaction in run.starts}
    for event in run.events:
        transaction = event.transaction
        if isinstance(event, Read):
            items = lists.get((event.saw, event.key), [])
            done[transaction].append(f"[:r {event.key} [{' '.join(map(str, items))}]]")
        elif isinstance(event, Write) and (transaction, event.key) not in lists:
            seen = [one for one, place in run.commits.items() if place <= run.starts[transaction] and (one, event.key) in lists]
            below = lists[max(seen, key=run.commits.__getitem__), event.key] if seen else []
            item = value(transaction, event.key)
            assert item is not None
            lists[transaction, event.key] = [*below, item]
            done[transaction].append(f"[:append {event.key} {item}]")
    return _history(run, lines, done)


def _history(run: Run, lines: list[Line], done: dict[int, list[str]]) -> bytes:
    """All invocations, and then what became of them, in the order of the transactions. Transaction n has the index n."""
    invoked = [
        f"{{:process {transaction}, :type :invoke, :f :txn, :value nil, :index {-transaction}}}" for transaction in run.starts
    ]
    ended = []
    for line, transaction in zip(lines, run.starts):
        kind = ":fail" if line["aborted"] else ":ok" if line["commit"] is not None else ":info"
        commit = f", :commit-ts {line['commit']}" if line["commit"] is not None else ""
        ended.append(
            f"{{:process {transaction}, :type {kind}, :f :txn, :value [{' '.join(done[transaction])}], "
            f":index {transaction}, :start-ts {line['start']}{commit}}}"
        )
    return "\n".join([*invoked, *ended, ""]).encode()
