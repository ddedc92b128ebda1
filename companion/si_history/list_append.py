"""Lists that transactions append to: what a list that was read tells of versions.

The last item of a list names the version that was seen. The items before it are versions too, in their order. So it has to
be a list that the log's transactions can have left behind: each appended its items in its own order, all of them where
others come behind them, and those that committed come by their commits.
"""

from __future__ import annotations

from dataclasses import dataclass, field

from si_history.errors import BadInput, quoted
from si_history.jepsen import JepsenHistory, SeenList
from si_history.keys import Key, shown_key
from si_history.operations import Operation, ReadOperation, WriteOperation
from si_history.outcomes import Sight
from si_history.transactions_log import LogTransaction

SHOWN_ITEMS = 12


@dataclass(slots=True)
class _Group:
    """Items of a list that stand next to each other and were appended by one transaction, or by none."""

    writer: LogTransaction | None
    items: list[Key]

    @property
    def commit(self) -> int | None:
        return None if self.writer is None else self.writer.commit


def check_lists(history: JepsenHistory) -> list[Sight]:
    """Looks at all lists that were read, and answers which transactions of unknown outcome they show beneath others.

    Where a list shows an item beneath others whose transaction aborted, or that nobody appended, a read of that version is
    put before the read of the list. Raises BadInput for a list that the log's transactions can't have left behind.
    """
    lists = _Lists()
    for transaction in history.transactions:
        for operation in transaction.operations:
            if isinstance(operation, WriteOperation):
                lists.writers.setdefault((operation.key, operation.value), transaction)
                lists.items.setdefault((transaction.name, operation.key), []).append(operation.value)
    for seen in history.lists:
        lists.look_at(seen)
    for transaction in history.transactions:
        if transaction.name in lists.readers:
            made: list[Operation] = []
            for operation in transaction.operations:
                made += [*lists.before.get(id(operation), ()), operation]
            history.tally.count(len(made) - len(transaction.operations), transaction.line)
            transaction.operations = made
    return lists.sights


@dataclass(slots=True)
class _Lists:
    """Looks at lists.

    `writers` has the transaction of each key and item, and `items` what it appended to the key. `before` has the reads that
    are put before an operation of one of `readers`, by the operation's identity.
    """

    writers: dict[tuple[Key, Key], LogTransaction] = field(default_factory=dict)
    items: dict[tuple[str, Key], list[Key]] = field(default_factory=dict)
    sights: list[Sight] = field(default_factory=list)
    before: dict[int, list[ReadOperation]] = field(default_factory=dict)
    readers: set[str] = field(default_factory=set)

    def look_at(self, seen: SeenList) -> None:
        """Looks at one list."""
        reader, operation, items = seen
        key = operation.key
        if len(set(items)) < len(items):
            twice = next(item for number, item in enumerate(items) if item in items[:number])
            raise BadInput(f"{_told(reader, key, items)} has {shown_key(twice)} twice", line=reader.line)
        groups = _groups(items, [self.writers.get((key, item)) for item in items])
        for number, group in enumerate(groups, 1):
            if group.writer is not None:
                self._check_items(reader, key, items, group, is_last=number == len(groups))
        _check_order(reader, key, items, groups)
        for number, group in enumerate(groups[:-1]):
            if group.writer is not None and group.writer.is_unknown:
                self.sights.append(_sight(reader, key, groups, number))
            elif group.commit is None:
                self._read_before(seen, groups[-1].writer is reader, group.items[-1])

    def _check_items(self, reader: LogTransaction, key: Key, items: list[Key], group: _Group, is_last: bool) -> None:
        """Refuses a group that isn't what its transaction appended; of the last one some may be missing at the end."""
        assert group.writer is not None
        appended = self.items[group.writer.name, key]
        if group.items != (appended[:len(group.items)] if is_last else appended):
            raise BadInput(
                f"{_told(reader, key, items)} has {_shown(group.items)} of {quoted(group.writer.name)} (line "
                f"{group.writer.line}), which appended {_shown(appended)}",
                line=reader.line,
            )

    def _read_before(self, seen: SeenList, has_own: bool, item: Key) -> None:
        """Puts a read of an item before that of the list, and before the reader's own items where it has any."""
        reader, operation, _ = seen
        firsts = (one for one in reader.operations if isinstance(one, WriteOperation) and one.key == operation.key)
        place = next(firsts, operation) if has_own else operation
        self.before.setdefault(id(place), []).append(ReadOperation(operation.key, None, item))
        self.readers.add(reader.name)


def _groups(items: list[Key], writers: list[LogTransaction | None]) -> list[_Group]:
    """The items of a list by their writers."""
    groups: list[_Group] = []
    for item, writer in zip(items, writers):
        if groups and groups[-1].writer is writer:
            groups[-1].items.append(item)
        else:
            groups.append(_Group(writer, [item]))
    return groups


def _check_order(reader: LogTransaction, key: Key, items: list[Key], groups: list[_Group]) -> None:
    """Refuses a list in which versions don't come by the commits of their transactions, and shows both orders."""
    committed = [(group.commit, group) for group in groups if group.commit is not None]
    ordered = sorted(committed, key=lambda one: one[0])
    if all(one[0] < next_one[0] for one, next_one in zip(committed, committed[1:])):
        return
    by_list, by_commits = (
        ", ".join(f"{_shown(group.items)} at {commit}" for commit, group in order[:SHOWN_ITEMS]) for order in (committed, ordered)
    )
    raise BadInput(
        f"{_told(reader, key, items)} has its versions in another order than their commits: by the list {by_list}, and by the "
        f"commits {by_commits}",
        line=reader.line,
    )


def _sight(reader: LogTransaction, key: Key, groups: list[_Group], number: int) -> Sight:
    """That a transaction of unknown outcome is seen in a list, behind and beneath versions whose commits are known."""
    writer = groups[number].writer
    assert writer is not None
    behind = [group.commit for group in groups[:number] if group.commit is not None]
    beneath = [group.commit for group in groups[number + 1:] if group.commit is not None]
    return Sight(writer, reader, key, behind[-1] if behind else None, beneath[0] if beneath else None)


def _told(reader: LogTransaction, key: Key, items: list[Key]) -> str:
    return f"the list {_shown(items)} of {shown_key(key)} that {quoted(reader.name)} read"


def _shown(items: list[Key]) -> str:
    """Items of a list in a message, the first ones where there are many."""
    shown = " ".join(map(shown_key, items[:SHOWN_ITEMS]))
    return f"[{shown}{' ...' if len(items) > SHOWN_ITEMS else ''}]"
