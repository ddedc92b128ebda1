"""The log of transactions: one transaction a line, with the store's own snapshot and commit timestamps."""

from __future__ import annotations

from dataclasses import dataclass, field
from typing import BinaryIO

from si_history.errors import BadInput, quoted
from si_history.log_lines import LogLine, LogTally, log_lines
from si_history.operations import Operation, ReadOperation, WriteOperation
from si_history.policy import STRICT, Policy

KNOWN_FIELDS = {"txn", "start", "commit", "aborted", "ops"}
UNKNOWN = "unknown"
WRITER_FORMS = '["r", key, writer], ["w", key] or ["range", from, to, [[key, writer], ..]]'
VALUE_FORMS = '["r", key, value], ["w", key, value] or ["range", from, to, [[key, value], ..]]'
VALUES_HINT = '; values in place of writers need "values": "unique" in a header, or --values unique'


@dataclass(slots=True)
class LogTransaction:
    """One transaction of the log.

    `start` is the timestamp of its snapshot, which has the commits up to it and at it. `commit` is None where it didn't
    commit, or where nobody knows whether it did; of the latter `is_unknown` is true where the log says so. `others` has
    fields that mean nothing here: at 0 those of the transaction, at n those of its n-th operation. `has_start` is false of
    one that only wrote and whose start the log doesn't tell: any start will do for it.
    """

    line: int
    name: str
    start: int
    commit: int | None
    is_aborted: bool
    operations: list[Operation]
    is_unknown: bool = False
    others: dict[int, dict[str, object]] = field(default_factory=dict)
    has_start: bool = True

    def has_writes(self) -> bool:
        """Whether it wrote a key."""
        return any(isinstance(operation, WriteOperation) for operation in self.operations)


@dataclass(slots=True)
class TransactionsLog:
    """A whole log: its transactions in the order of the lines, and what is kept over all lines."""

    transactions: list[LogTransaction]
    tally: LogTally


def read_transactions_log(file: BinaryIO, policy: Policy = STRICT) -> TransactionsLog:
    """Reads a log of transactions. Raises BadInput at the first line that isn't as it has to be."""
    tally = LogTally(limits=policy.limits)
    transactions: list[LogTransaction] = []
    lines: dict[str, int] = {}
    for line in log_lines(file, tally, "transactions", policy):
        transaction = _transaction_of(line)
        if transaction.name in lines:
            line.refuse(f"the transaction {quoted(transaction.name)} is that of line {lines[transaction.name]}")
        lines[transaction.name] = line.number
        _check_times(line, transaction)
        transactions.append(transaction)
    return TransactionsLog(transactions, tally)


def _transaction_of(line: LogLine) -> LogTransaction:
    """What one line tells."""
    others = line.others(KNOWN_FIELDS, KNOWN_FIELDS)
    name = line.name(line.get("txn"), '"txn"')
    start = line.whole(line.get("start"), '"start"')
    commit, is_unknown = _commit_of(line)
    is_aborted = _is_aborted(line, commit is not None or is_unknown)
    items = line.get("ops")
    if not isinstance(items, list):
        line.refuse('"ops" is no list')
    line.tally.count(1 + len(items) + (commit is not None or is_aborted), line.number)
    made = LogTransaction(line.number, name, start, commit, is_aborted, [], is_unknown)
    if others is not None:
        made.others[0] = others
    for number, item in enumerate(items, 1):
        what = f"operation {number}"
        if isinstance(item, list) and item and isinstance(item[-1], dict):
            made.others[number] = item.pop()
        made.operations.append(_operation_of(line, item, what))
    return made


def _commit_of(line: LogLine) -> tuple[int | None, bool]:
    """The timestamp of the commit, if it has one, and whether nobody knows if it committed."""
    value = line.get("commit")
    if value == UNKNOWN:
        return None, True
    if value is not None and type(value) is not int:
        line.refuse(f'"commit" is no whole number, and neither null nor "{UNKNOWN}"')
    return value, False


def _is_aborted(line: LogLine, may_be_left_out: bool) -> bool:
    """Whether it aborted, which goes without saying beside a commit."""
    value = line.fields.get("aborted") if may_be_left_out else line.get("aborted")
    if value is None and may_be_left_out:
        return False
    if not isinstance(value, bool):
        line.refuse('"aborted" is neither true nor false')
    return value


def _operation_of(line: LogLine, item: object, what: str) -> Operation:
    """One entry of the field "ops"."""
    by_values = line.tally.by_values
    match item:
        case ["r", key, seen]:
            if by_values:
                return ReadOperation(line.key(key, f"the key of {what}"), None, line.value(seen, f"the value of {what}"))
            return ReadOperation(line.key(key, f"the key of {what}"), line.writer(seen, f"the writer of {what}"))
        case ["w", key, value] if by_values:
            return WriteOperation(line.key(key, f"the key of {what}"), line.written(value, f"the value of {what}"))
        case ["w", key] if not by_values:
            return WriteOperation(line.key(key, f"the key of {what}"))
        case ["range", low, high, found]:
            whats = (f"the first key of {what}", f"the last key of {what}", f"what {what} found")
            return line.range_of(low, high, found, whats)
        case ["w", _, _]:
            line.refuse(f"{what} is none of {WRITER_FORMS}{VALUES_HINT}")
    line.refuse(f"{what} is none of {VALUE_FORMS if by_values else WRITER_FORMS}")


def _check_times(line: LogLine, transaction: LogTransaction) -> None:
    """Refuses timestamps that no transaction can have."""
    if transaction.is_aborted and (transaction.commit is not None or transaction.is_unknown):
        line.refuse('it has "commit" and is "aborted"')
    check_commit(transaction)


def check_commit(transaction: LogTransaction) -> None:
    """Refuses a commit that comes before the start, or at it where something was written."""
    start, commit = transaction.start, transaction.commit
    if commit is not None and commit < start:
        raise BadInput(f"it committed at {commit}, before its start at {start}", line=transaction.line)
    if commit == start and transaction.has_writes():
        told = f"it wrote and committed at {commit}, which is its start: its own commit can't be in its snapshot"
        raise BadInput(told, line=transaction.line)


def commit_order(transactions: list[LogTransaction]) -> list[int]:
    """The positions of the committed transactions in the list, in the order in which they committed.

    At one timestamp those that wrote come first, and of these the ones whose outcome nobody knew come last. Those that only
    read come after them. Else the order is that of the lines.
    """
    def place(position: int) -> tuple[int, bool, bool, int]:
        transaction = transactions[position]
        return transaction.commit or 0, not transaction.has_writes(), transaction.is_unknown, position

    return sorted((n for n, transaction in enumerate(transactions) if transaction.commit is not None), key=place)
