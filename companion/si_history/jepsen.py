"""A Jepsen history of transactions, read as a log of transactions in which values name versions.

Each client's operation is invoked and later done: `:ok`, `:fail`, or `:info` where nobody knows. What was done stands in the
second map, and in the first one where the second has no value; one that is never done is of unknown outcome too.
"""

from __future__ import annotations

import math
from collections.abc import Iterator
from dataclasses import dataclass, field
from decimal import Decimal
from fractions import Fraction
from typing import NoReturn

from si_history.edn import Form, Keyword, Symbol, Tagged
from si_history.errors import BadInput, quoted
from si_history.keys import Key, NoKey, key_of
from si_history.log_lines import LogTally
from si_history.operations import ReadOperation, WriteOperation
from si_history.transactions_log import LogTransaction, check_commit

INVOKE, OK, FAIL, INFO = ":invoke", ":ok", ":fail", ":info"
REGISTER, APPEND = "rw-register", "list-append"
WRITES = {REGISTER: ":w", APPEND: ":append"}
MOST_DIGITS = 100
KNOWN = {":type", ":f", ":value", ":index"}

# A list that a read saw, with the operation that it is of.
SeenList = tuple[LogTransaction, ReadOperation, list[Key]]


@dataclass(slots=True)
class Times:
    """Which fields of an operation have the store's timestamps."""

    start: str = ":start-ts"
    commit: str = ":commit-ts"


@dataclass(slots=True)
class JepsenHistory:
    """The transactions of a history, in the order in which they were done, and the lists that were read."""

    workload: str | None
    times: Times
    tally: LogTally
    transactions: list[LogTransaction] = field(default_factory=list)
    lists: list[SeenList] = field(default_factory=list)


@dataclass(slots=True)
class _Entry:
    """One map of the history: its line, its number from 0, and its fields."""

    line: int
    number: int
    fields: dict[Form, Form]

    def refuse(self, reason: str) -> NoReturn:
        raise BadInput(reason, line=self.line)


def take(entries: Iterator[tuple[int, Form]], history: JepsenHistory) -> None:
    """Reads the operations of a history. Raises BadInput for what is none, and for what isn't a transaction."""
    waiting: dict[int, _Entry] = {}
    names: dict[str, int] = {}
    for number, (line, form) in enumerate(entries):
        entry = _entry(line, number, form)
        process = entry.fields.get(":process")
        if isinstance(process, Keyword):
            continue
        if type(process) is not int:
            entry.refuse('":process" is neither a whole number nor a keyword such as :nemesis')
        invoked = waiting.pop(process, None)
        if entry.fields.get(":type") == INVOKE:
            if invoked is not None:
                entry.refuse(f"process {process} is not done with what it invoked at line {invoked.line}")
            waiting[process] = entry
        else:
            _add(entry, invoked, history, names)
    for invoked in waiting.values():
        _add(invoked, None, history, names)
    _give_starts(history.transactions)


def _entry(line: int, number: int, form: Form) -> _Entry:
    """A map of the history, which may be a record."""
    fields = form.form if isinstance(form, Tagged) and "." in form.tag else form
    if not isinstance(fields, dict):
        raise BadInput("an operation is a map", line=line)
    entry = _Entry(line, number, fields)
    if isinstance(fields.get(":process"), Keyword):
        return entry
    if fields.get(":type") not in (INVOKE, OK, FAIL, INFO):
        entry.refuse(f'":type" is none of {INVOKE}, {OK}, {FAIL}, {INFO}')
    if fields.get(":f") != ":txn":
        entry.refuse('":f" is not :txn: only histories of transactions can be judged')
    return entry


def _add(entry: _Entry, invoked: _Entry | None, history: JepsenHistory, names: dict[str, int]) -> None:
    """Adds the transaction that an entry ends, or that it invokes and nothing ends."""
    kind, times = entry.fields[":type"], history.times
    index = entry.fields.get(":index", entry.number)
    if type(index) is not int:
        entry.refuse('":index" is no whole number')
    name = f"T{index}"
    if name in names:
        entry.refuse(f"the index {index} is that of line {names[name]}")
    names[name] = entry.line
    start, commit = _time(entry, invoked, times.start), _time(entry, invoked, times.commit)
    made = LogTransaction(entry.line, name, start or 0, commit, kind == FAIL, [], is_unknown=kind not in (OK, FAIL))
    made.has_start = start is not None
    known = KNOWN | {times.start, times.commit}
    made.others[0] = {str(field).removeprefix(":"): _json_of(value) for field, value in entry.fields.items() if field not in known}
    _add_operations(entry, invoked, made, history)
    if kind == OK and commit is None and not made.has_writes():
        made.commit = made.start
    _check_times(entry, made, times)
    history.tally.count(1 + len(made.operations) + (made.commit is not None or made.is_aborted), entry.line)
    history.transactions.append(made)


def _time(entry: _Entry, invoked: _Entry | None, name: str) -> int | None:
    """A timestamp of an operation, if it has it."""
    value = entry.fields.get(name)
    if value is None and invoked is not None:
        value = invoked.fields.get(name)
    value = _json_of(value)
    if value is not None and type(value) is not int:
        entry.refuse(f'"{name}" is no whole number')
    return value


def _check_times(entry: _Entry, made: LogTransaction, times: Times) -> None:
    """Refuses timestamps that no transaction can have, and lacks those that one must have."""
    if entry.fields[":type"] != OK:
        if made.commit is not None:
            entry.refuse(f'it has "{times.commit}", and its type is {entry.fields[":type"]}')
        if not made.has_start and len(made.operations) > sum(isinstance(one, WriteOperation) for one in made.operations):
            entry.refuse(f'"{times.start}" is missing, and it tells what it read')
        return
    if not made.has_start:
        entry.refuse(f'"{times.start}" is missing')
    if made.commit is None:
        entry.refuse(f'"{times.commit}" is missing, and it wrote')
    check_commit(made)


def _add_operations(entry: _Entry, invoked: _Entry | None, made: LogTransaction, history: JepsenHistory) -> None:
    """Adds what a transaction did. Of one that isn't known to have committed, a read of nil is one that didn't come back."""
    value = entry.fields.get(":value")
    if value is None and invoked is not None:
        value = invoked.fields.get(":value")
    if not isinstance(value, list):
        entry.refuse('":value" is no vector of operations')
    is_done = entry.fields[":type"] == OK
    for number, item in enumerate(value, 1):
        if not isinstance(item, list) or len(item) != 3:
            entry.refuse(f"operation {number} is no vector of three, such as [:r key value]")
        kind, key, seen = item
        if kind != ":r":
            _take_workload(entry, number, kind, history)
            made.operations.append(WriteOperation(_key(entry, key, number, history), _value(entry, seen, number)))
        elif seen is not None or is_done:
            made.operations.append(_read(entry, made, number, (key, seen), history))


def _take_workload(entry: _Entry, number: int, kind: Form, history: JepsenHistory) -> None:
    """Refuses an operation that isn't one of the workload, which the first write or list tells where the user doesn't."""
    if history.workload is None:
        history.workload = next((workload for workload, write in WRITES.items() if write == kind), None)
    if history.workload is None or kind != WRITES[history.workload]:
        known = [":r", *(WRITES.values() if history.workload is None else [WRITES[history.workload]])]
        entry.refuse(f"operation {number} is none of {', '.join(known)}: {_shown(kind)}")


def _read(entry: _Entry, made: LogTransaction, number: int, read: tuple[Form, Form], history: JepsenHistory) -> ReadOperation:
    """A read; where it saw a list, the last item names the version."""
    key, seen = read
    operation = ReadOperation(_key(entry, key, number, history), None)
    if history.workload is None and seen is not None:
        history.workload = APPEND if isinstance(seen, list) else REGISTER
    if seen is not None and history.workload == APPEND:
        if not isinstance(seen, list):
            entry.refuse(f"operation {number} saw no list, and the workload is {APPEND}")
        values = [_value(entry, item, number) for item in seen]
        operation.value = values[-1] if values else None
        history.lists.append((made, operation, values))
    elif seen is not None:
        operation.value = _value(entry, seen, number)
    return operation


def _key(entry: _Entry, form: Form, number: int, history: JepsenHistory) -> Key:
    """A key of an operation."""
    key = form if type(form) is int else _scalar(entry, form, f"the key of operation {number}")
    history.tally.keys.setdefault(key, entry.line)
    return key


def _value(entry: _Entry, form: Form, number: int) -> Key:
    """A value of an operation, which isn't nil: that names the version that no transaction wrote."""
    if type(form) is int:
        return form
    if form is None:
        entry.refuse(f"the value of operation {number} is nil, and so names the version that no transaction wrote")
    return _scalar(entry, form, f"the value of operation {number}")


def _scalar(entry: _Entry, form: Form, what: str) -> Key:
    if type(form) is str and form.startswith(":"):
        entry.refuse(f"{what} is a string that reads as a keyword: {quoted(form)}")
    try:
        return key_of(_json_of(form))
    except NoKey as fault:
        entry.refuse(f"{what} {fault}")


def _json_of(form: Form) -> object:
    """A form as JSON has it: keywords and symbols are strings, and a tag leads to its form."""
    if type(form) is int or type(form) is str or form is None:
        return form
    if isinstance(form, Decimal):
        return int(form) if form.adjusted() < MOST_DIGITS and form == form.to_integral_value() else str(form)
    if isinstance(form, Fraction):
        return str(form)
    if isinstance(form, float) and not math.isfinite(form):
        return str(form)
    if isinstance(form, list | tuple):
        return [_json_of(item) for item in form]
    if isinstance(form, frozenset):
        return sorted(map(_json_of, form), key=repr)
    if isinstance(form, dict):
        return {name if isinstance(name, str) else repr(_json_of(name)): _json_of(value) for name, value in form.items()}
    if isinstance(form, Tagged):
        return {f"#{form.tag}": _json_of(form.form)}
    return str(form) if isinstance(form, Symbol | Keyword) else form


def _shown(form: Form) -> str:
    return form if isinstance(form, Keyword) else quoted(str(form))


def _give_starts(transactions: list[LogTransaction]) -> None:
    """Lets those without a start begin as early as any other does: they only wrote, so nothing depends on it."""
    first = min((transaction.start for transaction in transactions if transaction.has_start), default=0)
    for transaction in transactions:
        if not transaction.has_start:
            transaction.start = first
