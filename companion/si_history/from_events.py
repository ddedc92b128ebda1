"""The command from-events: a log of events becomes a history."""

from __future__ import annotations

import argparse
from typing import BinaryIO

from si_history.conversion import Conversion, add_log_arguments, run_conversion
from si_history.errors import BadInput, quoted
from si_history.events_log import BeginRecord, EndRecord, EventsLog, LogEvent, read_events_log
from si_history.history import Abort, Begin, Commit, Event
from si_history.keys import Key, shown_key
from si_history.legend import Legend
from si_history.numbering import Numbering, number_keys
from si_history.operations import WriteOperation, sightings
from si_history.policy import STRICT, Policy, add_value_arguments, add_values_argument, add_writer_argument, policy_of
from si_history.versions import Act, find_writers

DESCRIPTION = """\
Reads a log of JSON lines, one event a line, in the order in which the store
recorded them, and writes it as a history, one event a line. Each line is one of

  {"txn": "T7", "op": "begin", "start": 3}
  {"txn": "T7", "op": "read", "key": "acct/5", "saw": "T2"}
  {"txn": "T7", "op": "range", "from": "acct/1", "to": "acct/9",
   "found": [["acct/5", "T2"], ["acct/6", null]]}
  {"txn": "T7", "op": "write", "key": "acct/5"}
  {"txn": "T7", "op": "commit"}
  {"txn": "T7", "op": "abort"}

"saw" and the second of each pair name the transaction that wrote the version
seen, or are null where no transaction of the log did. "start" is how many of the
log's commits the snapshot has; without it the snapshot is taken right before the
transaction's first event. With {"values": "unique"} as the first line, "value"
stands in the place of "saw" and beside a write, and values in the pairs.
docs/RECORDING.md says how to record a store."""

EPILOG = """\
examples:
  si-history from-events run.jsonl >run.history && si_audit <run.history
  si-history from-events --legend run.legend run.jsonl >run.history
  si-history audit run.jsonl

Where it fails, a file or a pipe ends by the token !incomplete, which si_audit refuses."""


def register(commands: argparse._SubParsersAction[argparse.ArgumentParser]) -> None:
    """Adds the command to the command line."""
    parser = commands.add_parser(
        "from-events",
        help="turn a log of events into a history",
        description=DESCRIPTION,
        epilog=EPILOG,
        formatter_class=argparse.RawDescriptionHelpFormatter,
    )
    add_log_arguments(parser)
    add_values_argument(parser)
    add_writer_argument(parser)
    add_value_arguments(parser)
    parser.set_defaults(run=run)


def run(arguments: argparse.Namespace) -> int:
    """Converts the log that the arguments name."""
    policy = policy_of(arguments)
    return run_conversion(arguments, lambda file: convert(file, policy))


def convert(file: BinaryIO, policy: Policy = STRICT) -> Conversion:
    """The history of a log of events, with its legend. Raises BadInput where the log is bad or an event can't be told."""
    log = read_events_log(file, policy)
    stand_ins = _add_stand_ins(log, policy)
    transactions: dict[str, int] = {}
    for record in log.events:
        if record.transaction not in stand_ins:
            transactions.setdefault(record.transaction, len(transactions) + 1)
    for name in stand_ins:
        transactions[name] = len(transactions) + 1
    numbering = Numbering(transactions, number_keys(log.tally))
    teller = _Teller(numbering, log.first_writes())
    events = [teller.event(record) for record in log.events]
    legend = Legend(numbering.transaction_names(), numbering.key_names(), [record.line for record in log.events])
    legend.outcomes = {transactions[name]: kind for name, kind in stand_ins.items()}
    legend.fields |= log.tally.header_fields()
    legend.fields |= {place: record.others for place, record in enumerate(log.events, 1) if record.others is not None}
    return Conversion(events, legend, log.tally.warnings())


def _add_stand_ins(log: EventsLog, policy: Policy) -> dict[str, str]:
    """Finds the writers of all versions, lets each stand-in write right before it is first seen, and answers their kinds."""
    acts: list[Act] = [
        (record.transaction, record.line, record.action)
        for record in log.events if not isinstance(record.action, BeginRecord | EndRecord)
    ]
    names = {record.transaction for record in log.events}
    stand_ins = find_writers(acts, names, policy, log.tally.by_values, is_in_order=True)
    if stand_ins:
        writes: dict[int, list[LogEvent]] = {}
        for one in stand_ins:
            log.tally.count(len(one.keys), one.line)
            writes.setdefault(one.line, []).extend(LogEvent(one.line, one.name, WriteOperation(key)) for key in one.keys)
        log.events = [event for record in log.events for event in (*writes.get(record.line, ()), record)]
    return {one.name: one.kind for one in stand_ins}


class _Teller:
    """Tells the log's events one after another as those of a history.

    `commit_places[n]` is the place of the n-th commit so far; the 0th is before all events. `first_lines` has the first line
    of each write by transaction and key, and `written` those that came so far.
    """

    def __init__(self, numbering: Numbering, first_lines: dict[tuple[str, Key], int]) -> None:
        self._numbering = numbering
        self._first_lines = first_lines
        self._written: set[tuple[str, Key]] = set()
        self._commit_places = [0]
        self._place = 0

    def event(self, record: LogEvent) -> Event:
        """The event of a line. Raises BadInput for a version that isn't written before it."""
        self._place += 1
        action, actor = record.action, self._numbering.transactions[record.transaction]
        if isinstance(action, BeginRecord):
            return Begin(actor, None if action.commits_seen is None else self._commit_places[action.commits_seen])
        if isinstance(action, EndRecord):
            if action.is_commit:
                self._commit_places.append(self._place)
            return Commit(actor) if action.is_commit else Abort(actor)
        for key, writer in sightings(action):
            if writer is not None and (writer, key) not in self._written:
                raise self._nowhere(record, key, writer)
        if isinstance(action, WriteOperation):
            self._written.add((record.transaction, action.key))
        return self._numbering.event(record.transaction, action, record.line)

    def _nowhere(self, record: LogEvent, key: Key, writer: str) -> BadInput:
        told = f"{quoted(record.transaction)} saw a version of {shown_key(key)} from nowhere: {quoted(writer)} "
        line = self._first_lines.get((writer, key))
        why = "never wrote that key" if line is None else f"wrote that key only at line {line}"
        return BadInput(told + why, line=record.line)
