"""The command from-transactions: a log of transactions with timestamps becomes a history."""

from __future__ import annotations

import argparse
from collections.abc import Iterable
from typing import BinaryIO

from si_history.conflict import conflict
from si_history.conversion import Conversion, add_log_arguments, run_conversion
from si_history.history import Abort, Begin, Commit, Event
from si_history.legend import PLACED, UNKNOWN, Legend
from si_history.numbering import Numbering, number_keys
from si_history.operations import Operation, WriteOperation
from si_history.outcomes import Sight, settle
from si_history.placing import EventGraph, event_graph, order_of
from si_history.policy import STRICT, Policy, add_value_arguments, add_values_argument, add_writer_argument, policy_of
from si_history.ties import check_ties
from si_history.transactions_log import LogTransaction, TransactionsLog, read_transactions_log
from si_history.versions import Act, find_writers

DESCRIPTION = """\
Reads a log of JSON lines, one transaction a line, with the store's own snapshot
and commit timestamps, and writes it as a history, one event a line. A line is

  {"txn": "T7", "start": 105, "commit": 120, "aborted": false, "ops": [
    ["r", "acct/5", "T2"], ["w", "acct/5"],
    ["range", "acct/1", "acct/9", [["acct/5", "T2"], ["acct/6", null]]]]}

A writer is the name of the transaction that wrote the version seen, or null where
no transaction of the log did. With {"values": "unique"} as the first line, values
stand in the writers' places, and behind the key of a write. A snapshot has the
commits up to its "start" and at it. "commit" is null where the transaction didn't
commit, and "unknown" where nobody knows. At one timestamp several that wrote may
commit only where their order makes no difference. The lines may stand in any
order. docs/RECORDING.md says how to record a store."""

EPILOG = """\
examples:
  si-history from-transactions run.jsonl >run.history && si_audit <run.history
  si-history from-transactions --legend run.legend run.jsonl >run.history
  si-history audit run.jsonl

Where it fails, a file or a pipe ends by the token !incomplete, which si_audit refuses."""


def register(commands: argparse._SubParsersAction[argparse.ArgumentParser]) -> None:
    """Adds the command to the command line."""
    parser = commands.add_parser(
        "from-transactions",
        help="turn a log of transactions with timestamps into a history",
        description=DESCRIPTION,
        epilog=EPILOG,
        formatter_class=argparse.RawDescriptionHelpFormatter,
    )
    add_log_arguments(parser)
    add_values_argument(parser)
    add_writer_argument(parser)
    add_value_arguments(parser)
    parser.set_defaults(run=run)


def run(arguments: argparse.Namespace) -> int:
    """Converts the log that the arguments name."""
    policy = policy_of(arguments)
    return run_conversion(arguments, lambda file: convert(file, policy))


def convert(file: BinaryIO, policy: Policy = STRICT) -> Conversion:
    """The history of a log of transactions, with its legend.

    Transactions are numbered from 1 in the order of the lines. Raises BadInput where the log is bad, and where its events
    can't be put into one order.
    """
    return history_of(read_transactions_log(file, policy), policy)


def history_of(log: TransactionsLog, policy: Policy, sights: Iterable[Sight] = ()) -> Conversion:
    """The history of a log of transactions that is read, with its legend.

    `sights` are what the log tells of transactions of unknown outcome beside its reads.
    """
    stand_ins = _add_stand_ins(log, policy)
    transactions = log.transactions
    numbers = {transaction.name: number for number, transaction in enumerate(transactions, 1)}
    numbering = Numbering(numbers, number_keys(log.tally))
    for placed in settle(transactions, numbering.keys, sights):
        log.tally.count(1, placed.line)
    check_ties(transactions, numbering.keys)
    graph = event_graph(transactions)
    ordered = order_of(graph)
    if len(ordered) < len(graph.owners):
        raise conflict(graph, ordered)
    places = {event: place for place, event in enumerate(ordered, 1)}
    events = [_event_of(event, graph, numbering, places) for event in ordered]
    lines = [graph.transactions[graph.owners[event]].line for event in ordered]
    legend = Legend(numbering.transaction_names(), numbering.key_names(), lines)
    legend.fields |= log.tally.header_fields()
    for number, (transaction, first) in enumerate(zip(transactions, graph.firsts), 1):
        _tell(legend, number, transaction, stand_ins.get(transaction.name))
        legend.fields |= {places[first + index]: others for index, others in transaction.others.items()}
    return Conversion(events, legend, log.tally.warnings())


def _tell(legend: Legend, number: int, transaction: LogTransaction, stand_in: str | None) -> None:
    """Tells the legend what is known of a transaction, of which a stand-in has the kind."""
    if stand_in is not None:
        legend.outcomes[number] = stand_in
        return
    if transaction.is_unknown:
        legend.outcomes[number] = UNKNOWN if transaction.commit is None else PLACED
    start = transaction.start if transaction.has_start else None
    legend.times[number] = start, None if transaction.is_unknown else transaction.commit


def _add_stand_ins(log: TransactionsLog, policy: Policy) -> dict[str, str]:
    """Finds the writers of all versions, adds a transaction for each stand-in, and answers the stand-ins' kinds by name."""
    acts: list[Act] = [
        (transaction.name, transaction.line, operation)
        for transaction in log.transactions for operation in transaction.operations
    ]
    starts = {transaction.name: transaction.start for transaction in log.transactions}
    stand_ins = find_writers(acts, starts, policy, log.tally.by_values, is_in_order=False)
    for one in stand_ins:
        log.tally.count(1 + len(one.keys), one.line)
        writes: list[Operation] = [WriteOperation(key) for key in one.keys]
        log.transactions.append(LogTransaction(one.line, one.name, starts[one.reader], None, False, writes))
    return {one.name: one.kind for one in stand_ins}


def _event_of(event: int, graph: EventGraph, numbering: Numbering, places: dict[int, int]) -> Event:
    """The event of the history; `places` has the place of each event of the graph."""
    position = graph.owners[event]
    transaction, index = graph.transactions[position], event - graph.firsts[position]
    actor = numbering.transactions[transaction.name]
    if index == 0:
        last_seen = graph.last_seen[position]
        return Begin(actor, 0 if last_seen is None else places[last_seen])
    if index <= len(transaction.operations):
        return numbering.event(transaction.name, transaction.operations[index - 1], transaction.line)
    return Abort(actor) if transaction.is_aborted else Commit(actor)
