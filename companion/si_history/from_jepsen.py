"""The command from-jepsen: a Jepsen history becomes a history for the auditor."""

from __future__ import annotations

import argparse
from typing import BinaryIO

from si_history.conversion import Conversion, add_log_arguments, run_conversion
from si_history.edn import forms
from si_history.errors import BadInput
from si_history.from_transactions import history_of
from si_history.jepsen import APPEND, REGISTER, JepsenHistory, Times, take
from si_history.list_append import check_lists
from si_history.log_lines import LogTally, most_bytes
from si_history.policy import STRICT, Policy, add_value_arguments, policy_of
from si_history.transactions_log import TransactionsLog

DESCRIPTION = """\
Reads a Jepsen history of the workload rw-register or list-append, in EDN, whose
operations have the store's own timestamps, and writes it as a history, one event a
line. An operation is a map, in a vector of all or by itself:

  {:process 0, :type :invoke, :f :txn, :value [[:r 5 nil] [:append 5 2]], :index 6}
  {:process 0, :type :ok, :f :txn, :value [[:r 5 [1]] [:append 5 2]], :index 7,
   :start-ts 105, :commit-ts 120}

Each value is written to a key by one transaction at most, so that it names its
writer. A transaction is named by the index of the operation that ends it, as T7.
Of :info nobody knows whether it committed: it did where another one read its
version. The order of the items of a list has to be that of the commits.
docs/RECORDING.md says how to record a store."""

EPILOG = """\
examples:
  si-history from-jepsen history.edn >run.history
  si-history from-jepsen --start-ts :snapshot --commit-ts :ts --legend run.legend history.edn >run.history"""


def register(commands: argparse._SubParsersAction[argparse.ArgumentParser]) -> None:
    """Adds the command to the command line."""
    parser = commands.add_parser(
        "from-jepsen",
        help="turn a Jepsen history with timestamps into a history",
        description=DESCRIPTION,
        epilog=EPILOG,
        formatter_class=argparse.RawDescriptionHelpFormatter,
    )
    add_log_arguments(parser)
    parser.add_argument("--workload", choices=(REGISTER, APPEND), help="the workload (default: what the operations tell)")
    for option, what in (("--start-ts", "snapshot"), ("--commit-ts", "commit")):
        parser.add_argument(option, metavar="NAME", default=f":{option[2:]}", help=f"the field with the timestamp of the {what}")
    add_value_arguments(parser)
    parser.set_defaults(run=run)


def run(arguments: argparse.Namespace) -> int:
    """Converts the history that the arguments name."""
    times = Times(*(f":{name.removeprefix(':')}" for name in (arguments.start_ts, arguments.commit_ts)))
    policy = policy_of(arguments)
    return run_conversion(arguments, lambda file: convert(file, policy, arguments.workload, times))


def convert(file: BinaryIO, policy: Policy = STRICT, workload: str | None = None, times: Times | None = None) -> Conversion:
    """The history of a Jepsen history, with its legend. Raises BadInput where it is none, or can't be told."""
    most = most_bytes(policy.limits)
    content = file.read(most + 1)
    if len(content) > most:
        line = content.count(b"\n", 0, most) + 1
        raise BadInput(f"log too long: the limit of bytes of a log is {most:,}", line=line)
    try:
        text = content.decode("utf-8")
    except UnicodeDecodeError as fault:
        raise BadInput("not UTF-8", line=content.count(b"\n", 0, fault.start) + 1) from None
    history = JepsenHistory(workload, times or Times(), LogTally(by_values=True, limits=policy.limits))
    take(forms(text), history)
    sights = check_lists(history) if history.workload == APPEND else []
    return history_of(TransactionsLog(history.transactions, history.tally), policy, sights)
