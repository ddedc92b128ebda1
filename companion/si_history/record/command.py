"""The command record: runs transactions against a database and writes what it recorded."""

from __future__ import annotations

import argparse
import io
import os
from collections.abc import Callable, Iterator
from contextlib import AbstractContextManager, ExitStack, contextmanager
from functools import partial

from si_history import from_events
from si_history.errors import BadInput
from si_history.files import OUTPUT_DEVICE, STANDARD_OUTPUT, check_output, read_text, write_output
from si_history.history import text_of
from si_history.limits import STANDARD
from si_history.record import mariadb, postgres, signals
from si_history.record.driver import Settings, run as run_transactions, watched
from si_history.record.kinds import KINDS
from si_history.record.local import Choice, Kind, Opened
from si_history.record.log import events_log, transactions_log
from si_history.record.model import Recorded, Store, Timeline
from si_history.record.options import MOST_SESSIONS, add_common, add_local, add_served
from si_history.record.script import Script, read_script
from si_history.record.workloads import Rows, Workload, rows_at_first

DESCRIPTION_ALL = """\
Runs transactions against a store and writes what they read and wrote, with the
store's own order of snapshots and commits. Each store is started in a temporary
directory, without a network port, and is stopped and removed at the end.
docs/DATABASES.md says what the record is worth, and why."""

DESCRIPTION = """\
Runs transactions against a database and writes what they read and wrote, with the
database's own order of snapshots and commits. It starts a server of its own in a
temporary directory, on a socket there and without a network port, and stops and
removes it at the end. With --connect it uses a server that runs already, and makes
and removes a table of its own there. docs/DATABASES.md says what the record is
worth, and why."""

DESCRIPTION_LOCAL = """\
Runs transactions against a store and writes what they read and wrote. The store is
started in a temporary directory, and stopped and removed at the end. One thread
drives all sessions, one statement after another, so that its order is the store's
and a seed repeats the run. docs/DATABASES.md says what the record is worth."""

EPILOG_LOCAL = """\
examples:
  si-history record {0} --events 2000 >run.jsonl
  si-history record {0} --format history -o run.history && si_audit <run.history
  echo 'r1[0:0] w2[0] c2 r1[0:0] c1' | si-history record {0} --script - --format history"""

EPILOG_POSTGRES = """\
examples:
  si-history record postgres --transactions 500 >run.jsonl
  si-history record postgres --level serializable --format history | si_audit
  si-history record postgres --connect "host=/run/postgresql dbname=test" -o run.jsonl

It needs a PostgreSQL server (13 or later) and Python's module psycopg2 or psycopg:
tools/install_databases.sh installs Debian's."""

EPILOG_MARIADB = """\
examples:
  si-history record mariadb --transactions 500 >run.jsonl
  si-history record mariadb --snapshot-isolation on --format history | si_audit
  si-history record mariadb --connect "socket=/run/mysqld/mysqld.sock user=me
      database=test" -o run.jsonl

It needs a MariaDB server (10.6.18, 10.11.8 or later; with --connect one that keeps a
binary log) and Python's module pymysql: tools/install_databases.sh installs Debian's.
The words of --connect are host, port, socket, user, password and database."""

LEVELS = {"repeatable read": "REPEATABLE READ", "serializable": "SERIALIZABLE"}
DEFAULT_TRANSACTIONS = 300
# How much longer than for a lock the recorder waits for an answer of the store.
MORE_SECONDS = 20.0

Open = Callable[[argparse.Namespace], AbstractContextManager[Opened]]


def register(commands: argparse._SubParsersAction[argparse.ArgumentParser]) -> None:
    """Adds the command to the command line, with a command of its own for each database."""
    parser = commands.add_parser("record", help="run transactions against a store, and record them",
                                 description=DESCRIPTION_ALL, formatter_class=argparse.RawDescriptionHelpFormatter)
    databases = parser.add_subparsers(metavar="DATABASE", required=True)
    one = _add(databases, "postgres", postgres.TITLE, DESCRIPTION, EPILOG_POSTGRES, open_postgres)
    one.add_argument("--level", choices=sorted(LEVELS), default="repeatable read", help="the isolation level (repeatable read)")
    other = _add(databases, "mariadb", mariadb.TITLE, DESCRIPTION, EPILOG_MARIADB, open_mariadb)
    other.add_argument("--snapshot-isolation", choices=["off", "on"], default="off",
                       help="the setting innodb_snapshot_isolation, at the level repeatable read (off, as it is by default)")
    for served in (one, other):
        add_common(served, Workload.MIX)
        add_served(served)
    for kind in KINDS:
        local = _add(databases, kind.name, kind.title, DESCRIPTION_LOCAL, EPILOG_LOCAL.format(kind.name),
                     partial(open_local, kind))
        add_common(local, Workload.GENERAL)
        add_local(local, kind)


def _add(databases: argparse._SubParsersAction[argparse.ArgumentParser], name: str, title: str, description: str, epilog: str,
         open_store: Open) -> argparse.ArgumentParser:
    """Adds the command of one database."""
    parser = databases.add_parser(name, help=f"record {title}", description=description, epilog=epilog,
                                  formatter_class=argparse.RawDescriptionHelpFormatter)
    parser.set_defaults(run=run, open_store=open_store)
    return parser


def run(arguments: argparse.Namespace) -> int:
    """Records a run and writes it. Raises BadInput where that can't be done; then nothing is written."""
    if arguments.legend is not None and arguments.format != "history":
        raise BadInput("--legend goes with --format history: a log has the names itself")
    check_output(arguments.output, [arguments.script])
    check_output(arguments.legend, [arguments.script, OUTPUT_DEVICE if arguments.output is None else arguments.output])
    script = None if arguments.script is None else _script(arguments.script)
    with signals.met():
        if arguments.tell_version:
            text, legend = version(arguments) + "\n", ""
        else:
            records, timeline = record(arguments, script)
            text, legend = _written(arguments.format, records, timeline)
    if arguments.legend is not None:
        write_output(legend, arguments.legend)
    write_output(text, STANDARD_OUTPUT if arguments.output is None else arguments.output)
    return 0


def _script(path: str) -> Script:
    """The script of a file. Raises BadInput where it is none, or takes more sessions than there can be."""
    script = read_script(read_text(path, STANDARD.bytes))
    if script.sessions > MOST_SESSIONS:
        raise BadInput(f"the script takes {script.sessions} sessions, and the most are {MOST_SESSIONS}")
    return script


def version(arguments: argparse.Namespace) -> str:
    """The version of the store of the arguments."""
    told: list[str] = []
    with arguments.open_store(arguments) as (store, look):
        watched([lambda: told.append(store.version())], look, lambda: 0, 3 * MORE_SECONDS)
    return told[0]


def record(arguments: argparse.Namespace, script: Script | None = None) -> tuple[list[Recorded], Timeline]:
    """Runs the transactions against the store of the arguments, and answers what was recorded."""
    settings = _settings(arguments)
    patience = arguments.lock_timeout + MORE_SECONDS
    timelines: list[Timeline] = []

    def alone(job: Callable[[], None], look: Callable[[], None]) -> None:
        watched([job], look, lambda: 0, 3 * patience)

    keys = rows_at_first(range(settings.keys) if script is None else script.keys, Rows(arguments.rows))
    opened: AbstractContextManager[Opened] = arguments.open_store(arguments)
    with opened as (store, look), ExitStack() as stack:
        if arguments.connect is not None:
            stack.push(lambda kind, *_: _remove(lambda: alone(store.remove, look), is_faulty=kind is not None))
        alone(lambda: store.prepare(keys), look)
        records = run_transactions(store, settings, look, patience, script)
        alone(lambda: timelines.append(store.timeline(records)), look)
    return records, timelines[0]


def _settings(arguments: argparse.Namespace) -> Settings:
    """What is run."""
    count = DEFAULT_TRANSACTIONS if arguments.transactions is None and arguments.events is None else arguments.transactions
    return Settings(Workload(arguments.workload), arguments.keys, arguments.sessions, arguments.seed, _is_interleaved(arguments),
                    count, arguments.events, arguments.notes == "begins")


def _is_interleaved(arguments: argparse.Namespace) -> bool:
    """Whether one thread drives all sessions."""
    if arguments.script is not None:
        return True
    return bool(arguments.interleave) if "interleave" in arguments else not arguments.threads


def _remove(job: Callable[[], None], is_faulty: bool) -> None:
    """Takes the table of --connect away again. Where there is a fault already, that one is told, and none of this."""
    with signals.held():
        try:
            job()
        except BadInput:
            if not is_faulty:
                raise


@contextmanager
def open_postgres(arguments: argparse.Namespace) -> Iterator[Opened]:
    """A store in a PostgreSQL server: one of its own, or that of --connect."""
    def store(words: str) -> Store:
        return postgres.PostgresStore(words, LEVELS[arguments.level], arguments.lock_timeout, not _is_interleaved(arguments), _table())

    if arguments.connect is not None:
        yield store(arguments.connect), _nothing
        return
    with postgres.started() as (server, words):
        yield store(words), server.look


@contextmanager
def open_mariadb(arguments: argparse.Namespace) -> Iterator[Opened]:
    """A store in a MariaDB server: one of its own, or that of --connect."""
    def store(words: dict[str, object]) -> Store:
        return mariadb.MariadbStore(words, arguments.snapshot_isolation.upper(), arguments.lock_timeout,
                                    not _is_interleaved(arguments), _table())

    if arguments.connect is not None:
        yield store(mariadb.words_of(arguments.connect)), _nothing
        return
    with mariadb.started() as (server, words):
        yield store(words), server.look


@contextmanager
def open_local(kind: Kind, arguments: argparse.Namespace) -> Iterator[Opened]:
    """A store in a folder of the recorder's own."""
    with kind.opened(Choice(arguments.level, frozenset(arguments.settings), arguments.tables)) as opened:
        yield opened


def _nothing() -> None:
    """What can be seen of a server that isn't one's own."""


def _table() -> str:
    """A name that no other table has."""
    return f"si_history_{os.getpid()}_{os.urandom(4).hex()}"


def _written(form: str, records: list[Recorded], timeline: Timeline) -> tuple[str, str]:
    """The text of the output, and the legend of a history."""
    if form == "transactions":
        return transactions_log(records, timeline), ""
    log = events_log(records, timeline)
    if form == "events":
        return log, ""
    conversion = from_events.convert(io.BytesIO(log.encode()))
    text = text_of(conversion.events)
    return text, conversion.legend.to_json(text.encode())
