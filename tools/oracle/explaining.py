"""The explained report: what stands below the lines of the brief one, as docs/FORMAT.md words it.

The findings are those of an account. Each answer that is asked for here goes over all events of the history again: there is
no table of them, and no search. Only why no snapshot fits a transaction is told from tables.
"""

from collections.abc import Iterable, Iterator

from oracle.account import RW, WR, WW, Account, BadRead, BadWrite, Edge, bytes_of, last_line
from oracle.events import Event, Form
from oracle.snapshots import Deeds, asked_for, deeds_of, excluded, never_due
from oracle.tables import Tables
from oracle.trying import History

NAMES = ("own write missed", "aborted read", "uncommitted read", "future read", "phantom", "stale read")
WRITE_NAMES = (LOST_UPDATE, WRITE_CONFLICT) = ("lost update", "write conflict")
ALLOWED = "allowed under snapshot isolation: two rw steps between overlapping transactions follow one another"
FORBIDDEN = "forbidden under snapshot isolation: no two rw steps between overlapping transactions follow one another"
(OWN_WRITE_MISSED, ABORTED_READ, UNCOMMITTED_READ, FUTURE_READ, PHANTOM, STALE_READ) = NAMES


def report(events: list[Event], account: Account) -> bytes:
    """The explained report of a history with this account, byte for byte."""
    return bytes_of(Explanation(events, account).lines())


def spelled(event: Event, key: int | None) -> str:
    """An event as its token, of whose listed pairs only that of the key is left, and none where no key is given."""
    if event.form is Form.RANGE:
        pairs = "".join(f";{it}:{saw}" for it, saw in event.pairs if it == key)
        return f"r{event.txn}[{event.lo}..{event.hi}{pairs}]"
    return {
        Form.READ: f"r{event.txn}[{event.key}:{event.saw}]",
        Form.WRITE: f"w{event.txn}[{event.key}]",
        Form.COMMIT: f"c{event.txn}",
        Form.ABORT: f"a{event.txn}",
    }[event.form]


def with_reasons(line: str, reasons: Iterable[str]) -> Iterator[str]:
    """A line, and what explains it below."""
    yield line
    yield from (f"  {it}" for it in reasons)


class Explanation(History):
    """A history with its account, and what explains the account's findings."""

    def __init__(self, events: list[Event], account: Account) -> None:
        super().__init__(events)
        self.account = account
        # What `version` answered, since it is asked for the same version again and again.
        self.versions: dict[tuple[int, int], str] = {}

    def lines(self) -> Iterator[str]:
        """The lines of the explained report."""
        account = self.account
        bad_reads = {(it.place, it.key): it for it in account.bad_reads}
        yield from account.head()
        yield from self.count_lines()
        for read in account.bad_reads:
            yield from with_reasons(read.line, self.read_reasons(read))
        for write in account.bad_writes:
            yield from with_reasons(write.line, [self.write_reason(write)])
        for lost in account.unexplained:
            yield from with_reasons(lost.line, self.read_reasons(bad_reads[lost.place, lost.key]))
        yield from self.snapshot_lines()
        yield account.ssi_line
        if account.is_kept and not account.passes:
            yield from self.structure_lines()
        yield account.serializable_line
        yield from with_reasons(last_line(account), self.cycle_reasons())

    def count_lines(self) -> Iterator[str]:
        """How many findings have each name."""
        names = [self.name(it) for it in self.account.bad_reads] + [self.write_name(it) for it in self.account.bad_writes]
        if names:
            yield "  " + ", ".join(f"{names.count(it)} {it}" for it in (*NAMES, *WRITE_NAMES) if it in names)

    def told(self, place: int, key: int | None = None) -> str:
        """The event at a place, as far as it is about the key."""
        return f"event {place} {spelled(self.at[place], key)}"

    def version(self, txn: int, key: int) -> str:
        """Where the transaction first wrote the key, and its end if it has one."""
        if (txn, key) not in self.versions:
            writes = [place for place, it in self.at.items() if it.form is Form.WRITE and (it.txn, it.key) == (txn, key)]
            ends = [place for place, it in self.at.items() if it.form in (Form.COMMIT, Form.ABORT) and it.txn == txn]
            self.versions[txn, key] = ", ".join(self.told(place, key) for place in [min(writes), *ends])
        return self.versions[txn, key]

    def start_told(self, txn: int) -> str:
        return f"transaction {txn} starts after event {self.start(txn)}"

    def name(self, read: BadRead) -> str:
        """The name of a bad read: the first one that fits."""
        event, is_committed = self.at[read.place], read.saw in self.committed
        fits = {
            OWN_WRITE_MISSED: read.due == read.txn,
            ABORTED_READ: read.saw in self.aborted,
            UNCOMMITTED_READ: read.saw not in (0, *self.committed, *self.aborted),
            FUTURE_READ: is_committed and self.commit(read.saw) > self.start(read.txn),
            PHANTOM: event.form is Form.RANGE and read.key not in dict(event.pairs) and read.due != 0,
            STALE_READ: (read.saw == 0 or is_committed) and read.due in self.committed and self.is_earlier(read.saw, read.due),
        }
        return next(name for name in NAMES if fits[name])

    def read_reasons(self, read: BadRead) -> Iterator[str]:
        """What stands below a bad read, and below an unexplained one at its place and key."""
        yield f"{self.name(read)}: {self.told(read.place, read.key)}; {self.start_told(read.txn)}"
        if read.saw != 0:
            yield f"saw: {self.version(read.saw, read.key)}"
        if read.due != 0:
            yield f"due: {self.version(read.due, read.key)}"

    def losses(self, write: BadWrite) -> Iterator[int]:
        """Where the second writer saw a version before the first one's, and had not yet written the key."""
        for place, event in self.at.items():
            if event.txn == write.second and event.form is Form.WRITE and event.key == write.key:
                return
            saw = event.sees(write.key) if event.txn == write.second else None
            if saw == 0 or (saw in self.committed and self.is_earlier(saw, write.first)):
                yield place

    def write_name(self, write: BadWrite) -> str:
        return LOST_UPDATE if any(self.losses(write)) else WRITE_CONFLICT

    def write_reason(self, write: BadWrite) -> str:
        """What stands below a bad write."""
        lost = (self.told(place, write.key) for place in list(self.losses(write))[:1])
        versions = (self.version(it, write.key) for it in (write.first, write.second))
        return "; ".join([f"{self.write_name(write)}: {self.start_told(write.second)}", *lost, *versions])

    def snapshot_lines(self) -> Iterator[str]:
        """The lines of the transactions that their starts don't fit. Where none fits, two events say why, or one read."""
        if self.account.snapshots:
            tables = Tables(list(self.at.values()))
            deeds = deeds_of(tables)
            for it in self.account.snapshots:
                reasons = self.torn(tables, it.txn, deeds[it.txn]) if it.fitting is None else ()
                yield from with_reasons(it.line, reasons)

    def torn(self, tables: Tables, txn: int, deeds: Deeds) -> Iterator[str]:
        """Why no snapshot fits a transaction."""
        never = never_due(tables, txn, deeds)
        if never is not None:
            yield f"in no snapshot: {self.told(never.place, never.key)}"
            return
        asked, not_had = asked_for(tables, txn, deeds), excluded(tables, txn, deeds)
        yield f"not without {self.told(asked.commit)}: {self.told(asked.place, asked.key)}"
        if not_had is None:
            yield f"not after {self.told(deeds.before)}"
        else:
            yield f"not with {self.told(not_had.commit)}: {self.told(not_had.place, not_had.key)}"

    def cycle_reasons(self) -> Iterator[str]:
        """What stands below the last line: the steps of a cycle, and whether snapshot isolation allows it."""
        cycle = self.account.cycle
        yield from map(self.step, cycle)
        if cycle:
            are_rw = [it.kind == RW and self.overlap(it.source, it.target) for it in cycle]
            yield ALLOWED if any(map(all, zip(are_rw, [*are_rw[1:], are_rw[0]]))) else FORBIDDEN

    def step(self, edge: Edge) -> str:
        """What explains a step from one transaction to another."""
        return f"{edge.source} {edge.arrow} {edge.target}: {'; '.join(self.events_of(edge))}"

    def events_of(self, edge: Edge) -> Iterator[str]:
        """The events by which an edge is there."""
        if edge.kind != RW:
            yield self.version(edge.source, edge.key)
        if edge.kind != WW:
            place, saw = self.first_sight(edge)
            yield self.told(place, edge.key)
            if saw not in (0, edge.source):
                yield self.version(saw, edge.key)
        if edge.kind != WR:
            yield self.version(edge.target, edge.key)

    def first_sight(self, edge: Edge) -> tuple[int, int]:
        """The first place at which the reader of a wr or rw edge saw a version that makes the edge, and that version."""
        reader = edge.target if edge.kind == WR else edge.source
        sights = ((place, it.sees(edge.key)) for place, it in self.at.items() if it.txn == reader)
        return next((place, saw) for place, saw in sights if saw is not None and self.makes(edge, reader, saw))

    def makes(self, edge: Edge, reader: int, saw: int) -> bool:
        """Whether the edge is there since the reader saw this version of the key."""
        if saw == reader or saw not in (0, *self.committed):
            return False
        if edge.kind == RW:
            return self.is_earlier(saw, edge.target)
        return saw != 0 and (saw == edge.source or self.is_earlier(edge.source, saw))

    def structure_lines(self) -> Iterator[str]:
        """The line of a dangerous structure whose last transaction commits first, and what explains its two steps."""
        pivot = min((it for it in self.account.pivots if it.firsts), key=lambda it: it.txn)
        last = min(pivot.firsts)
        first = min(it for it in pivot.ins if it == last or self.commit(last) < self.commit(it))
        steps = [self.least_rw(first, pivot.txn), self.least_rw(pivot.txn, last)]
        line = f"dangerous {first} {steps[0].arrow} {pivot.txn} {steps[1].arrow} {last}"
        yield from with_reasons(line, map(self.step, steps))

    def least_rw(self, source: int, target: int) -> Edge:
        """The rw edge from one transaction to another with the least key."""
        return min(it for it in self.account.edges if it[:3] == (source, target, RW))
