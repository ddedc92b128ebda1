"""The report of an audit for people: the verdict, the counts, and the findings with where in the log to look."""

from __future__ import annotations

from collections.abc import Iterator, Sequence
from dataclasses import dataclass

from si_history.account import Account, Moment, Told
from si_history.audited import Audited
from si_history.naming import shown
from si_history.report import Counts, ReadName, Report
from si_history.unseen import visible
from si_history.wording import counted

LEVELS = {
    "gsi": "generalized snapshot isolation", "si": "snapshot isolation", "ssi": "serializable snapshot isolation",
    "serializable": "serializability",
}
WIDEST_WORDS = 72
MOST_FIELDS = 3


@dataclass(frozen=True, slots=True)
class Style:
    """How text looks on a terminal. Where it has no colour each of these is the text itself."""

    has_colour: bool = False

    def good(self, text: str) -> str:
        return self._in("1;32", text)

    def bad(self, text: str) -> str:
        return self._in("1;31", text)

    def strong(self, text: str) -> str:
        return self._in("1", text)

    def faint(self, text: str) -> str:
        return self._in("2", text)

    def _in(self, codes: str, text: str) -> str:
        return f"\x1b[{codes}m{text}\x1b[0m" if self.has_colour else text


def text_of_audit(audited: Audited, account: Account, style: Style) -> str:
    """The whole text of an audit that has a verdict."""
    if audited.report is None:
        raise ValueError("without a report there is nothing to tell")
    lines = [
        _verdict(audited, audited.report, style),
        "",
        f"  {_counts(audited.report.counts)}",
        f"  {_answers(audited.report)}",
        *(f"  {line}" for line in _names(account)),
        *_findings(audited, account, style),
    ]
    return "".join(f"{line}\n" for line in lines)


def _verdict(audited: Audited, report: Report, style: Style) -> str:
    meets = audited.outcome.meets
    verdict = style.good("meets") if meets else style.bad("falls short of")
    level = LEVELS[audited.level]
    return f"{visible(audited.log.source)} {verdict} {style.strong(level)} (level {audited.level}): {why(report, audited.level)}."


def why(report: Report, level: str) -> str:
    """What the report says of a level, in words."""
    if level == "gsi":
        return _why_generalized(report)
    kept = f"isolation was {'kept' if report.isolation.holds else 'broken'}"
    if level == "si":
        return kept
    if level == "ssi":
        return f"{kept}, and the ssi test is {'passed' if report.ssi.holds else 'failed'}"
    order = "some serial order explains" if report.serializable.holds else "no serial order explains"
    return f"{kept}, and {order} the committed transactions"


def _why_generalized(report: Report) -> str:
    """What the report says of the level gsi."""
    if not report.tells_snapshots:
        return "the auditor's report does not tell which snapshots would fit"
    if report.torn_count:
        return f"no snapshot fits {counted(report.torn_count, 'transaction')}"
    return "each transaction has a snapshot that fits it"


def _counts(counts: Counts) -> str:
    return (
        f"{counted(counts.events, 'event')}; transactions: {counts.committed:,} committed, {counts.aborted:,} aborted,"
        f" {counts.open:,} without an end"
    )


def _answers(report: Report) -> str:
    """The three answers of the report, as it says them."""
    isolation = f"isolation {'kept' if report.isolation.holds else 'broken'}"
    ssi = f"ssi {'pass' if report.ssi.holds else 'fail'}"
    return f"{isolation}, {ssi}, serializable {'yes' if report.serializable.holds else 'no'}"


def _names(account: Account) -> Iterator[str]:
    """How many findings there are of each name."""
    if not account.counts:
        yield "no finding"
        return
    yield ", ".join(_counted(count, name) for name, count in account.counts.items())
    if account.undecided:
        yield f"{account.undecided:,} undecided, by an outcome that the log does not tell"


def _counted(count: int, name: str) -> str:
    return f"{count:,} own writes missed" if count != 1 and name == ReadName.OWN_WRITE_MISSED.value else counted(count, name)


def _findings(audited: Audited, account: Account, style: Style) -> Iterator[str]:
    is_apart = False
    for number, told in enumerate(account.told, 1):
        if audited.level not in told.breaks and not is_apart:
            is_apart = True
            yield ""
            yield style.strong(f"Also found, for which level {audited.level} does not ask:")
        yield ""
        yield f"{style.strong(f'{number}.')} {told.sentence}"
        if told.is_undecided:
            yield "   It depends on an outcome that the log does not tell."
        yield from (f"   {line}" for line in told.more)
        yield from (f"   {style.faint(line)}" for line in _table(told))
    left = account.total - len(account.told)
    if left > 0:
        yield ""
        yield f"And {counted(left, 'finding')} more: --all tells them all."


def _table(told: Told) -> Iterator[str]:
    """What happened, one thing a line, in the order of the history."""
    names = [moment.transaction for moment in told.moments]
    width = max(map(len, names), default=0)
    words = min(WIDEST_WORDS, max((len(moment.words) for moment in told.moments), default=0))
    for moment in told.moments:
        yield f"{moment.transaction:<{width}}  {moment.words:<{words}}  {where(moment)}".rstrip()
    if len(told.transactions) > len({moment.number for moment in told.moments}):
        yield "and more transactions, of which --json tells all"


def where(moment: Moment) -> str:
    """Where something happened: by the log's lines, operations and timestamps, and by the history's events.

    Where each line of the log is an event, its number says both.
    """
    parts: list[str] = []
    if moment.line is not None:
        parts.append(f"line {moment.line}")
    if moment.operation is not None:
        parts.append(f"operation {moment.operation}")
    if moment.time is not None:
        parts.append(f"timestamp {moment.time}")
    if moment.what != "start" and moment.line != moment.place:
        parts.append(f"event {moment.place}")
    elif moment.what == "start" and moment.line is None:
        parts.append(f"after event {moment.place}" if moment.place else "before all events")
    return ", ".join([*parts, *_fields(moment)])


def _fields(moment: Moment) -> Sequence[str]:
    """What else the log says beside an event, where it is short."""
    told = [f"{shown(name)} {shown(str(value))}" for name, value in moment.fields.items() if isinstance(value, (str, int, float))]
    return told[:MOST_FIELDS]
