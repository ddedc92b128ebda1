"""The page of a report: one HTML document with the verdict in words, the findings, and pictures of them."""

from __future__ import annotations

from collections.abc import Iterator, Sequence
from dataclasses import dataclass
from html import escape
from importlib.resources import files

from si_history import timeline
from si_history.facts import Facts
from si_history.findings import Finding, Group
from si_history.naming import Names
from si_history.page_policy import with_policy
from si_history.pictures import Pictures, left_out
from si_history.report import Order, Report
from si_history.scene import Scene
from si_history.wording import counted

MOST_OF_ORDER = 200
UNDECIDED = "It depends on an outcome that the log does not tell."


@dataclass(frozen=True, slots=True)
class Statement:
    """One of the report's three answers, in words."""

    is_good: bool
    words: str
    meaning: str


def html(name: str, report: Report, facts: Facts, groups: Sequence[Group], names: Names) -> str:
    """The whole document. It loads nothing. `name` is what the history is called."""
    title = escape(f"Audit of {name}")
    return with_policy("\n".join([
        "<!DOCTYPE html>",
        '<html lang="en">',
        "<head>",
        '<meta charset="utf-8">',
        '<meta name="viewport" content="width=device-width, initial-scale=1">',
        '<meta name="color-scheme" content="light dark">',
        f"<title>{title}</title>",
        f"<style>\n{_asset('page.css')}{timeline.style()}</style>",
        "</head>",
        "<body>",
        f"<header><h1>{title}</h1><p>{escape(_counts(report))}</p></header>",
        "<main>",
        *_verdict(report),
        *_found(groups, names, Pictures(facts, groups, names)),
        *_order(report, names),
        "</main>",
        "<footer><p>All verdicts and findings are those of si_audit's report. This page adds where in the history to look,"
        " and judges nothing.</p></footer>",
        f"<script>\n{_asset('page.js')}</script>",
        "</body>",
        "</html>",
    ]) + "\n")


def picture(report: Report, scene: Scene) -> str:
    """One picture by itself, as an SVG image."""
    return timeline.svg(scene, "Timeline of the history", _picture_in_words(report, scene))


def _asset(name: str) -> str:
    return files(__package__).joinpath(name).read_text("utf-8")


def _counts(report: Report) -> str:
    counts = report.counts
    transactions = counts.committed + counts.aborted + counts.open
    fates = f"{counts.committed:,} committed, {counts.aborted:,} aborted, {counts.open:,} open"
    return f"{counted(counts.events, 'event')} of {counted(transactions, 'transaction')}: {fates}."


def statements_of(report: Report) -> list[Statement]:
    """The verdict in words. Where isolation was broken it tells besides whether some snapshots would fit."""
    generalized = [] if report.isolation.holds or not report.tells_snapshots else [_generalized(report)]
    return [_isolation(report), *generalized, _serializable(report), _ssi(report)]


def _isolation(report: Report) -> Statement:
    if report.isolation.holds:
        meaning = "Each read saw the version that was due, and no two overlapping transactions that committed wrote one key."
        return Statement(True, "Snapshot isolation was kept", meaning)
    reads = len(report.bad_reads) + report.count_left_out("bad-read")
    counts = ((reads, "bad read"), (len(report.bad_writes) + report.count_left_out("bad-write"), "bad write"))
    found = " and ".join(counted(count, noun) for count, noun in counts if count)
    return Statement(False, "Snapshot isolation was broken", f"Found: {found}." if found else "")


def _generalized(report: Report) -> Statement:
    if not report.torn_count:
        meaning = "Each transaction has a snapshot that would fit it, taken before its first read or write."
        return Statement(True, "Generalized snapshot isolation was kept", meaning)
    meaning = f"There is no snapshot that would fit {counted(report.torn_count, 'transaction')}, taken before the first read or write."
    return Statement(False, "Generalized snapshot isolation was broken", meaning)


def _serializable(report: Report) -> Statement:
    if report.serializable.holds:
        return Statement(True, "The history is serializable", "Some serial order of the committed transactions explains it.")
    why = []
    if report.cycle:
        why.append(f"a cycle of {counted(len(report.cycle.steps), 'transaction')} rules every order out")
    if report.unexplained:
        unexplained = len(report.unexplained) + report.count_left_out("unexplained")
        why.append(f"{counted(unexplained, 'read')} can't be explained by any order")
    reason = " and ".join(why)
    return Statement(False, "The history is not serializable", f"{reason[:1].upper()}{reason[1:]}." if reason else "")


def _ssi(report: Report) -> Statement:
    if report.ssi.holds:
        meaning = "Isolation was kept, and no dangerous structure has its last transaction commit first."
        return Statement(True, "The ssi test passes", meaning)
    why = "Isolation was broken" if not report.isolation.holds else "In a dangerous structure the last transaction committed first"
    return Statement(False, "The ssi test fails", f"{why}. A history can be serializable all the same.")


def _verdict(report: Report) -> Iterator[str]:
    yield '<section aria-labelledby="verdict"><h2 id="verdict">Verdict</h2><ul class="verdict">'
    for statement in statements_of(report):
        look, sign = ("good", "✓") if statement.is_good else ("bad", "✕")
        yield (
            f'<li class="{look}"><span class="sign" aria-hidden="true">{sign}</span>'
            f"<div><strong>{escape(statement.words)}.</strong> <span>{escape(statement.meaning)}</span></div></li>"
        )
    yield "</ul></section>"


def _found(groups: Sequence[Group], names: Names, pictures: Pictures) -> Iterator[str]:
    """The findings as lists, one for each kind, and beside them the picture of the one that is chosen: of the first."""
    findings = [finding for group in groups for finding in group.findings]
    yield '<div class="sides">'
    yield '<section class="findings" aria-labelledby="findings"><h2 id="findings">Findings</h2>'
    if not findings:
        yield "<p>The report has no finding.</p>"
    elif len(findings) > 1:
        yield '<p class="hint">Choose one to see its transactions alone.</p>'
    number = 0
    for group in groups:
        yield from _group(group, number, names)
        number += len(group.findings)
    yield "</section>"
    yield from _pictured(findings, pictures)
    yield "</div>"


def _group(group: Group, number: int, names: Names) -> Iterator[str]:
    """The findings of a kind; `number` is how many of other kinds went before."""
    count = f' <span class="count">{group.count:,}</span>' if group.count > 1 else ""
    yield f"<h3>{group.kind.value}{count}</h3><ol>"
    for at, finding in enumerate(group.findings, number):
        yield (
            f'<li><button type="button" class="finding" aria-pressed="{"true" if at == 0 else "false"}" data-picture="picture-{at}"'
            f' data-transactions="{" ".join(map(str, finding.transactions))}" data-places="{" ".join(map(str, finding.places))}">'
            f"{escape(finding.title)}</button>"
        )
        reasons = [*finding.reasons, *([UNDECIDED] if names.is_undecided(finding.deciding) else [])]
        yield "<ul>" + "".join(f"<li>{escape(reason)}</li>" for reason in reasons) + "</ul></li>"
    yield "</ol>"
    if group.count > len(group.findings):
        yield f'<p class="hint">And {group.count - len(group.findings):,} more, which the report has.</p>'


def _pictured(findings: Sequence[Finding], pictures: Pictures) -> Iterator[str]:
    """The picture of the first finding, and in templates, which cost nothing until they are asked for, all others."""
    yield '<section class="pictured" aria-labelledby="timeline"><h2 id="timeline">Timeline</h2>'
    if findings:
        yield '<p class="tools"><button type="button" id="whole" aria-pressed="false" hidden>The whole timeline</button>'
        yield '<span id="said" role="status">The first finding\'s transactions alone.</span></p>'
    first = pictures.of(findings[0]) if findings else pictures.whole()
    yield '<div id="view" class="view" tabindex="0" role="region" aria-label="Timeline, scrolls">' + first + "</div>"
    for at, finding in enumerate(findings[1:], 1):
        yield f'<template id="picture-{at}">{pictures.of(finding)}</template>'
    if findings:
        yield f'<template id="picture-whole">{pictures.whole()}</template>'
    yield "</section>"


def _order(report: Report, names: Names) -> Iterator[str]:
    """The order that the report has in place of a cycle."""
    if not isinstance(report.outcome, Order) or not report.outcome.transactions:
        return
    order = report.outcome.transactions
    words = ", ".join(map(names.transaction, order[:MOST_OF_ORDER]))
    more = f" and {len(order) - MOST_OF_ORDER:,} more" if len(order) > MOST_OF_ORDER else ""
    explains = "This serial order explains the history" if report.serializable.holds else "This order keeps every edge"
    yield f'<section aria-labelledby="order"><h2 id="order">Order</h2><p>{explains}: {escape(words)}{more}.</p></section>'


def _picture_in_words(report: Report, scene: Scene) -> str:
    """The picture for who can't see it."""
    verdict = [f"{statement.words}." for statement in statements_of(report)]
    lanes = [f"A lane for transaction {lane.name}, {lane.fate.value}." for lane in scene.lanes]
    arrows = [f"An arrow: {arrow.words}." for arrow in scene.arrows]
    return " ".join([*verdict, *lanes, *arrows, *left_out(scene)])
