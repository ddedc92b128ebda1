"""The report of an audit for continuous integration: JUnit's XML, a test case a level."""

from __future__ import annotations

import re
from collections.abc import Iterator
from xml.sax.saxutils import escape, quoteattr

from si_history.account import Account
from si_history.audit_text import LEVELS, why
from si_history.audited import Audited
from si_history.report import Report

SUITE = "si-history audit"
ORDER = ("gsi", "si", "serializable", "ssi")
"""What meets a level meets those before it."""
_NO_XML = re.compile("[^\t\n\r\x20-\ud7ff\ue000-\ufffd\U00010000-\U0010ffff]")


def junit_of_audit(audited: Audited, account: Account) -> str:
    """The test cases of an audit. The level that was asked for fails, or those before it; the others are skipped."""
    if audited.report is None or not audited.has_verdict:
        return junit_of_fault(audited.log.source, audited.level, audited.problem or "")
    cases = list(_cases(audited, audited.report, account))
    return _suite(audited.log.source, cases)


def junit_of_fault(source: str, level: str, problem: str) -> str:
    """The test case of a level that there is no verdict about."""
    return _suite(source, [_case(source, level, f"    <error message={_value(problem)}/>\n")])


def _cases(audited: Audited, report: Report, account: Account) -> Iterator[str]:
    asked = ORDER.index(audited.level)
    for at, level in enumerate(ORDER):
        told = "\n".join(told.sentence for told in account.told if level in told.breaks)
        left = account.total - len(account.told)
        more = f"\nAnd {left:,} findings more." if left else ""
        if report.meets(level):
            yield _case(audited.log.source, level, "")
        elif at <= asked and (level != "gsi" or report.tells_snapshots):
            message = _value(why(report, level))
            yield _case(audited.log.source, level, f"    <failure message={message}>{_text(told + more)}</failure>\n")
        else:
            message = _value(f"not asked for: {why(report, level)}" if at > asked else why(report, level))
            yield _case(audited.log.source, level, f"    <skipped message={message}/>\n")


def _suite(source: str, cases: list[str]) -> str:
    counts = {name: sum(f"<{tag}" in case for case in cases) for name, tag in
              (("failures", "failure "), ("errors", "error "), ("skipped", "skipped "))}
    numbers = " ".join(f'{name}="{count}"' for name, count in {"tests": len(cases), **counts}.items())
    head = f'<?xml version="1.0" encoding="UTF-8"?>\n<testsuites {numbers}>\n'
    return f'{head}<testsuite name={_value(f"{SUITE} {source}")} {numbers}>\n{"".join(cases)}</testsuite>\n</testsuites>\n'


def _case(source: str, level: str, inside: str) -> str:
    head = f"  <testcase classname={_value(source)} name={_value(f'{level}: {LEVELS[level]}')}"
    return f"{head}>\n{inside}  </testcase>\n" if inside else f"{head}/>\n"


def _text(text: str) -> str:
    return escape(_NO_XML.sub("\ufffd", text))


def _value(text: str) -> str:
    return quoteattr(_NO_XML.sub("\ufffd", text))
