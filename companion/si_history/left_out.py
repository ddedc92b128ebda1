"""Findings of a report that are counted by their names and not kept, since there can be millions of them.

Their lines are looked at by their form alone, which is much faster than to read them.
"""

from __future__ import annotations

import re
from collections import Counter

from si_history.reasons import is_remark
from si_history.report import BOUNDS, ReadName, Role
from si_history.report_words import Malformed, short

NAMES = {"bad-read": "bad read", "bad-write": "bad write", "unexplained": "unexplained read"}
"""What findings are called whose lines begin with these words. A bad read that is explained has a name of its own."""
_NUMBER = "(?:0|[1-9][0-9]{0,19})"
_FORMS = {
    head: re.compile(form.replace("#", _NUMBER))
    for head, form in (
        ("bad-read", "bad-read # # # saw # due #"), ("bad-write", "bad-write # # #"), ("unexplained", "unexplained # # # #"),
        ("snapshot", "snapshot # (?:none|from # to #)"),
    )
}
_PLACED = rf"event {_NUMBER} [a-z]{_NUMBER}(?:\[[0-9:.;,]*\])?"
_PART = f"(?:transaction {_NUMBER} starts after event {_NUMBER}|{_PLACED}(?:, {_PLACED})?)"
_ROLES = "|".join(role.value for role in Role if role not in BOUNDS)
_REASON = re.compile(
    f"(?:({'|'.join(name.value for name in ReadName)})|{_ROLES}): {_PART}(?:; {_PART})*"
    f"|not with(?:out)? {_PLACED}: {_PLACED}|not after {_PLACED}"
)


class LeftOut:
    """Counts findings by the first word of their lines, and by their names. A snapshot's is `from` or `none`."""

    def __init__(self) -> None:
        self.counts: Counter[tuple[str, str]] = Counter()
        self._head = ""
        self._is_named = False

    def take(self, head: str, line: str) -> None:
        """Counts the finding of a line. Raises Malformed where it has not the form of such a line."""
        if not _FORMS[head].fullmatch(line):
            raise Malformed(f"a line '{head} ..' is wanted, and {short(line)} is none")
        self._head, self._is_named = head, head != "bad-read"
        self.counts[head, NAMES.get(head) or line.split(" ")[2]] += 1

    def explain(self, line: str) -> None:
        """Looks at a line below the last finding, which may name it. Raises Malformed where no report has such a line."""
        found = _REASON.fullmatch(line)
        if found is None and not is_remark(line):
            raise Malformed(f"no report explains a finding by the line {short(line)}")
        name = line.partition(": ")[0] if found is None else found[1]
        if name is not None and not self._is_named:
            self._is_named = True
            self.counts[self._head, NAMES[self._head]] -= 1
            self.counts[self._head, name] += 1
