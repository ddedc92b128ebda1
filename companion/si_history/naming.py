"""What transactions, keys and places are called: as the log calls them, or by their numbers where there is no legend.

Names come from logs, so they can hold anything. A name that could be misread is *shown* as a JSON string.
"""

from __future__ import annotations

import json
import re
from collections.abc import Iterable

from si_history.errors import BadInput, in_source
from si_history.files import read_text, source_name
from si_history.legend import Legend
from si_history.unseen import is_unmistakable

LONGEST_FIELD = 60
MAX_LEGEND_BYTES = 1 << 28
_WORDS_OF_REPORTS = {"0", "in", "out", "first", "saw", "due", "line", "undecided"}
"""Words and the version 0 that stand beside names in a report with names."""
_MISREAD = re.compile(r'[\s"\\<>]')
_SIGNS_OF_EVENTS = re.compile(r"[\[\]:;,()]|\.\.")


def shown(name: str) -> str:
    """A name as one word that can't be taken for anything else.

    It is the name itself, or a JSON string where the name is empty, is a word of the report, or holds a space, a quote, a
    backslash, an angle bracket or anything that can't be seen. Where something can't be seen, or another name may look the
    same, all that isn't ASCII is escaped.
    """
    if not is_unmistakable(name):
        return json.dumps(name)
    if not name or name in _WORDS_OF_REPORTS or _MISREAD.search(name):
        return json.dumps(name, ensure_ascii=False)
    return name


def tight(name: str) -> str:
    """A shown name as it stands in an event, as in `r7f3a[acct/5:T2]`: a JSON string also where it holds a sign of these."""
    return json.dumps(name, ensure_ascii=False) if _SIGNS_OF_EVENTS.search(name) and not name.startswith('"') else name



class Names:
    """The shown names of what stands in a history. Raises BadInput for what the legend has no name for."""

    def __init__(self, legend: Legend | None = None) -> None:
        self._legend = legend
        self._transactions = _Table("transaction", None if legend is None else legend.transactions)
        self._keys = _Table("key", None if legend is None else legend.keys)

    @classmethod
    def from_path(cls, path: str | None) -> Names:
        """Names by the legend in a file, or numbers where no file is given. Raises BadInput where it is no legend."""
        if path is None:
            return cls()
        with in_source(source_name(path)):
            return cls(Legend.from_json(read_text(path, MAX_LEGEND_BYTES)))

    @property
    def has_legend(self) -> bool:
        return self._legend is not None

    def transaction(self, number: int) -> str:
        return self._transactions[number]

    def key(self, number: int) -> str:
        return self._keys[number]

    def line(self, place: int) -> int | None:
        """The line of the log from which the event at this place came. None without a legend."""
        if self._legend is None:
            return None
        line = self._legend.line(place)
        if line is None:
            raise BadInput(f"the legend has no line for event {place}")
        return line

    def place(self, place: int) -> str:
        """A place in words: the number of the event, and its line in the log where that is known."""
        line = self.line(place)
        return f"event {place}" if line is None else f"event {place} (line {line} of the log)"

    def event(self, place: int) -> str:
        """A place in a line that explains: as `place`, but shorter. Place 0, before all events, is on no line."""
        line = self.line(place) if place else None
        return f"event {place}" if line is None else f"event {place} (line {line})"

    def beside(self, place: int) -> str:
        """What else the log says beside an event, in words, each cut where it is long. Empty where it says nothing else."""
        fields = {} if self._legend is None else self._legend.fields.get(place, {})
        said = ((name, shown(value) if isinstance(value, str) else json.dumps(value)) for name, value in fields.items())
        return ", ".join(f"{shown(name)} {_cut(words)}" for name, words in said)

    def is_undecided(self, transactions: Iterable[int]) -> bool:
        """Whether a finding about these transactions depends on an outcome that the log doesn't tell."""
        return self._legend is not None and self._legend.is_undecided(transactions)

    def check_history(self, history: bytes) -> None:
        """Raises BadInput where the legend was written with another history than the one with this text."""
        if self._legend is not None:
            self._legend.check(history)


def _cut(text: str) -> str:
    return text if len(text) <= LONGEST_FIELD else f"{text[:LONGEST_FIELD]}..."


class _Table(dict[int, str]):
    """Shown names by number, each made when it is first asked for."""

    def __init__(self, what: str, names: dict[int, str] | None) -> None:
        super().__init__()
        self._what = what
        self._names = names

    def __missing__(self, number: int) -> str:
        name = str(number) if self._names is None else self._names.get(number)
        if name is None:
            raise BadInput(f"the legend has no name for {self._what} {number}")
        self[number] = name if self._names is None else shown(name)
        return self[number]
