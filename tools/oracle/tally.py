"""What the texts of a kind came to, so that one can see that they show something."""

import re
from collections import Counter
from collections.abc import Iterator
from dataclasses import dataclass, field

from oracle.account import KINDS, Account
from oracle.explaining import NAMES, WRITE_NAMES
from oracle.reading import MOST_SHOWN, Refusal
from oracle.runs import Case, Form, Line
from oracle.tables import Tables

STEP = re.compile(r"[0-9]+ >(ww|wr|rw):[0-9]+> [0-9]+: (.*)")
RANGE = re.compile(r"r[0-9]+\[[0-9]+\.\.[0-9]+(;[^\]]*)?\]")
STARTS = re.compile(r"transaction ([0-9]+) starts after event ([0-9]+)")
SNAPSHOT = re.compile(r"snapshot ([0-9]+) from ([0-9]+) to [0-9]+")
ASKS = re.compile(r"not without event [0-9]+ c[0-9]+: event [0-9]+ ([rw]).*")
WHERE = re.compile(r"line ([0-9]+), column [0-9]+: (.*)")
COUNTS = re.compile(r"[0-9]+ [a-z ]+(, [0-9]+ [a-z ]+)*")
ESCAPED = re.compile(r"\\x[0-9a-f]{2}")

RANGES = ("range with the pair", "range without it")
COUNTED = ("findings of one name counted", "findings of several names counted")
NOT_WITHOUT = ("not without, by a read", "not without, by a write")
TORN = tuple(f"{it}, {end}" for it in NOT_WITHOUT for end in ("not with", "not after"))
SNAPSHOTS = ("snapshot before the start", "snapshot after the start", "snapshot after the start of a bad write", "in no snapshot", *TORN)
REFUSALS = ("refusal in line 1", "refusal in a later line", "token cut", "token with strange bytes")
REASONS = (
    *NAMES,
    *(f"step {it}" for it in KINDS),
    "step wr by a later version",
    "step rw from a version that was written",
    "dangerous",
    *WRITE_NAMES,
    "allowed under snapshot isolation",
    "forbidden under snapshot isolation",
    *RANGES,
    *COUNTED,
    *SNAPSHOTS,
    *REFUSALS,
)


def shapes_of(explained: bytes) -> Iterator[str]:
    """Which of REASONS the lines of an explained report show."""
    yield from shapes_of_snapshots(explained.decode())
    for line in explained.decode().splitlines():
        if line.startswith("  "):
            yield from shapes_of_reason(line.strip())
        elif line.startswith("dangerous "):
            yield "dangerous"


def shapes_of_snapshots(explained: str) -> Iterator[str]:
    """Which of SNAPSHOTS the lines of an explained report show but for `in no snapshot`. Of each transaction with such a line
    the reasons above it tell the start."""
    starts = dict(STARTS.findall(explained))
    readers = set(re.findall(r"^bad-read [0-9]+ ([0-9]+) ", explained, re.MULTILINE))
    for txn, least in SNAPSHOT.findall(explained):
        is_after = int(least) > int(starts[txn])
        yield SNAPSHOTS[is_after if not is_after or txn in readers else 2]
    lines = explained.splitlines()
    for line, below in zip(lines, lines[1:]):
        if found := ASKS.fullmatch(line.strip()):
            yield f"{NOT_WITHOUT['rw'.index(found[1])]}, {'not after' if below.startswith('  not after ') else 'not with'}"


def shapes_of_reason(line: str) -> Iterator[str]:
    """Which of REASONS a line shows that explains another one."""
    if found := WHERE.fullmatch(line):
        yield REFUSALS[found[1] != "1"]
        shown = ESCAPED.sub("?", found[2])
        yield from [REFUSALS[2]] * (len(shown) == MOST_SHOWN) + [REFUSALS[3]] * (shown != found[2])
        return
    if found := COUNTS.fullmatch(line):
        yield COUNTED[found[1] is not None]
    if found := STEP.fullmatch(line):
        yield f"step {found[1]}"
        versions = len(re.findall(r" w[0-9]+\[", found[2]))
        if found[1] != "ww" and versions > 1:
            yield "step wr by a later version" if found[1] == "wr" else "step rw from a version that was written"
    head = line.partition(":")[0]
    if head in REASONS:
        yield head
    yield from (RANGES[it[1] is None] for it in RANGE.finditer(line))


@dataclass
class Tally:
    """How many texts and runs of each form there were, how many lines of each word, the greatest sizes, and how many
    explained reports show what."""

    texts: int = 0
    forms: Counter[str] = field(default_factory=Counter)
    lines: Counter[str] = field(default_factory=Counter)
    most: Counter[str] = field(default_factory=Counter)
    shapes: Counter[str] = field(default_factory=Counter)

    def reach(self, **sizes: int) -> None:
        self.most |= Counter(sizes)

    def add_run(self, case: Case, line: Line) -> None:
        """Adds a run in which the program wrote what it was to write."""
        self.reach(cuts=len(line.cuts))
        if line.form.is_explained:
            self.forms["explained"] += 1
            self.shapes.update(set(shapes_of(case.explained)))
        else:
            self.forms["brief" if line.form is Form.BRIEF else "full"] += 1

    def add(self, case: Case) -> None:
        """Adds a text."""
        self.texts += 1
        answer: Account | Refusal = case.answer
        lines = [answer.line] if isinstance(answer, Refusal) else answer.lines()
        words = Counter(line.partition(" ")[0] for line in lines)
        self.lines += words
        self.reach(edges=words["edge"])
        if not isinstance(case.events, Refusal):
            tables = Tables(case.events)
            versions = max(map(len, tables.versions.values()), default=0)
            self.reach(committed=len(tables.committed), keys=len(tables.keys), versions=versions)

    def __str__(self) -> str:
        runs = ", ".join(f"{count} {form}" for form, count in sorted(self.forms.items()))
        most = ", ".join(f"{size} {word}" for word, size in self.most.items())
        lines = ", ".join(f"{word} {count}" for word, count in sorted(self.lines.items()))
        shapes = ", ".join(f"{it} {self.shapes[it]}" for it in REASONS)
        first = f"{self.texts} texts in {self.forms.total()} runs alike: {runs}; at most {most}; lines: {lines}"
        return f"{first}; explained reports with: {shapes}"
