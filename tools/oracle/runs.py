"""What is asked of the program, and what it is to answer."""

from dataclasses import dataclass
from enum import Enum
from functools import cached_property
from random import Random

from oracle import explaining
from oracle.account import LEVELS, SERIALIZABLE, Account
from oracle.events import MAX_KEY, Event
from oracle.reading import GREATEST, STANDARD, TOKEN, Limits, Refusal

WORKERS = (1, 2, 3, 7, 64)
REFUSED = 3


class Form(Enum):
    """The forms of the report, by the words that ask for them. Where both words stand the report is explained."""

    FULL = ""
    BRIEF = "--brief"
    EXPLAINED = "--explain"
    BRIEF_EXPLAINED = "--brief --explain"
    EXPLAINED_BRIEF = "--explain --brief"

    @property
    def is_explained(self) -> bool:
        return "--explain" in self.value


# Half of the explained reports are asked for by both words.
EXPLAINED = (Form.EXPLAINED, Form.EXPLAINED, Form.BRIEF_EXPLAINED, Form.EXPLAINED_BRIEF)


@dataclass(frozen=True)
class Line:
    """A command line: how many workers, which cuts, which report, and which level."""

    workers: int
    cuts: list[int]
    form: Form
    level: str

    @property
    def words(self) -> list[str]:
        level = ["--check", self.level] if self.level != SERIALIZABLE else []
        return ["--workers", str(self.workers), *self.form.value.split(), *level, *map(str, self.cuts)]


def command_lines(rng: Random, events: list[Event] | Refusal, is_small: bool) -> list[Line]:
    """The command lines to give. All cuts but the second are at keys of the history. Of the larger texts the first run asks
    for the full report. The last one asks for the explained report."""
    named = [] if isinstance(events, Refusal) else sorted({key for it in events for key in it.keys()})
    workers = (rng.choice(WORKERS),) if is_small else WORKERS
    most = 3 if is_small else 63
    lines = []
    for number in workers:
        cuts = rng.choices(named or [3], k=rng.randint(0, most))
        cuts[1:2] = [rng.randrange(MAX_KEY + 1)] * len(cuts[1:2])
        is_brief = rng.random() < 0.4 and (is_small or bool(lines))
        lines.append(Line(number, cuts, Form.BRIEF if is_brief else Form.FULL, rng.choice(LEVELS)))
    return [*lines, explained_line(rng, lines[-1])]


def explained_line(rng: Random, line: Line) -> Line:
    """A command line that asks for the explained report, with the cuts of another one."""
    return Line(rng.choice(WORKERS), line.cuts, rng.choice(EXPLAINED), rng.choice(LEVELS))


def some_limits(rng: Random, text: bytes) -> Limits:
    """Mostly the standard limits; else some that the text just meets, or misses by one, or the greatest."""
    if rng.random() < 0.7:
        return STANDARD
    events, size = (max(1, count + rng.choice((-1, 0, 1))) for count in (len(TOKEN.findall(text)), len(text)))
    return rng.choice((Limits(events=events), Limits(bytes=size), Limits(events, size), GREATEST))


@dataclass(frozen=True)
class Case:
    """A text, its events, and what the definitions say of them; or in the place of both the text's refusal. The text is read
    under some limits."""

    text: bytes
    events: list[Event] | Refusal
    answer: Account | Refusal
    limits: Limits = STANDARD

    @cached_property
    def explained(self) -> bytes:
        """The explained report."""
        if isinstance(self.events, Refusal) or isinstance(self.answer, Refusal):
            return self.refusal.report(explained=True)
        return explaining.report(self.events, self.answer)

    @property
    def refusal(self) -> Refusal:
        assert isinstance(self.events, Refusal)
        return self.events

    def wanted(self, line: Line) -> tuple[bytes, int]:
        """What the program is to write, and its status."""
        status = REFUSED if isinstance(self.answer, Refusal) else self.answer.status(line.level)
        if line.form.is_explained:
            return self.explained, status
        if isinstance(self.answer, Refusal):
            return self.answer.report(), status
        return self.answer.report(line.form is Form.BRIEF), status
