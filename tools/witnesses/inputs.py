"""The witnesses as they are written down: witnesses/CRATE.txt, whose form witnesses/README.md describes."""

from __future__ import annotations

import re
from collections.abc import Iterator
from dataclasses import dataclass, field
from pathlib import Path

from witnesses.edits import ROOT, digest
from witnesses.fault import Fault

FOLDER = ROOT / "witnesses"
REPEATED = re.compile(r"\{(\d+)(?:\*([^}]*))?\}")
COUNTED = re.compile(r"\{(\d+)\.\.(\d+)\}")
NAME = re.compile(r"[a-z][a-z0-9_]*")
# The module of a crate that has its tests.
TESTS = "tests"


def spelled_out(text: str) -> str:
    """The text, in which {N} stands for N spaces, {N*WORDS} for N times the words, and {N..M} for the numbers from N to M."""
    text = COUNTED.sub(lambda it: " ".join(map(str, range(int(it[1]), int(it[2]) + 1))), text)
    return REPEATED.sub(lambda it: (it[2] or " ") * int(it[1]), text)


@dataclass(frozen=True)
class Text:
    """A history that the program reads, its arguments, and options of `rt try`."""

    text: str
    arguments: tuple[str, ...] = ()
    options: tuple[str, ...] = ()

    def told(self) -> str:
        return "\n".join((self.text, " ".join(self.arguments), " ".join(self.options)))


@dataclass(frozen=True)
class Test:
    """One of the tests of the crate, or of another one, whose name stands before it; and options of `rt try`."""

    name: str
    options: tuple[str, ...] = ()

    @property
    def crate(self) -> str:
        """The crate that the name begins with, or an empty text for the edit's own."""
        first, _, _ = self.name.partition("::")
        return "" if first == TESTS else first

    @property
    def path(self) -> str:
        """The name that the test has in its crate."""
        return self.name.removeprefix(f"{self.crate}::")

    def told(self) -> str:
        return "\n".join((self.name, *self.options))


@dataclass(frozen=True)
class Call:
    """A program that calls the crate, and options of `rt try`."""

    code: str
    options: tuple[str, ...] = ()

    def told(self) -> str:
        return "\n".join((self.code, " ".join(self.options)))


@dataclass(frozen=True)
class Nothing:
    """No input tells, for this reason."""

    reason: str

    def told(self) -> str:
        return self.reason


Input = Text | Test | Call | Nothing


def hash_of(given: Input) -> str:
    return digest(f"{type(given).__name__}\n{given.told()}".encode())


@dataclass
class Section:
    """What stands below the name of an edit, as far as it was read."""

    where: str
    inputs: list[Input] = field(default_factory=list)
    arguments: tuple[str, ...] = ()
    options: tuple[str, ...] = ()

    def add(self, word: str, rest: str, code: list[str]) -> None:
        """One line, and the code below it."""
        if code and word != "call":
            raise Fault(f"{self.where}: code stands below a line '{word}:'")
        if word == "args":
            self.arguments = tuple(spelled_out(rest).split())
        elif word == "try":
            self.options = tuple(rest.split())
        elif word == "text":
            self.inputs.append(Text(rest, self.arguments, self.options))
        elif word == "test":
            self.inputs.append(Test(rest, self.options))
        elif word == "call":
            self.inputs.append(Call("\n".join(code) + "\n", self.options))
        elif word == "nothing":
            self.inputs.append(Nothing(rest))
        else:
            raise Fault(f"{self.where}: there is no line '{word}:'")


def sections(path: Path) -> Iterator[tuple[str, Section]]:
    """The sections of a file, each below the name of its edit."""
    lines = [it.rstrip() for it in path.read_text(encoding="utf-8").splitlines()]
    section: Section | None = None
    at = 0
    while at < len(lines):
        line, number = lines[at], at + 1
        at += 1
        if not line or line.startswith("#"):
            continue
        where = f"{path.name}, line {number}"
        if not line.startswith(" "):
            if not NAME.fullmatch(line):
                raise Fault(f"{where}: {line!r} is no name of an edit")
            section = Section(where)
            yield line, section
            continue
        word, colon, rest = line.strip().partition(":")
        if section is None or not colon:
            raise Fault(f"{where}: a line is 'WORD: ..', below the name of an edit")
        code: list[str] = []
        while at < len(lines) and (lines[at].startswith("    ") or (code and not lines[at])):
            code.append(lines[at][4:])
            at += 1
        while code and not code[-1]:
            code.pop()
        section.where = where
        section.add(word, rest.strip(), code)


def inputs_of(crate: str) -> dict[str, list[Input]]:
    """The inputs of each edit of the crate, by its name."""
    path = FOLDER / f"{crate}.txt"
    if not path.exists():
        return {}
    found: dict[str, list[Input]] = {}
    for name, section in list(sections(path)):
        if name in found:
            raise Fault(f"{path.name}: {name} stands there twice")
        if not section.inputs:
            raise Fault(f"{path.name}: {name} has no input")
        found[name] = section.inputs
    return found
