"""The wrong edits of the crates, and copies of the repository with one of them applied."""

from __future__ import annotations

import hashlib
import shutil
from collections.abc import Iterator
from dataclasses import dataclass
from pathlib import Path

from witnesses.fault import Fault

ROOT = Path(__file__).resolve().parents[2]
# What a copy needs, so that the kit finds the crates; and what of a crate it doesn't, since nothing is proved.
LISTS = ("crates.txt", "HANDLES")
LEFT_OUT = ("out", "must-fail", "proofs", "specs")


def digest(content: bytes) -> str:
    """The hash that the ledger keeps."""
    return hashlib.sha256(content).hexdigest()[:32]


@dataclass(frozen=True)
class Change:
    """In this file of the crate the old text, which stands there once, gives way to the new one."""

    file: str
    old: str
    new: str


@dataclass(frozen=True)
class Edit:
    crate: str
    name: str
    text: bytes

    @property
    def title(self) -> str:
        return f"{self.crate}/{self.name}"

    @property
    def hash(self) -> str:
        """The hash of what it changes."""
        return digest("\0".join(part for it in self.changes() for part in (it.file, it.old, it.new)).encode())

    def changes(self) -> Iterator[Change]:
        """What the lines `file:`, `old:` and `new:` say."""
        file = old = ""
        for line in self.text.decode().splitlines():
            word, _, rest = line.partition(": ")
            if word == "file":
                file = rest
            elif word == "old":
                old = rest
            elif word == "new":
                yield Change(file, old, rest)

    def source_hash(self) -> str:
        """The hash of the files that it edits, as they are."""
        files = sorted({it.file for it in self.changes()})
        try:
            return digest(b"\0".join((ROOT / "crates" / self.crate / it).read_bytes() for it in files))
        except OSError as why:
            raise Fault(f"{self.title}: {why}") from None

    def apply(self, room: Path) -> None:
        """Edits the copy in the room."""
        for change in self.changes():
            path = room / "crates" / self.crate / change.file
            source = path.read_text(encoding="utf-8")
            if source.count(change.old) != 1:
                raise Fault(f"{self.title}: {change.file} has the old text {source.count(change.old)} times")
            path.write_text(source.replace(change.old, change.new), encoding="utf-8")


def edits() -> list[Edit]:
    """All edits, in the order of their titles."""
    paths = sorted((ROOT / "crates").glob("*/must-fail/*.edit"))
    return [Edit(it.parent.parent.name, it.stem, it.read_bytes()) for it in paths]


def copy_into(room: Path) -> None:
    """Copies the code of the crates into the room."""
    shutil.copytree(ROOT / "crates", room / "crates", ignore=shutil.ignore_patterns(*LEFT_OUT))
    for name in LISTS:
        shutil.copy(ROOT / name, room / name)
