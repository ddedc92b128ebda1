"""The ledger: of each edit what its witness is, and what the code and the edited code answered to it."""

from __future__ import annotations

import json
from dataclasses import asdict, dataclass
from pathlib import Path

from witnesses import inputs
from witnesses.edits import Edit
from witnesses.fault import Fault
from witnesses.inputs import Input, Nothing, hash_of

NAME = "ledger.json"


@dataclass(frozen=True)
class Entry:
    """The hashes of the edit, of the files that it edits and of the witness, and both answers. Where there is no witness
    the answers are empty, and the reason is told."""

    edit: str
    source: str
    witness: str
    real: list[str]
    edited: list[str]
    reason: str = ""

    def fault(self, edit: Edit, found: list[Input]) -> str:
        """Tells why the entry isn't of what is at hand, or answers an empty text."""
        if self.edit != edit.hash:
            return "the edit is another one"
        if self.source != edit.source_hash():
            return "the edited file is another one"
        given = next((it for it in found if hash_of(it) == self.witness), None)
        if given is None:
            return "the witness is another one"
        if isinstance(given, Nothing):
            return "" if self.reason == given.reason else "the reason is another one"
        return "" if self.real and self.edited and self.real != self.edited else "the answers don't differ"


def read(path: Path | None = None) -> dict[str, Entry]:
    """The entries by the titles of their edits."""
    path = path or inputs.FOLDER / NAME
    if not path.exists():
        return {}
    try:
        return {title: Entry(**it) for title, it in json.loads(path.read_text(encoding="utf-8")).items()}
    except (ValueError, TypeError, AttributeError) as why:
        raise Fault(f"{path.name} is no ledger: {why}") from None


def write(entries: dict[str, Entry], path: Path | None = None) -> None:
    """Writes the ledger anew, whole."""
    path = path or inputs.FOLDER / NAME
    text = json.dumps({title: asdict(entries[title]) for title in sorted(entries)}, indent=1, ensure_ascii=False)
    beside = path.with_suffix(".new")
    beside.write_text(text + "\n", encoding="utf-8")
    beside.replace(path)
