"""Makes and checks the ledger of the edits' witnesses.

    PYTHONPATH=tools python3 -m witnesses check PROGRAM    the ledger is of the edits, files and witnesses at hand, and the
                                                           program answers the texts among these as it has them
    PYTHONPATH=tools python3 -m witnesses try PROGRAM N    checks it, and tries N of its entries, other ones for each commit
    PYTHONPATH=tools python3 -m witnesses make PROGRAM [all | TITLE..]
                                                           tries what check finds wrong, or all, or these, and keeps it

PROGRAM is made of the sources at hand. The last line is 'N passed, M failed'.
"""

from __future__ import annotations

import hashlib
import shutil
import subprocess
import sys
import time
from collections.abc import Callable, Sequence
from concurrent.futures import ThreadPoolExecutor, as_completed

from witnesses import inputs, ledger
from witnesses.edits import ROOT, edits
from witnesses.fault import Fault
from witnesses.inputs import Input, inputs_of
from witnesses.ledger import Entry
from witnesses.making import OTHERWISE, entry_of, fault_of_program

# An edit is compiled on a processor and a half, and takes a gigabyte.
AT_ONCE = 2


class Known:
    """The edits with their inputs, and the ledger."""

    def __init__(self) -> None:
        self.edits = {it.title: it for it in edits()}
        crates = {it.crate for it in self.edits.values()} | {it.stem for it in inputs.FOLDER.glob("*.txt")}
        self.inputs: dict[str, list[Input]] = {
            f"{crate}/{name}": them for crate in sorted(crates) for name, them in inputs_of(crate).items()
        }
        self.entries = ledger.read()

    def fault(self, title: str, program: str = "") -> str:
        """Tells what is wrong with the edit's witness or its entry, or answers an empty text. The program, where one is
        given, must answer as the entry has it."""
        if title not in self.edits:
            return "there is no such edit"
        if title not in self.inputs:
            return "it has no witness"
        if title not in self.entries:
            return "it has no entry in the ledger"
        why = self.entries[title].fault(self.edits[title], self.inputs[title])
        if why or not program:
            return why
        return fault_of_program(program, self.entries[title], self.given(title))

    def titles(self) -> list[str]:
        return sorted({*self.edits, *self.inputs, *self.entries})

    def given(self, title: str) -> list[Input]:
        """The input that the entry is about."""
        edit, entry = self.edits[title], self.entries[title]
        return [it for it in self.inputs[title] if not entry.fault(edit, [it])]


def check(known: Known, program: str) -> tuple[int, int]:
    """Holds the ledger against what is at hand. Returns how many passed, and how many failed."""
    faults = {title: known.fault(title, program) for title in known.titles()}
    wrong = {title: why for title, why in faults.items() if why}
    for title, why in wrong.items():
        print(f"{title}: {why} (make witnesses)")
    return len(faults) - len(wrong), len(wrong)


def seed() -> str:
    """The commit at hand, or the day."""
    words = ["git", "-C", str(ROOT), "rev-parse", "HEAD"]
    if shutil.which("git"):
        commit = subprocess.run(words, capture_output=True, text=True)
        if commit.returncode == 0:
            return commit.stdout.strip()
    return time.strftime("%Y-%m-%d")


def chosen(known: Known, count: int, by: str) -> list[str]:
    """So many entries that have a witness, other ones for each seed."""
    titles = [it for it in known.titles() if not known.fault(it) and not known.entries[it].reason]
    return sorted(titles, key=lambda it: hashlib.sha256(f"{by} {it}".encode()).digest())[:count]


def tried(program: str, known: Known, title: str) -> str:
    """Tries an entry again. Tells what is wrong, or answers an empty text."""
    entry = entry_of(program, known.edits[title], known.given(title))
    return "" if entry.real == known.entries[title].real else OTHERWISE


def some_tried(program: str, known: Known, count: int) -> tuple[int, int]:
    """Tries some entries. Returns how many passed, and how many failed."""
    passed = failed = 0
    with ThreadPoolExecutor(AT_ONCE) as pool:
        begun = {pool.submit(tried, program, known, it): it for it in chosen(known, count, seed())}
        for it in as_completed(begun):
            why = told(it.result)
            print(f"{begun[it]}: {why or 'the edited code answers otherwise'}", flush=True)
            passed, failed = passed + (not why), failed + bool(why)
    return passed, failed


def told(result: Callable[[], str]) -> str:
    """What the call tells, or why it couldn't be made."""
    try:
        return result()
    except Fault as why:
        return str(why)


def make(program: str, known: Known, words: Sequence[str]) -> tuple[int, int]:
    """Tries the edits whose entries are missing or aren't of what is at hand, or those that are named. Returns how many
    entries were made, and how many could not."""
    titles = [it for it in known.titles() if it in known.edits]
    if not words:
        titles = [it for it in titles if known.fault(it, program)]
    elif list(words) != ["all"]:
        titles = list(words)
    passed = failed = 0

    def made(title: str) -> str:
        if title not in known.edits or title not in known.inputs:
            return known.fault(title)
        began = time.monotonic()
        known.entries[title] = entry_of(program, known.edits[title], known.inputs[title])
        return f"+{time.monotonic() - began:.0f} s"

    with ThreadPoolExecutor(AT_ONCE) as pool:
        begun = {pool.submit(made, it): it for it in titles}
        for it in as_completed(begun):
            title, why = begun[it], told(it.result)
            is_made = why.startswith("+")
            print(f"{title}: {shown(known.entries[title]) + why[1:] if is_made else why}", flush=True)
            passed, failed = passed + is_made, failed + (not is_made)
            if is_made:
                ledger.write({**ledger.read(), title: known.entries[title]})
    ledger.write({it: entry for it, entry in ledger.read().items() if it in known.edits})
    return passed, failed


def shown(entry: Entry) -> str:
    return "no witness, with the reason, " if entry.reason else "the edited code answers otherwise, "


def main(words: Sequence[str]) -> int:
    try:
        known = Known()
        if len(words) == 2 and words[0] == "check":
            passed, failed = check(known, words[1])
        elif len(words) == 3 and words[0] == "try" and words[2].isdecimal():
            passed, failed = check(known, words[1])
            some = some_tried(words[1], known, int(words[2]))
            passed, failed = passed + some[0], failed + some[1]
        elif len(words) >= 2 and words[0] == "make":
            passed, failed = make(words[1], known, words[2:])
        else:
            print(__doc__, end="", file=sys.stderr)
            return 2
    except Fault as why:
        print(f"witnesses: {why}", file=sys.stderr)
        return 2
    print(f"{passed} passed, {failed} failed")
    return 1 if failed else 0


if __name__ == "__main__":
    sys.exit(main(sys.argv[1:]))
