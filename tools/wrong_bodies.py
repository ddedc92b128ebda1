"""Makes the list of docs/internals/WRONG_BODIES.md from the heads of the must-fail edits, crates/*/must-fail/*.edit.

The first line of an edit is `shows: SENTENCE`: what is wrong with the body that the edit makes.

    python3 tools/wrong_bodies.py            writes the list
    python3 tools/wrong_bodies.py --check    fails where the page has another one

The last line of a check is 'N passed, M failed'.
"""

from __future__ import annotations

import sys
from pathlib import Path

ROOT = Path(__file__).resolve().parent.parent
PAGE = ROOT / "docs" / "internals" / "WRONG_BODIES.md"
CRATES = ROOT / "crates.txt"
HEAD = "shows: "
START = "<!-- What follows is made by tools/wrong_bodies.py. -->\n"
END = "<!-- What stands above is made by tools/wrong_bodies.py. -->\n"


class BadPage(Exception):
    """An edit without a sentence, or a page without a place for the list."""


def shown(edit: Path) -> str:
    """The sentence at the head of an edit."""
    first = edit.read_text(encoding="utf-8").split("\n", 1)[0]
    if not first.startswith(HEAD) or not first.removeprefix(HEAD).strip():
        raise BadPage(f"{edit.relative_to(ROOT)}: its first line isn't '{HEAD}SENTENCE'")
    return first.removeprefix(HEAD).strip()


def crates() -> list[Path]:
    """The folders of the crates, in the order of crates.txt: lowest first."""
    lines = CRATES.read_text(encoding="utf-8").splitlines()
    names = [line.split(":")[0].split()[0] for line in lines if line.strip() and not line.startswith("#")]
    return [ROOT / "crates" / name for name in names]


def listing() -> tuple[str, int]:
    """The list, and how many edits it has."""
    parts, count = list[str](), 0
    for crate in crates():
        edits = sorted((crate / "must-fail").glob("*.edit"))
        lines = [f"- `{edit.stem}`: {shown(edit)}.\n" for edit in edits]
        parts.append(f"\n### {crate.name}\n\n{''.join(lines)}")
        count += len(edits)
    return "".join(parts) + "\n", count


def remade(page: str, made: str) -> str:
    """The page with this list in the place of its own."""
    before, start, rest = page.partition(START)
    _, end, after = rest.partition(END)
    if not start or not end:
        raise BadPage(f"{PAGE.relative_to(ROOT)}: the list has no start or no end")
    return before + start + made + end + after


def main(words: list[str]) -> int:
    if words not in ([], ["--check"]):
        print("wrong_bodies.py: it takes --check, or no word", file=sys.stderr)
        return 2
    try:
        made, count = listing()
        page = PAGE.read_text(encoding="utf-8")
        wanted = remade(page, made)
    except BadPage as fault:
        print(f"{fault}\n0 passed, 1 failed" if words else fault)
        return 1
    if not words:
        PAGE.write_text(wanted, encoding="utf-8")
        print(f"{PAGE.relative_to(ROOT)} has {count} edits")
        return 0
    if page != wanted:
        print(f"{PAGE.relative_to(ROOT)} isn't what the edits say: python3 tools/wrong_bodies.py writes it")
        print(f"0 passed, {count} failed")
        return 1
    print(f"{count} passed, 0 failed")
    return 0


if __name__ == "__main__":
    sys.exit(main(sys.argv[1:]))
