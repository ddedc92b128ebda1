"""Looks whether each relative link of the repository's *.md files leads to a file, and its anchor to a heading there; and
whether each page, and all of them together, keep to their number of words.

    python3 tools/links.py            what is wrong
    python3 tools/links.py words      also how many words each page has, and may have

The last line is 'N passed, M failed'.
"""

from __future__ import annotations

import os
import re
import sys
from collections.abc import Iterator
from pathlib import Path
from urllib.parse import unquote

ROOT = Path(__file__).resolve().parent.parent
LINK = re.compile(r"\]\(([^)\s]+)\)")
ELSEWHERE = re.compile(r"[a-z][a-z0-9+.-]*:")
HEADING = re.compile(r"^#{1,6} +(.*?) *#*$")
TARGET = re.compile(r"\]\([^)]*\)")
NO_ANCHOR = re.compile(r"[^\w\- ]")

# How many words a page may have, as `wc -w` counts them. A page that isn't named may have as many as OTHERS.
LIMITS = {
    "README.md": 1_300,
    "CHANGELOG.md": 800,
    "CONTRIBUTING.md": 550,
    "SECURITY.md": 430,
    "companion/README.md": 500,
    "docs/AUDIT.md": 700,
    "docs/DATABASES.md": 2_450,
    "docs/FORMAT.md": 3_350,
    "docs/PICTURES.md": 950,
    "docs/RECORDING.md": 2_800,
    "docs/SCALE.md": 600,
    "docs/TUTORIAL.md": 600,
    "docs/USAGE.md": 1_100,
    "docs/internals/ARCHITECTURE.md": 1_200,
    "docs/internals/DECISIONS.md": 2_500,
    "docs/internals/DEFINITIONS.md": 3_500,
    "docs/internals/PROOF_NOTES.md": 4_000,
    "docs/internals/PROVED.md": 1_800,
    "docs/internals/WRONG_BODIES.md": 2_000,
    "examples/README.md": 1_000,
}
OTHERS = 500
ALL_PAGES = 26_000


def pages() -> Iterator[Path]:
    """The pages, but for what was built: a folder `out` may change at any time, so none is looked into."""
    for folder, folders, files in os.walk(ROOT):
        folders[:] = sorted(name for name in folders if name not in ("out", ".git"))
        yield from (Path(folder, name) for name in sorted(files) if name.endswith(".md"))


def anchors(page: Path) -> set[str]:
    """What links may name of a page: its headings in lower case, with hyphens for spaces and no punctuation."""
    found: set[str] = set()
    for line in page.read_text(encoding="utf-8").splitlines():
        heading = HEADING.match(line)
        if heading is None:
            continue
        slug = NO_ANCHOR.sub("", TARGET.sub("]", heading[1]).lower()).replace(" ", "-")
        again = 0
        while (name := slug if again == 0 else f"{slug}-{again}") in found:
            again += 1
        found.add(name)
    return found


def fault_of(page: Path, link: str) -> str | None:
    """What is wrong with a link of the page, if it leads nowhere in the repository."""
    name, _, anchor = link.partition("#")
    target = page.parent / unquote(name) if name else page
    if not target.exists():
        return f"there is no {name}"
    if anchor and target.suffix == ".md" and anchor not in anchors(target):
        return f"{name or page.name} has no heading #{anchor}"
    return None


def counts() -> Iterator[tuple[str, int, int]]:
    """Each page and then all of them, with their words, and how many they may have."""
    total = 0
    for page in pages():
        name, words = str(page.relative_to(ROOT)), len(page.read_text(encoding="utf-8").split())
        total += words
        yield name, words, LIMITS.get(name, OTHERS)
    yield "all pages", total, ALL_PAGES


def main(words: list[str]) -> int:
    passed, faults = 0, list[str]()
    for page in pages():
        for link in LINK.findall(page.read_text(encoding="utf-8")):
            fault = None if ELSEWHERE.match(link) else fault_of(page, link)
            passed += fault is None
            if fault is not None:
                faults.append(f"{page.relative_to(ROOT)}: {fault}")
    for name, count, limit in counts():
        if words == ["words"]:
            print(f"{count:6} of {limit:6}  {name}")
        passed += count <= limit
        if count > limit:
            faults.append(f"{name}: {count} words, and it may have {limit}")
    for fault in faults:
        print(fault)
    print(f"{passed} passed, {len(faults)} failed")
    return 1 if faults else 0


if __name__ == "__main__":
    sys.exit(main(sys.argv[1:]))
