"""What came of many runs, as a table for people, and the one status of them all."""

from __future__ import annotations

from collections import Counter
from collections.abc import Sequence

from si_history.audited import NOTHING
from si_history.auditor import BAD_COMMAND_LINE, FALLS_SHORT, FAULT, MEETS, REFUSED
from si_history.naming import shown
from si_history.run_audit import Row
from si_history.wording import counted

WORST_FIRST = (FALLS_SHORT, FAULT, REFUSED, BAD_COMMAND_LINE, NOTHING)
"""The status of a run that falls short is that of all runs; else that of the first of these that a run has."""
HEAD = ("run", "level", "ssi", "serializable", "findings")


def status_of(rows: Sequence[Row]) -> int:
    """The status for all runs: 0 only where there are runs and each of them meets the level."""
    if not rows:
        return NOTHING
    statuses = {row.status for row in rows}
    return next((status for status in WORST_FIRST if status in statuses), MEETS if statuses == {MEETS} else FAULT)


def cells_of(row: Row, level: str) -> tuple[str, str, str, str, str]:
    """The words of a run: its name, whether it meets the level, the answers of `ssi` and `serializable`, and its findings by name."""
    if not row.has_verdict:
        return shown(row.name), "no verdict", "", "", row.problem or f"status {row.status}"
    found = ", ".join(f"{name}: {count:,}" for name, count in row.counts.items())
    meets = f"meets {level}" if row.status == MEETS else f"falls short of {level}"
    return shown(row.name), meets, "pass" if row.passes_ssi else "fail", "yes" if row.is_serializable else "no", found


def summary_of(rows: Sequence[Row], level: str) -> str:
    """How many runs meet the level, in a sentence."""
    counts = Counter("none" if not row.has_verdict else "meets" if row.status == MEETS else "short" for row in rows)
    parts = [f"{counts['meets']:,} meet {level}" if counts["meets"] != 1 else f"1 meets {level}"]
    if counts["short"]:
        parts.append(f"{counts['short']:,} fall short of it" if counts["short"] != 1 else "1 falls short of it")
    if counts["none"]:
        parts.append(f"{counts['none']:,} have no verdict" if counts["none"] != 1 else "1 has no verdict")
    return f"{counted(len(rows), 'run')}: {', '.join(parts)}."


def table_of(rows: Sequence[Row], level: str) -> str:
    """The table, with its columns below one another."""
    lines = [HEAD, *(cells_of(row, level) for row in rows)]
    widths = [max(len(line[at]) for line in lines) for at in range(len(HEAD))]
    padded = ("  ".join(cell.ljust(width) for cell, width in zip(line, widths)).rstrip() for line in lines)
    return "".join(f"{line}\n" for line in padded)
