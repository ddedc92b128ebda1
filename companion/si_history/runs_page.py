"""The index page of many runs: one HTML document that loads nothing, with a link to the page of each run."""

from __future__ import annotations

from collections.abc import Iterator, Mapping, Sequence
from html import escape
from importlib.resources import files
from urllib.parse import quote

from si_history.auditor import MEETS
from si_history.page_policy import with_policy
from si_history.run_audit import Row
from si_history.runs_table import HEAD, cells_of, summary_of

PAGES = "runs"
"""The folder of the pages of the runs, beside the index page."""
STYLES = ("page.css", "runs.css")


def page_name(run: str) -> str:
    """Where the page of a run is, from the index page."""
    return f"{PAGES}/{run}.html"


def html(folder: str, level: str, rows: Sequence[Row], pages: Mapping[str, str]) -> str:
    """The whole document. `pages` are the names of the pages, by the names of the runs."""
    title = escape(f"Audit of the runs in {folder}")
    style = "".join(files(__package__).joinpath(name).read_text("utf-8") for name in STYLES)
    return with_policy("\n".join([
        "<!DOCTYPE html>",
        '<html lang="en">',
        "<head>",
        '<meta charset="utf-8">',
        '<meta name="viewport" content="width=device-width, initial-scale=1">',
        '<meta name="color-scheme" content="light dark">',
        f"<title>{title}</title>",
        f"<style>\n{style}</style>",
        "</head>",
        "<body>",
        f"<header><h1>{title}</h1><p>{escape(summary_of(rows, level))}</p></header>",
        "<main><section><table>",
        f"<thead><tr>{''.join(f'<th scope=col>{escape(word)}</th>' for word in HEAD)}</tr></thead>",
        "<tbody>",
        *(_row(row, level, pages.get(row.name)) for row in rows),
        "</tbody>",
        "</table></section></main>",
        "<footer><p>All verdicts and findings are those of si_audit's reports.</p></footer>",
        "</body>",
        "</html>",
    ]) + "\n")


def _row(row: Row, level: str, page: str | None) -> str:
    look = "none" if not row.has_verdict else "good" if row.status == MEETS else "bad"
    return f'<tr class="{look}">{"".join(_cells(row, level, page))}</tr>'


def _cells(row: Row, level: str, page: str | None) -> Iterator[str]:
    name, *others = (escape(cell) for cell in cells_of(row, level))
    linked = name if page is None else f'<a href="{escape(quote(page.encode("utf-8", "surrogateescape")))}">{name}</a>'
    yield f'<th scope="row">{linked}</th>'
    yield from (f"<td>{word}</td>" for word in others)
