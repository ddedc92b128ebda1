"""`si-history graph`: edges of a report as a graph in Graphviz's language DOT."""

from __future__ import annotations

import argparse
from collections.abc import Iterable, Iterator
from dataclasses import dataclass, field
from itertools import groupby
from operator import itemgetter
from typing import NamedTuple

from si_history.errors import BadInput, in_source
from si_history.files import STANDARD_INPUT, STANDARD_OUTPUT, check_output, source_name, write_output
from si_history.matching import check_report, read_history
from si_history.naming import Names
from si_history.progress import REPORT_LINES, Progress
from si_history.report import Cycle, Edge, EdgeKind, Pivot, Report, Structure
from si_history.report_text import ReportText, edges_in, read_report

KEYS_SHOWN = 4

EPILOG = """\
Without --all the graph is that of the cycle. Where there is none, it is that of each
pivot's dangerous structures: the rw edges to the pivot (a double box) and from it,
with bold edges to the transactions that commit first; of an explained report, that of
its one dangerous structure. With --all it has every edge of the report; those of the
cycle are bold.

examples:
  si_audit <run.history | si-history graph | dot -Tsvg >cycle.svg
  si-history graph --legend run.legend --history run.history run.report >cycle.dot
  si-history graph --all <run.report | dot -Tpdf >edges.pdf
"""


def register(commands: argparse._SubParsersAction[argparse.ArgumentParser]) -> None:
    """Adds the command."""
    parser = commands.add_parser(
        "graph",
        help="the cycle of a report, or its pivots, as a graph for Graphviz",
        description="Writes the edges of a report's cycle, or of its pivots, as a graph in Graphviz's language DOT.",
        epilog=EPILOG,
        formatter_class=argparse.RawDescriptionHelpFormatter,
    )
    parser.add_argument(
        "report", metavar="REPORT", nargs="?", default=STANDARD_INPUT, help="the report (default: -, standard input)"
    )
    parser.add_argument("--all", action="store_true", help="all edges of the report")
    parser.add_argument("--legend", metavar="FILE", help="the legend that was written with the history, for the log's names")
    parser.add_argument("--history", metavar="FILE", help="with --legend: the history, by which the legend is known to be its")
    parser.set_defaults(run=run, writes_history=False)


def run(arguments: argparse.Namespace) -> int:
    """Writes the graph."""
    inputs = [arguments.report, arguments.legend, arguments.history]
    if inputs.count(STANDARD_INPUT) > 1:
        raise BadInput("only one input can be standard input")
    if arguments.legend is not None and arguments.history is None:
        raise BadInput("--legend goes with --history FILE, by which the legend is known to be that of the history")
    check_output(STANDARD_OUTPUT, inputs)
    names = Names.from_path(arguments.legend)
    facts = None if arguments.history is None else read_history(arguments.history, names)
    with Progress(REPORT_LINES) as progress:
        text = ReportText.from_path(arguments.report, progress)
        report = read_report(text)
        if facts is not None:
            with in_source(source_name(arguments.history)):
                check_report(report, facts)
        drawn = dot(graph_of(report, text, arguments.all), names)
    write_output(drawn)
    return 0


class Arrow(NamedTuple):
    """All edges of one kind from one transaction to another. No key is known where the report leaves its edges out."""

    source: int
    kind: EdgeKind
    target: int
    keys: tuple[int, ...]
    is_bold: bool = False


@dataclass(slots=True)
class Graph:
    """What is drawn. The arrows can be millions, so they may come as they are read, and once only."""

    title: str
    arrows: Iterable[Arrow]
    pivots: set[int] = field(default_factory=set)


def graph_of(report: Report, text: ReportText, every_edge: bool) -> Graph:
    """The graph that is wanted of a report. Its text is gone through once more where edges are wanted."""
    if every_edge:
        if report.edge_count == 0 and (report.cycle or report.structure or report.pivots):
            raise BadInput("this report leaves its edges out, so --all has nothing to draw", source=text.source)
        return _all_edges(report, text)
    if report.cycle is not None:
        return _cycle_graph(report.cycle)
    if report.structure is not None and not report.pivots:
        return _structure_graph(report.structure)
    return _pivot_graph(report.pivots, text)


def _cycle_graph(cycle: Cycle) -> Graph:
    arrows = [Arrow(step.source, step.kind, step.target, (step.key,), True) for step in cycle.steps]
    return Graph("the cycle", arrows)


def _structure_graph(structure: Structure) -> Graph:
    into, out = structure.steps
    arrows = [Arrow(into.source, into.kind, into.target, (into.key,)), Arrow(out.source, out.kind, out.target, (out.key,), True)]
    return Graph("no cycle; a dangerous structure", arrows, {into.target})


def _all_edges(report: Report, text: ReportText) -> Graph:
    cycle = report.cycle
    bold = set() if cycle is None else {(step.source, step.kind, step.target) for step in cycle.steps}
    return Graph("all edges", _arrows(edges_in(text), bold))


def _pivot_graph(pivots: list[Pivot], text: ReportText) -> Graph:
    """The rw edges to and from each pivot. A pair of transactions that several pivots have stands once."""
    wanted: dict[tuple[int, int], bool] = {}
    for pivot in pivots:
        for source in pivot.sources:
            wanted.setdefault((source, pivot.transaction), False)
        for target in pivot.targets:
            wanted.setdefault((pivot.transaction, target), False)
        for first in pivot.firsts:
            wanted[pivot.transaction, first] = True
    edges = (edge for edge in edges_in(text) if edge.kind is EdgeKind.RW and (edge.source, edge.target) in wanted)
    keys = {(arrow.source, arrow.target): arrow.keys for arrow in _arrows(edges, set())} if wanted else {}
    arrows = [
        Arrow(source, EdgeKind.RW, target, keys.get((source, target), ()), is_first)
        for (source, target), is_first in wanted.items()
    ]
    title = "no cycle; the pivots" if pivots else "no cycle, and no line of a pivot"
    return Graph(title, arrows, {pivot.transaction for pivot in pivots})


def _arrows(edges: Iterable[Edge], bold: set[tuple[int, EdgeKind, int]]) -> Iterator[Arrow]:
    """One arrow for edges of one kind between two transactions; these follow one another in a report."""
    for (source, kind, target), group in groupby(edges, itemgetter(0, 1, 2)):
        yield Arrow(source, kind, target, tuple(edge.key for edge in group), (source, kind, target) in bold)


def dot(graph: Graph, names: Names) -> str:
    """The graph in DOT. The nodes' own names are numbers; the log's names stand in the labels alone."""
    nodes: dict[int, None] = {}
    drawn = []
    for arrow in graph.arrows:
        nodes[arrow.source] = nodes[arrow.target] = None
        style = ', penwidth=2, color="#b3261e"' if arrow.is_bold else ""
        drawn.append(f"  {arrow.source} -> {arrow.target} [label={_string(_label(arrow, names))}{style}];\n")
    return "".join([
        "digraph history {\n",
        f'  graph [label={_string(graph.title)}, labelloc=t, rankdir=LR, fontname="sans-serif"];\n',
        '  node [shape=box, style=rounded, fontname="sans-serif"];\n',
        '  edge [fontname="sans-serif", fontsize=11];\n',
        *(_node(node, node in graph.pivots, names) for node in nodes),
        *drawn,
        "}\n",
    ])


def _node(number: int, is_pivot: bool, names: Names) -> str:
    shape = ", peripheries=2" if is_pivot else ""
    return f"  {number} [label={_string(names.transaction(number))}{shape}];\n"


def _label(arrow: Arrow, names: Names) -> str:
    """The kind, and the first keys."""
    keys = ", ".join(map(names.key, arrow.keys[:KEYS_SHOWN]))
    more = len(arrow.keys) - KEYS_SHOWN
    return f"{arrow.kind.value} {keys}{f' and {more:,} more' if more > 0 else ''}".rstrip()


def _string(text: str) -> str:
    """A string of DOT that is drawn as the text. Graphviz also reads `\\N` and the like in labels, and `&lt;` as HTML does."""
    escaped = text.translate(_ESCAPES)
    return f'"{escaped}"'


_ESCAPES = str.maketrans({"&": "&amp;", "\\": "\\\\", '"': '\\"'})
