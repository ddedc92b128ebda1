"""Graphs: which edges are drawn, and that no name breaks out of its label."""

from __future__ import annotations

import re
import tempfile
import unittest
from pathlib import Path

from si_history.errors import BadInput
from si_history.graph import Arrow, Graph, dot, graph_of
from si_history.legend import Legend
from si_history.naming import Names
from si_history.report import EdgeKind
from si_history.report_text import ReportText, read_report
from tests.pages import LOST_UPDATE_HISTORY
from tests.support import run_command
from tests.test_report import LOST_UPDATE, PLAIN, lines, text_of

RW = EdgeKind.RW

PIVOTS = lines(
    "events 14 committed 4 aborted 0 open 0", "isolation kept", "edge 1 ww 2 5", "edge 1 rw 2 3", "edge 1 rw 2 4", "edge 2 rw 3 9",
    "edge 2 rw 4 1", "edge 3 rw 4 6", "pivot 2 in 1 out 3 4 first 3", "pivot 3 in 2 out 4", "ssi fail", "serializable yes", "order 1 2 3 4",
)
"""Two pivots that share the edge from 2 to 3. The ww edge is of no pivot."""


def graph(text: ReportText, every_edge: bool = False) -> Graph:
    """The graph of a report, with its arrows as a list."""
    made = graph_of(read_report(text), text, every_edge)
    return Graph(made.title, list(made.arrows), made.pivots)


class ChoiceTest(unittest.TestCase):
    def test_the_cycle(self) -> None:
        wanted = [Arrow(1, EdgeKind.WW, 2, (1,), True), Arrow(2, RW, 1, (1,), True)]
        self.assertEqual(graph(text_of(LOST_UPDATE)), Graph("the cycle", wanted))

    def test_pivots(self) -> None:
        wanted = [Arrow(1, RW, 2, (3, 4)), Arrow(2, RW, 3, (9,), True), Arrow(2, RW, 4, (1,)), Arrow(3, RW, 4, (6,))]
        self.assertEqual(graph(PIVOTS), Graph("no cycle; the pivots", wanted, {2, 3}))

    def test_pivots_where_edges_are_left_out(self) -> None:
        text = lines(*(line for line in PIVOTS if not line.startswith("edge")))
        wanted = [Arrow(1, RW, 2, ()), Arrow(2, RW, 3, (), True), Arrow(2, RW, 4, ()), Arrow(3, RW, 4, ())]
        self.assertEqual(graph(text).arrows, wanted)

    def test_a_dangerous_structure(self) -> None:
        text = lines(*PLAIN[:2], "ssi fail", "dangerous 1 >rw:3> 2 >rw:9> 4", *PLAIN[3:])
        wanted = [Arrow(1, RW, 2, (3,)), Arrow(2, RW, 4, (9,), True)]
        self.assertEqual(graph(text), Graph("no cycle; a dangerous structure", wanted, {2}))
        with self.assertRaisesRegex(BadInput, "^r: this report leaves its edges out, so --all has nothing to draw$"):
            graph(text, True)

    def test_nothing_to_draw(self) -> None:
        self.assertEqual(graph(lines(*PLAIN)), Graph("no cycle, and no line of a pivot", []))

    def test_all_edges(self) -> None:
        wanted = [
            Arrow(1, EdgeKind.WW, 2, (5,)), Arrow(1, RW, 2, (3, 4)), Arrow(2, RW, 3, (9,)), Arrow(2, RW, 4, (1,)), Arrow(3, RW, 4, (6,)),
        ]
        self.assertEqual(graph(PIVOTS, True), Graph("all edges", wanted))
        wanted = [Arrow(1, EdgeKind.WW, 2, (1,), True), Arrow(1, RW, 2, (1,)), Arrow(2, RW, 1, (1,), True)]
        self.assertEqual(graph(text_of(LOST_UPDATE), True).arrows, wanted)


class DotTest(unittest.TestCase):
    def test_nodes_and_arrows(self) -> None:
        made = dot(Graph("g", [Arrow(1, RW, 2, (3, 4)), Arrow(2, EdgeKind.WW, 7, (1, 2, 3, 4, 5, 6), True)], {2}), Names())
        self.assertEqual(made.splitlines()[4:], [
            '  1 [label="1"];',
            '  2 [label="2", peripheries=2];',
            '  7 [label="7"];',
            '  1 -> 2 [label="rw 3, 4"];',
            '  2 -> 7 [label="ww 1, 2, 3, 4 and 2 more", penwidth=2, color="#b3261e"];',
            "}",
        ])
        self.assertIn('  1 -> 2 [label="rw"];', dot(Graph("g", [Arrow(1, RW, 2, ())]), Names()))

    def test_names_stay_in_their_labels(self) -> None:
        legend = Legend({1: '"];evil[x="', 2: "back\\"}, {1: "a&lt;b\\N", 2: "two\nlines"})
        made = dot(Graph("g", [Arrow(1, RW, 2, (1, 2))]), Names(legend))
        self.assertEqual(made.splitlines()[4:7], [
            r'  1 [label="\"\\\"];evil[x=\\\"\""];',
            r'  2 [label="\"back\\\\\""];',
            r'  1 -> 2 [label="rw \"a&amp;lt;b\\\\N\", \"two\\nlines\""];',
        ])
        for line in made.splitlines():
            quotes = re.sub(r"\\.", "", line).count('"')
            self.assertEqual(quotes % 2, 0, line)


class CommandTest(unittest.TestCase):
    def test_standard_input(self) -> None:
        done = run_command("graph", given=LOST_UPDATE.encode())
        self.assertEqual((done.returncode, done.stderr), (0, b""))
        self.assertEqual(done.stdout.decode().splitlines()[-5:], [
            '  1 [label="1"];',
            '  2 [label="2"];',
            '  1 -> 2 [label="ww 1", penwidth=2, color="#b3261e"];',
            '  2 -> 1 [label="rw 1", penwidth=2, color="#b3261e"];',
            "}",
        ])

    def test_bad_input(self) -> None:
        brief = "".join(f"{line}\n" for line in LOST_UPDATE.splitlines() if not line.startswith("edge"))
        prefix = "si-history: standard input: "
        for words, report, said in (
            ([], "", prefix + "line 1: this is no report: it ends before its line 'events ..'\n"),
            ([], "refused: text too long\n", prefix + "the auditor refused the history and made no report (the text was too long)\n"),
            (["--all"], brief, prefix + "this report leaves its edges out, so --all has nothing to draw\n"),
            (["--all"], LOST_UPDATE.replace("ww 2 1", "ww 2"), prefix + "line 4: this is no report: 'edge T KIND U KEY' is wanted\n"),
        ):
            with self.subTest(said=said):
                done = run_command("graph", *words, given=report.encode())
                self.assertEqual((done.returncode, done.stdout, done.stderr.decode()), (2, b"", said))

    def test_a_legend_that_lacks_a_name(self) -> None:
        with tempfile.TemporaryDirectory() as directory:
            path, history = Path(directory) / "legend", Path(directory) / "history"
            history.write_text(LOST_UPDATE_HISTORY)
            path.write_text(Legend({1: "T7", 2: "T8"}, {}, [1, 2, 3, 4, 5, 6]).to_json(LOST_UPDATE_HISTORY.encode()))
            done = run_command("graph", "--legend", str(path), "--history", str(history), given=LOST_UPDATE.encode())
        self.assertEqual((done.returncode, done.stdout), (2, b""))
        self.assertEqual(done.stderr, b"si-history: the legend has no name for key 1\n")

    def test_a_legend_of_another_history(self) -> None:
        with tempfile.TemporaryDirectory() as directory:
            path, history = Path(directory) / "legend", Path(directory) / "history"
            history.write_text(LOST_UPDATE_HISTORY)
            path.write_text(Legend({1: "T7", 2: "T8"}, {1: "k"}, [1, 2, 3, 4, 5, 6]).to_json(b"w1[1]\n"))
            done = run_command("graph", "--legend", str(path), "--history", str(history), given=LOST_UPDATE.encode())
            said = f"si-history: {history}: the legend is of another history: it was not written with this text\n"
            self.assertEqual((done.returncode, done.stdout, done.stderr.decode()), (2, b"", said))
            done = run_command("graph", "--legend", str(path), given=LOST_UPDATE.encode())
            said = "si-history: --legend goes with --history FILE, by which the legend is known to be that of the history\n"
            self.assertEqual((done.returncode, done.stdout, done.stderr.decode()), (2, b"", said))


if __name__ == "__main__":
    unittest.main()
