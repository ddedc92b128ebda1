"""Pictures and pages: what they show, that names can't break out of them, and the command that writes them."""

from __future__ import annotations

import re
import tempfile
import unittest
from html.parser import HTMLParser
from pathlib import Path
from xml.etree import ElementTree

from si_history.legend import Legend
from si_history.naming import shown
from si_history.overview import overview
from si_history.scene import Extent, Scene, finding_scene
from tests.pages import LOST_UPDATE_HISTORY, Told, example, told
from tests.support import REPOSITORY, run_command
from tests.test_report import LOST_UPDATE, lines, text_of

EVIL = '</script><script>document.title="evil"</script>&"\'\n\u202e'
PICTURE = REPOSITORY / "docs" / "lost_update.svg"
SVG = "{http://www.w3.org/2000/svg}"


def lanes_of(scene: Scene) -> list[tuple[int, list[int], int]]:
    """Of each lane the transaction, the places of its events, and how many are left out."""
    return [(lane.transaction, [mark.place for mark in lane.marks], lane.hidden_events) for lane in scene.lanes]


def bad_reads(count: int, most: int | None = None) -> Told:
    """Each of so many transactions reads the aborted version of a key of its own."""
    history = " ".join(f"w{n + count}[{n}] r{n}[{n}:{n + count}] a{n + count}" for n in range(1, count + 1))
    reads = [f"bad-read {3 * n - 1} {n} {n} saw {n + count} due 0" for n in range(1, count + 1)]
    head = f"events {3 * count} committed 0 aborted {count} open {count}"
    return told(history, lines(head, "isolation broken", *reads, "ssi fail", "serializable yes", "order"), most=most)


class SceneTest(unittest.TestCase):
    def test_a_small_history_is_shown_whole(self) -> None:
        scene = example("read_only_anomaly").scene
        self.assertEqual(lanes_of(scene), [(2, [1, 2, 9, 10], 0), (1, [3, 4, 5], 0), (3, [6, 7, 8], 0)])
        self.assertEqual([lane.start for lane in scene.lanes], [0, 2, 5])
        self.assertEqual([(arrow.source_place, arrow.target_place, arrow.label) for arrow in scene.arrows], [
            (4, 7, "wr 2"), (6, 9, "rw 1"), (2, 4, "rw 2"),
        ])
        self.assertEqual((scene.hidden_transactions, scene.hidden_events), (0, 0))

    def test_labels_are_words(self) -> None:
        (reader,) = (lane for lane in example("missed_key").scene.lanes if lane.transaction == 2)
        self.assertEqual([mark.label for mark in reader.marks], [("read 10 to 20", "saw 1"), ("commit",)])
        self.assertEqual(reader.marks[0].words, (
            "event 4: transaction 2 read key 10 to key 20 and saw transaction 1's version of key 12,"
            " every other key at the initial version"
        ))

    def test_a_finding_is_shown_alone(self) -> None:
        """Transaction 1 wrote key 1, 2 and 3 too; only 4, which read it, and 2 and 3, whose versions it saw and had to see, are drawn."""
        found = example("stale_read")
        scene = finding_scene(found.facts, found.findings[0], found.names, Extent.ALL)
        self.assertEqual([lane.transaction for lane in scene.lanes], [2, 3, 4])
        self.assertEqual([mark.place for lane in scene.lanes for mark in lane.marks if mark.is_named], [3, 5, 7])
        self.assertEqual([arrow.label for arrow in scene.arrows], ["saw", "due"])

    def test_a_large_history_shows_the_first_finding(self) -> None:
        """300 transactions stand before those of a lost update, whose places are then 600 greater."""
        before = " ".join(f"w{n}[{n}] c{n}" for n in range(101, 401))
        report = text_of(LOST_UPDATE.replace("events 6 committed 2", "events 606 committed 302"))
        found = told(f"{before} {LOST_UPDATE_HISTORY}", report)
        self.assertEqual(lanes_of(found.scene), [(1, [601, 603, 605], 0), (2, [602, 604, 606], 0)])
        self.assertEqual(found.page.count("<template"), 4)
        self.assertIn('<template id="picture-whole"><figure><svg xmlns="http://www.w3.org/2000/svg" class="timeline overview"', found.page)

    def test_many_findings_are_counted(self) -> None:
        found = bad_reads(2000)
        self.assertEqual([(len(group.findings), group.count) for group in found.groups], [(100, 2000)])
        self.assertIn("And 1,900 more, which the report has.", found.page)
        self.assertEqual(found.page.count('class="finding"'), 100)

    def test_a_transaction_of_many_events(self) -> None:
        """Transaction 1 also reads key 9 a thousand times. What was done with key 1 is drawn, and the ends."""
        history = LOST_UPDATE_HISTORY.replace("w1[1]", "r1[9:0] " * 1000 + "w1[1]")
        found = told(history, text_of(LOST_UPDATE.replace("events 6", "events 1006")))
        self.assertEqual(lanes_of(found.scene), [(1, [1, 1003, 1005], 1000), (2, [2, 1004, 1006], 0)])
        self.assertIn("1,000 other events of these transactions are not drawn.", found.page)

    def test_a_transaction_that_reads_one_key_often(self) -> None:
        """Of a thousand reads of key 1 itself none is drawn that the finding isn't about."""
        history = LOST_UPDATE_HISTORY.replace("w1[1]", "r1[1:0] " * 1000 + "w1[1]")
        found = told(history, text_of(LOST_UPDATE.replace("events 6", "events 1006")))
        self.assertEqual(lanes_of(found.scene), [(1, [1003, 1005], 1001), (2, [1004, 1006], 1)])


class OverviewTest(unittest.TestCase):
    def test_rows_and_bars(self) -> None:
        """2 overlaps 1, and 3 starts when 1 has ended, so that it takes its row; 4 never ends. 3 is of a finding."""
        found = told("b1 b2 c1 b3 c2 a3 b4", lines(
            "events 7 committed 2 aborted 1 open 1", "isolation kept", "ssi pass", "serializable yes", "order 1 2",
        ))
        root = ElementTree.fromstring(overview(found.facts, [3], found.names))
        drawn = {each.get("class"): str(each.get("d")) for each in root.findall(f"{SVG}path") if "bars" in str(each.get("class"))}
        rows = {name: re.findall("M[0-9]+ ([0-9.]+)h", path) for name, path in drawn.items()}
        first, second = "43.0", "61.0"
        self.assertEqual(rows, {"bars committed": [first, second], "bars aborted": [first], "bars open": [first]})
        (found_bar,) = (each for each in root.findall(f"{SVG}path") if each.get("data-transaction"))
        self.assertEqual((found_bar.get("data-transaction"), found_bar[0].text), (
            "3", "Transaction 3, aborted: started after event 3, ended at event 6",
        ))

    def test_bars_in_one_place_are_drawn_once(self) -> None:
        """100,000 transactions of one event each are one row, and as many bars as it has points."""
        count = 100_000
        order = " ".join(map(str, range(1, count + 1)))
        found = told(" ".join(f"c{n}" for n in range(1, count + 1)), lines(
            f"events {count} committed {count} aborted 0 open 0", "isolation kept", "ssi pass", "serializable yes", f"order {order}",
        ))
        self.assertLess(len(found.page), 60_000)
        self.assertIn('class="timeline overview"', found.page)


class _Checker(HTMLParser):
    """Collects the elements of a page, and what they load."""

    def __init__(self) -> None:
        super().__init__()
        self.tags: list[str] = []
        self.loads: list[str] = []

    def handle_starttag(self, tag: str, attrs: list[tuple[str, str | None]]) -> None:
        self.tags.append(tag)
        self.loads += [name for name, _ in attrs if name in ("src", "href", "xlink:href", "srcset", "data", "style") or name.startswith("on")]


class MarkupTest(unittest.TestCase):
    def test_the_verdict_in_words(self) -> None:
        page = example("lost_update").page
        for words in ("Snapshot isolation was broken.", "Found: 1 bad write.", "The history is not serializable.", "The ssi test fails."):
            self.assertIn(words, page)
        page = example("clean").page
        for words in ("Snapshot isolation was kept.", "The history is serializable.", "The ssi test passes.", "explains the history: 2, 1."):
            self.assertIn(words, page)

    def test_which_snapshots_would_fit(self) -> None:
        """The verdict tells it where isolation was broken and the report is explained, and below the findings stands which, or why none."""
        for name, wanted in (
            ("read_skew", (
                "Generalized snapshot isolation was broken.",
                "There is no snapshot that would fit 1 transaction, taken before the first read or write.",
                "<li>No snapshot would fit transaction 1.</li>"
                "<li>It would have to have the commit of transaction 2 at event 4: its read at event 5 asks for that.</li>"
                "<li>It would have to be taken before its read at event 1, the first thing that it did.</li>",
            )),
            ("stale_read", (
                "Generalized snapshot isolation was kept.", "Each transaction has a snapshot that would fit it",
                "<li>A snapshot that was taken from after event 4 to after event 5 would fit transaction 4.</li>",
            )),
            ("own_write_missed", ("<li>No snapshot would fit transaction 1.</li><li>No snapshot has what it saw at event 2.</li>",)),
        ):
            page = example(name, ".explained").page
            for words in wanted:
                self.assertIn(words, page)
            self.assertNotIn("Generalized", example(name).page)
        self.assertNotIn("Generalized", example("clean", ".explained").page)

    def test_findings_that_are_only_counted(self) -> None:
        found = bad_reads(30, most=3)
        self.assertEqual([(len(group.findings), group.count) for group in found.groups], [(3, 30)])
        for words in ("Found: 30 bad reads.", "And 27 more, which the report has."):
            self.assertIn(words, found.page)

    def test_what_matters_first_stands_first(self) -> None:
        page = example("lost_update").page
        headings = [page.index(f"<h3>{heading}") for heading in ("Bad writes", "The cycle", "Pivots")]
        self.assertEqual(headings, sorted(headings))
        chosen = 'class="finding" aria-pressed="true"'
        self.assertEqual(page.count(chosen), 1)
        self.assertLess(page.index(chosen), headings[1])

    def test_nothing_is_loaded(self) -> None:
        """One style and one script, no element that loads or runs anything, and all templates within the page."""
        page = example("lost_update").page
        checker = _Checker()
        checker.feed(page)
        counts = [checker.tags.count(tag) for tag in ("script", "style", "link", "template")]
        self.assertEqual((checker.loads, counts), ([], [1, 1, 0, 4]))
        self.assertNotRegex(page.replace("http://www.w3.org/2000/svg", ""), r"https?:|@import|url\((?!#)")

    def test_names_do_not_break_out(self) -> None:
        legend = Legend({1: EVIL, 2: "\ud800<svg onload=x>"}, {1: "]]><&\"'"}, [1, 2, 3, 4, 5, 6])
        found = told(LOST_UPDATE_HISTORY, text_of(LOST_UPDATE), legend)
        checker = _Checker()
        checker.feed(found.page)
        transactions, keys = ({n: "x" * len(shown(name)) for n, name in table.items()} for table in (legend.transactions, legend.keys))
        harmless = Legend(transactions, keys, legend.events)
        plain = _Checker()
        plain.feed(told(LOST_UPDATE_HISTORY, text_of(LOST_UPDATE), harmless).page)
        self.assertEqual(checker.tags, plain.tags)
        found.page.encode("utf-8")
        root = ElementTree.fromstring(found.image)
        words = [element.text for element in root.iter(f"{SVG}title")]
        self.assertIn('event 3 (line 3 of the log): ' + '"</script><script>document.title=\\"evil\\"</script>&\\"\'\\n\\u202e"'
                      + ' wrote "]]><&\\"\'"', words)

    def test_the_picture_is_the_one_of_the_docs(self) -> None:
        image = example("lost_update").image
        self.assertEqual(ElementTree.fromstring(image).tag, f"{SVG}svg")
        self.assertEqual(image, PICTURE.read_text("utf-8"), f"make {PICTURE.name} anew with si-history page --svg")


class ExamplesTest(unittest.TestCase):
    def test_pages_of_the_logs(self) -> None:
        """The page of each example of a log is the one that is kept beside it."""
        legends = sorted(REPOSITORY.glob("examples/logs/*.legend"))
        self.assertEqual(len(legends), 2)
        for legend in legends:
            with self.subTest(legend=legend.name):
                inputs = [str(legend.with_suffix(suffix)) for suffix in (".history", ".report")]
                done = run_command("page", *inputs, "--legend", str(legend))
                self.assertEqual((done.returncode, done.stderr), (0, b""))
                self.assertEqual(done.stdout.decode(), legend.with_suffix(".html").read_text("utf-8"), "make it anew with si-history page")


class CommandTest(unittest.TestCase):
    def page(self, history: str, report: str, *words: str) -> tuple[int, str, str]:
        """The status and both outputs of the command. The history's path is H in what it says, and the report's is R."""
        with tempfile.TemporaryDirectory() as directory:
            paths = [Path(directory) / name for name in ("H", "R", "L")]
            paths[0].write_text(history)
            paths[1].write_text(report)
            paths[2].write_text(Legend({1: "T7"}, {1: "k"}, [1, 2, 3, 4, 5, 6]).to_json(history.encode()))
            done = run_command("page", str(paths[0]), str(paths[1]), *(word.replace("LEGEND", str(paths[2])) for word in words))
            return done.returncode, done.stdout.decode(), done.stderr.decode().replace(directory + "/", "")

    def test_output(self) -> None:
        status, page, said = self.page(LOST_UPDATE_HISTORY, LOST_UPDATE)
        self.assertEqual((status, page[:15], said), (0, "<!DOCTYPE html>", ""))
        self.assertIn("<title>Audit of H</title>", page)
        self.assertEqual(self.page(LOST_UPDATE_HISTORY, LOST_UPDATE, "--svg"), (0, PICTURE.read_text("utf-8"), ""))

    def test_a_file(self) -> None:
        with tempfile.TemporaryDirectory() as directory:
            path = Path(directory) / "page.html"
            self.assertEqual(self.page(LOST_UPDATE_HISTORY, LOST_UPDATE, "-o", str(path)), (0, "", ""))
            self.assertTrue(path.read_text("utf-8").endswith("</html>\n"))

    def test_bad_input(self) -> None:
        other = "si-history: H: the history is not the one of the report: "
        for history, report, said in (
            ("r1[1:0] c1", LOST_UPDATE, other + "it has 2 events and 1 committed, 0 aborted, 0 open transactions, and the report"
             " 6 events and 2 committed, 0 aborted, 0 open transactions\n"),
            ("r1[1:0] r2[1:0] w1[1] w2[2] c1 c2", LOST_UPDATE, other + "transaction 2 doesn't write key 1\n"),
            ("r1[1:0] r2[2:0] w1[1] w2[1] c1 c2", LOST_UPDATE, other + "transaction 2 has no read of key 1 that gives its edge\n"),
            ("r1[1:0] r3[1:0] w1[1] w3[1] c1 c3", LOST_UPDATE, other + "transaction 2 doesn't write key 1\n"),
            ("r1[1", LOST_UPDATE, "si-history: H: token 1: bad event\n"),
            ("", "refused: token 1: bad event\n", "si-history: R: the auditor refused the history and made no report (at event 1: bad event)\n"),
            ("", "", "si-history: R: line 1: this is no report: it ends before its line 'events ..'\n"),
        ):
            with self.subTest(said=said):
                self.assertEqual(self.page(history, report), (2, "", said))

    def test_a_legend_that_lacks_a_name(self) -> None:
        status, output, said = self.page(LOST_UPDATE_HISTORY, LOST_UPDATE, "--legend", "LEGEND")
        self.assertEqual((status, output, said.count("\n")), (2, "", 1))
        self.assertIn("the legend has no name for transaction 2", said)

    def test_one_standard_input_for_two(self) -> None:
        done = run_command("page", "-", "-")
        self.assertEqual((done.returncode, done.stdout, done.stderr), (2, b"", b"si-history: only one input can be standard input\n"))


if __name__ == "__main__":
    unittest.main()
