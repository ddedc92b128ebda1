"""Progress is shown at a terminal alone, and only once the work has taken a second."""

from __future__ import annotations

import io
import itertools
import tempfile
import time
import unittest
from pathlib import Path
from unittest import mock

from si_history import history, progress, report_text
from si_history.cli import main
from si_history.legend import Legend
from si_history.progress import Progress, Waiting
from tests.test_page import LOST_UPDATE_HISTORY
from tests.test_report import LOST_UPDATE


class Terminal(io.StringIO):
    """A standard error that says it is a terminal."""

    def isatty(self) -> bool:
        return True


def shown(error: io.StringIO, *steps: tuple[float, int]) -> str:
    """What is written where each step comes at a time, in seconds from the start, with a count."""
    clock = mock.Mock(return_value=100.0)
    with mock.patch("sys.stderr", error), mock.patch("time.monotonic", clock), Progress("lines read") as progress:
        for seconds, count in steps:
            clock.return_value = 100.0 + seconds
            progress.step(count)
    return error.getvalue()


class ProgressTest(unittest.TestCase):
    def test_short_work_is_silent(self) -> None:
        self.assertEqual(shown(Terminal(), (0.5, 1_000), (0.9, 2_000)), "")

    def test_long_work_is_told_and_wiped(self) -> None:
        told = shown(Terminal(), (0.9, 1_000), (1.1, 2_000), (1.2, 3_000), (1.7, 4_000))
        self.assertEqual(told, "\rsi-history: 2,000 lines read\rsi-history: 4,000 lines read\r\x1b[K")

    def test_a_file_is_told_nothing(self) -> None:
        self.assertEqual(shown(io.StringIO(), (9.0, 1_000)), "")

    def test_silence(self) -> None:
        with progress.silenced():
            self.assertEqual(shown(Terminal(), (9.0, 1_000)), "")
            with progress.silenced(False):
                self.assertEqual(shown(Terminal(), (9.0, 1_000)), "")
        with progress.silenced(False):
            self.assertNotEqual(shown(Terminal(), (9.0, 1_000)), "")

    def test_a_bar(self) -> None:
        for count, bar in ((0, "." * 24), (1, "###" + "." * 21), (7, "#" * 21 + "..."), (8, "#" * 24), (9, "#" * 24)):
            error, clock = Terminal(), mock.Mock(return_value=100.0)
            with mock.patch("sys.stderr", error), mock.patch("time.monotonic", clock), Progress("events") as bars:
                clock.return_value = 109.0
                bars.step(count, 8)
            self.assertEqual(error.getvalue(), f"\rsi-history: [{bar}] {count} events\r\x1b[K")

    def test_waiting(self) -> None:
        """The seconds are told while something else works, and the line is wiped."""
        said = "\rsi-history: auditing, 1 s\rsi-history: auditing, 2 s"
        error = Terminal()
        with mock.patch("sys.stderr", error), mock.patch.object(progress, "SILENT_SECONDS", 0.05), Waiting("auditing"):
            end = time.monotonic() + 60.0
            while said not in error.getvalue() and time.monotonic() < end:
                time.sleep(0.01)
        self.assertTrue(error.getvalue().startswith(said), error.getvalue())
        self.assertTrue(error.getvalue().endswith(WIPED))

    def test_waiting_is_silent(self) -> None:
        for error in (Terminal(), io.StringIO()):
            with mock.patch("sys.stderr", error), Waiting("auditing"):
                pass
            self.assertEqual(error.getvalue(), "")


WIPED = "\r\x1b[K"


def told(count: int, what: str = "lines of the report", bar: str = "") -> str:
    """What is shown at a step."""
    return f"\rsi-history: {bar}{count} {what}"


EVENTS = told(4, "events of the history", f"[{'#' * 16}{'.' * 8}] ") + WIPED


class CommandsTest(unittest.TestCase):
    """Commands at a terminal, told of every fifth line of a report of 11 lines, and of every fourth of 6 events.

    The clock goes on by ten seconds whenever it is asked, so that each step is shown.
    """

    def setUp(self) -> None:
        place = tempfile.TemporaryDirectory()
        self.addCleanup(place.cleanup)
        self.place = Path(place.name)
        (self.place / "history").write_text(LOST_UPDATE_HISTORY)
        (self.place / "report").write_text(LOST_UPDATE)
        (self.place / "legend").write_text(Legend({1: "T7", 2: "T8"}, {1: "k"}, [1, 2, 3, 4, 5, 6]).to_json(LOST_UPDATE_HISTORY.encode()))

    def said(self, status: int, *words: str) -> str:
        """What a command says on standard error. Words in capitals are files."""
        error, output = Terminal(), io.TextIOWrapper(io.BytesIO())
        with (
            mock.patch("sys.stderr", error), mock.patch("sys.stdout", output),
            mock.patch("time.monotonic", mock.Mock(side_effect=itertools.count(0.0, 10.0))),
            mock.patch.object(report_text, "LINES_BETWEEN_STEPS", 5), mock.patch.object(history, "EVENTS_BETWEEN_STEPS", 4),
        ):
            done = main([str(self.place / word.lower()) if word.isupper() else word for word in words])
        self.assertEqual(done, status, error.getvalue())
        return error.getvalue()

    def test_a_page(self) -> None:
        self.assertEqual(self.said(0, "page", "HISTORY", "REPORT", "-o", "PAGE"), told(5) + told(10) + WIPED + EVENTS)

    def test_names_go_through_the_report_twice(self) -> None:
        said = self.said(0, "names", "--legend", "LEGEND", "--history", "HISTORY", "REPORT")
        self.assertEqual(said, EVENTS + (told(5) + told(10)) * 2 + WIPED)

    def test_the_graph_of_a_cycle(self) -> None:
        self.assertEqual(self.said(0, "graph", "REPORT"), told(5) + told(10) + WIPED)

    def test_graphs_that_need_edges(self) -> None:
        """The pivots' edges, and all edges, are found by going through the report once more."""
        twice = (told(5) + told(10)) * 2 + WIPED
        self.assertEqual(self.said(0, "graph", "--all", "REPORT"), twice)
        pivots = "".join("serializable yes\norder 1 2\n" if line.startswith("serializable") else line
                         for line in LOST_UPDATE.splitlines(keepends=True) if not line.startswith("cycle"))
        (self.place / "report").write_text(pivots)
        self.assertEqual(self.said(0, "graph", "REPORT"), twice)

    def test_a_fault_is_told_on_a_line_that_is_wiped(self) -> None:
        """The legend lacks key 1. An edge is drawn once the line behind it is read, so the fault comes after line 5."""
        (self.place / "legend").write_text(Legend({1: "T7", 2: "T8"}, {}, [1, 2, 3, 4, 5, 6]).to_json(LOST_UPDATE_HISTORY.encode()))
        self.assertEqual(
            self.said(2, "graph", "--all", "--legend", "LEGEND", "--history", "HISTORY", "REPORT"),
            EVENTS + told(5) + told(10) + told(5) + WIPED + "si-history: the legend has no name for key 1\n",
        )


if __name__ == "__main__":
    unittest.main()
