"""A history, its report and its legend go together: each command that takes several of them refuses another's."""

from __future__ import annotations

import tempfile
import unittest
from pathlib import Path

from si_history.legend import Legend
from tests.pages import LOST_UPDATE_HISTORY
from tests.support import REPOSITORY, run_command
from tests.test_report import LOST_UPDATE

OTHER = "r1[1:0] r2[1:0] w1[1] w2[1] c2 c1"
SAID = "si-history: H: the legend is of another history: it was not written with this text\n"


class CommandsTest(unittest.TestCase):
    def run_with_legend(self, of: str, *words: str) -> tuple[int, bytes, str]:
        """What a command says of a lost update, with the legend of a history. H, R and L are the files."""
        with tempfile.TemporaryDirectory() as directory:
            legend = Legend({1: "T7", 2: "T8"}, {1: "k"}, [1, 2, 3, 4, 5, 6]).to_json(of.encode())
            for name, text in (("H", LOST_UPDATE_HISTORY), ("R", LOST_UPDATE), ("L", legend)):
                (Path(directory) / name).write_text(text)
            done = run_command(*(str(Path(directory) / word) if word in ("H", "R", "L") else word for word in words))
            return done.returncode, done.stdout, done.stderr.decode().replace(f"{directory}/", "")

    def test_a_legend_of_another_history(self) -> None:
        """Both histories have as many events, transactions and findings."""
        for words in (["names", "--legend", "L", "--history", "H", "R"], ["graph", "--legend", "L", "--history", "H", "R"],
                      ["page", "H", "R", "--legend", "L"], ["page", "--svg", "H", "R", "--legend", "L"]):
            with self.subTest(words=words):
                status, output, said = self.run_with_legend(LOST_UPDATE_HISTORY, *words)
                self.assertEqual((status, said), (0, ""))
                self.assertIn(b"T8", output)
                self.assertEqual(self.run_with_legend(OTHER, *words), (2, b"", SAID))

    def test_legends_of_the_examples(self) -> None:
        legends = sorted(REPOSITORY.glob("examples/**/*.legend"))
        self.assertGreater(len(legends), 5)
        for path in legends:
            with self.subTest(path=path.name):
                Legend.from_json(path.read_text()).check(path.with_suffix(".history").read_bytes())


if __name__ == "__main__":
    unittest.main()
