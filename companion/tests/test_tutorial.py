"""The tutorial and the page on long histories: their commands print what the pages say, and they are as long as they may be."""

from __future__ import annotations

import unittest

from tests.page_commands import commands, place
from tests.support import NO_PROGRAM, PROGRAM, REPOSITORY

PAGE = REPOSITORY / "docs" / "TUTORIAL.md"
SCALE = REPOSITORY / "docs" / "SCALE.md"
STORE = REPOSITORY / "examples" / "tutorial" / "store.py"
MOST_WORDS = 600


class TutorialTest(unittest.TestCase):
    def test_lengths(self) -> None:
        for page in (PAGE, SCALE):
            self.assertLessEqual(len(page.read_text(encoding="utf-8").split()), MOST_WORDS)
        self.assertLessEqual(len(STORE.read_text(encoding="utf-8").splitlines()), 101)

    @unittest.skipUnless(PROGRAM.exists(), NO_PROGRAM)
    def test_the_commands_print_what_the_page_says(self) -> None:
        told = commands(PAGE)
        self.assertEqual(len(told), 5)
        with place() as here:
            for command, shown in told:
                done = here.run(command)
                with self.subTest(command=command):
                    self.assertEqual(done.stderr, "")
                    self.assertEqual(done.returncode, 1 if "bad.html" in command else 0)
                    # The page shows the first finding alone.
                    self.assertEqual(done.stdout[:len(shown)], shown)
                    self.assertEqual(bool(done.stdout), bool(shown))
            self.assertIn("Bad write", (here.path / "bad.html").read_text(encoding="utf-8"))

    @unittest.skipUnless(PROGRAM.exists(), NO_PROGRAM)
    def test_the_page_on_long_histories(self) -> None:
        told = commands(SCALE)
        self.assertEqual(len(told), 3)
        with place() as here:
            for command, shown in told:
                done = here.run(command)
                with self.subTest(command=command):
                    self.assertEqual((done.returncode, done.stderr), (0, ""))
                    self.assertEqual(done.stdout.rstrip("\n"), shown)


if __name__ == "__main__":
    unittest.main()
