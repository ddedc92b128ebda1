"""The man page names each command, and each option of audit."""

from __future__ import annotations

import argparse
import unittest

from si_history.cli import make_parser
from tests.support import REPOSITORY

PAGE = (REPOSITORY / "docs" / "si-history.1").read_text().replace("\\-", "-").replace("\\~", " ")


def commands() -> dict[str, argparse.ArgumentParser]:
    """The commands, by their names."""
    actions = [action for action in make_parser()._actions if isinstance(action, argparse._SubParsersAction)]
    return dict(actions[0].choices)


class ManPageTest(unittest.TestCase):
    def test_commands(self) -> None:
        for name in commands():
            with self.subTest(name=name):
                self.assertIn(f"\n.TP\n.B {name}\n", PAGE)

    def test_options_of_audit(self) -> None:
        options = {word for action in commands()["audit"]._actions for word in action.option_strings if word.startswith("--")}
        shared = {"--help", "--values", "--unknown-writer", "--unknown-values", "--intermediate"}
        for option in options - shared:
            with self.subTest(option=option):
                self.assertRegex(PAGE, rf"\n\.TP\n\.BI? {option}( |\n)")

    def test_statuses(self) -> None:
        for status in (0, 1, 2, 3, 4, 5, 130):
            self.assertIn(f"\n.TP\n.B {status}\n", PAGE)


if __name__ == "__main__":
    unittest.main()
