"""Completion: what may stand next, by the parser itself, and the scripts of the shells."""

from __future__ import annotations

import os
import shutil
import subprocess
import sys
import tempfile
import unittest
from pathlib import Path

from si_history.cli import COMMANDS, make_parser
from si_history.completion import candidates
from tests.support import COMPANION, LONG_SECONDS, run_command


class CandidatesTest(unittest.TestCase):
    def completed(self, *typed: str) -> list[str]:
        return candidates(make_parser(), typed)

    def test_commands(self) -> None:
        self.assertGreater(len(self.completed("")), len(COMMANDS))
        self.assertEqual(self.completed("from-e"), ["from-events"])
        self.assertEqual(self.completed("record", "po"), ["postgres"])
        self.assertEqual(self.completed("nosuch"), [])
        self.assertEqual(self.completed(), [])

    def test_options(self) -> None:
        self.assertEqual(self.completed("--ver"), ["--version"])
        self.assertEqual(self.completed("audit", "--j"), ["--json", "--junit"])
        self.assertEqual(self.completed("audit", "run.jsonl", "--js"), ["--json"])
        self.assertIn("--seed", self.completed("record", "postgres", "-"))
        self.assertNotIn("--seed", self.completed("names", "-"))

    def test_choices(self) -> None:
        self.assertEqual(self.completed("audit", "--check", ""), ["gsi", "si", "ssi", "serializable"])
        self.assertEqual(self.completed("audit", "--check", "s"), ["si", "ssi", "serializable"])
        self.assertEqual(self.completed("audit", "--check", "se"), ["serializable"])
        self.assertEqual(self.completed("audit", "--quiet", "--check", "ss"), ["ssi"])

    def test_files(self) -> None:
        """Where a file name may stand nothing is told, and the shell completes file names."""
        self.assertEqual(self.completed("audit", ""), [])
        self.assertEqual(self.completed("audit", "--page", ""), [])
        self.assertEqual(self.completed("audit", "--page", "from-e"), [])

    def test_the_command(self) -> None:
        done = run_command("completion", "words", "audit", "--he")
        self.assertEqual((done.returncode, done.stdout, done.stderr), (0, b"--help\n", b""))
        self.assertEqual(run_command("completion", "csh").returncode, 2)


class ShellTest(unittest.TestCase):
    """The scripts, in the shells that are installed. There `si-history` is a script beside the test's files."""

    def setUp(self) -> None:
        directory = tempfile.TemporaryDirectory()
        self.addCleanup(directory.cleanup)
        self.place = Path(directory.name)
        command = self.place / "si-history"
        command.write_text(f'#!/bin/sh\nexec {sys.executable} -m si_history "$@"\n')
        command.chmod(0o755)

    def run_shell(self, shell: str, line: str) -> str:
        done = subprocess.run(
            [shell, "-c", line], capture_output=True, timeout=LONG_SECONDS, cwd=self.place,
            env={**os.environ, "PATH": f"{self.place}:{os.environ['PATH']}", "PYTHONPATH": str(COMPANION)},
        )
        self.assertEqual((done.returncode, done.stderr), (0, b""))
        return done.stdout.decode()

    @unittest.skipUnless(shutil.which("bash"), "left out: there is no bash")
    def test_bash(self) -> None:
        for words, index, wanted in (("si-history from-t", 1, "from-transactions"), ("si-history audit --check se", 3, "serializable"), ("si-history audit x", 2, "")):
            line = f'source <(si-history completion bash); COMP_WORDS=({words}) COMP_CWORD={index}; _si_history; printf "%s" "${{COMPREPLY[*]}}"'
            self.assertEqual(self.run_shell("bash", line), wanted)
        self.assertEqual(self.run_shell("bash", "source <(si-history completion bash); complete -p si-history"), "complete -o default -F _si_history si-history\n")

    @unittest.skipUnless(shutil.which("zsh"), "left out: there is no zsh")
    def test_zsh(self) -> None:
        """The functions of zsh's completion system are replaced by ones that tell what they were given."""
        said = "compdef() { echo compdef $@ }; compadd() { echo ${(P)2} }; _files() { echo files }; source =(si-history completion zsh);"
        for words, wanted in (("si-history from-t", "from-transactions"), ("si-history audit --check s", "si ssi serializable"), ("si-history audit x", "files")):
            line = f"{said} words=({words}); CURRENT=${{#words}}; _si_history"
            self.assertEqual(self.run_shell("zsh", line), f"compdef _si_history si-history\n{wanted}\n")


if __name__ == "__main__":
    unittest.main()
