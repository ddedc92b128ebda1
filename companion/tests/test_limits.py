"""Limits of a history that the command line chooses: what the auditor is told of them, and what is taken within them."""

from __future__ import annotations

import argparse
import json
import tempfile
import unittest
from pathlib import Path

from si_history.auditor import Auditor
from si_history.limits import GREATEST, STANDARD, Limits, add_limit_arguments, limits_of
from tests.fake_auditor import fake_auditor
from tests.support import MARKED, NO_PROGRAM, PROGRAM, run_command

EVENTS = [{"txn": "A", "op": "write", "key": key} for key in range(3)] + [{"txn": "A", "op": "commit"}]
LOG = "".join(json.dumps(event) + "\n" for event in EVENTS)
LONG = "".join(f"w{number}[{number}]\nc{number}\n" for number in range(1, 50_002))
"""A history of 100,002 events."""


def limits(*words: str) -> Limits:
    """The limits that these words ask for."""
    parser = argparse.ArgumentParser(exit_on_error=False)
    add_limit_arguments(parser)
    return limits_of(parser.parse_args(words))


class OptionsTest(unittest.TestCase):
    def test_limits(self) -> None:
        self.assertEqual(limits(), STANDARD)
        self.assertEqual(limits("--max-events", "1", "--max-bytes", "7"), Limits(1, 7))
        self.assertEqual(limits("--max-events", "500000000", "--max-bytes", "17179869184"), GREATEST)
        self.assertEqual(limits_of(argparse.Namespace()), STANDARD)

    def test_numbers_out_of_range(self) -> None:
        for name, words in (("events", ("0", "500000001", "-1", "x", "", "9" * 5_000)), ("bytes", ("0", "17179869185", "1e9", "\u0661"))):
            for word in words:
                with self.subTest(name=name, word=word[:20]), self.assertRaisesRegex(argparse.ArgumentError, "is no number from 1 to "):
                    limits(f"--max-{name}={word}")

    def test_what_the_auditor_is_told(self) -> None:
        """It is told of a limit that is another than its own, and of no other: so an older one goes on to serve."""
        self.assertEqual(STANDARD.words, [])
        self.assertEqual(Limits(events=1_000_000).words, ["--max-events", "1000000"])
        self.assertEqual(Limits(bytes=9).words, ["--max-bytes", "9"])
        self.assertEqual(Limits(5, 9).words, ["--max-events", "5", "--max-bytes", "9"])


class CommandsTest(unittest.TestCase):
    def setUp(self) -> None:
        directory = tempfile.TemporaryDirectory()
        self.addCleanup(directory.cleanup)
        self.place = Path(directory.name)
        (self.place / "runs").mkdir()

    def put(self, text: str, name: str = "run.log") -> str:
        path = self.place / "runs" / name
        path.write_text(text)
        return str(path)

    def test_what_the_auditor_is_given(self) -> None:
        path = fake_auditor(self.place, f'echo "$*" >>{self.place}/given; echo no >&2; exit 4')
        log, words = self.put(LOG), ("--max-events", "200000", "--max-bytes", "50000000", "--auditor", path)
        for command in (("audit", log), ("audit-many", str(self.place / "runs")), ("minimize", log)):
            run_command(command[0], *words, command[1])
        run_command("audit", "--auditor", path, log)
        front = "--max-events 200000 --max-bytes 50000000 "
        given = (self.place / "given").read_text().splitlines()
        self.assertEqual(given, [f"{front}--explain --check si"] * 3 + ["--explain --check si"])

    def test_logs(self) -> None:
        log = self.put(LOG)
        taken = run_command("from-events", "--max-events", "4", "--max-bytes", "21", log)
        self.assertEqual((taken.returncode, taken.stdout), (0, b"w1[0]\nw1[1]\nw1[2]\nc1\n"))
        for option, said in (
            ("--max-events=3", "line 4: too many events: the limit of events of a history is 3, which --max-events changes"),
            ("--max-bytes=20", "text too long: the history would have 21 bytes, and the limit of bytes is 20"),
        ):
            refused = run_command("from-events", option, log)
            self.assertEqual((refused.returncode, refused.stdout), (2, MARKED))
            self.assertTrue(refused.stderr.decode().strip().endswith(said), refused.stderr)

    @unittest.skipUnless(PROGRAM.exists(), NO_PROGRAM)
    def test_the_program(self) -> None:
        outcome = Auditor.found(str(PROGRAM), limits=Limits(1, 9)).run(b"w1[1] c1\n", ["--explain"])
        self.assertEqual(outcome.report, b"refused: token 2: too many events\n  line 1, column 7: c1\n")
        outcome = Auditor.found(str(PROGRAM), limits=Limits(2, 8)).run(b"w1[1] c1\n", ["--explain"])
        self.assertEqual(outcome.report, b"refused: text too long\n")

    @unittest.skipUnless(PROGRAM.exists(), NO_PROGRAM)
    def test_a_long_history(self) -> None:
        history = self.put(LONG, "run.history")
        words = ("--auditor", str(PROGRAM), history)
        refused = run_command("audit", *words)
        self.assertEqual(refused.returncode, 3)
        self.assertTrue(refused.stderr.endswith(b": too many events: w50001[50001]); --max-events lets it be longer\n"), refused.stderr)
        taken = run_command("audit", "--max-events", "100002", *words)
        self.assertEqual((taken.returncode, taken.stderr), (0, b""))
        self.assertIn(b"100,002 events", taken.stdout)
        many = run_command("audit-many", "--max-events", "100002", "--auditor", str(PROGRAM), str(self.place / "runs"))
        self.assertEqual((many.returncode, many.stderr), (0, b""))


if __name__ == "__main__":
    unittest.main()
