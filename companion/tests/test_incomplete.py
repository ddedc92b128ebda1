"""The mark: whatever stage of a pipe fails that writes a history, no auditor takes what it wrote for a whole one."""

from __future__ import annotations

import os
import signal
import subprocess
import sys
import tempfile
import time
import unittest
from pathlib import Path

from si_history.errors import BadInput
from si_history.history import parse
from si_history.incomplete import MARK
from tests.support import COMPANION, LONG_SECONDS, MARKED, NO_PROGRAM, PROGRAM, REPOSITORY, log_of, run_command

EVENTS = log_of([{"txn": "A", "op": "write", "key": "k"}, {"txn": "A", "op": "commit"}])
LONG_LOG = log_of([{"txn": f"t{n}", "op": "abort"} for n in range(20_000)])
COMMAND = f"{sys.executable} -m si_history"
ENVIRONMENT = {**os.environ, "PYTHONPATH": str(COMPANION)}


def run_shell(line: str, given: bytes = b"") -> subprocess.CompletedProcess[bytes]:
    """Runs a line of the shell, in which $AUDITOR is the auditor's program."""
    return subprocess.run(
        ["sh", "-c", line], input=given, capture_output=True, timeout=LONG_SECONDS, env={**ENVIRONMENT, "AUDITOR": str(PROGRAM)}
    )


class MarkTest(unittest.TestCase):
    def test_no_history_has_it(self) -> None:
        for text in (MARK, f"w1[1]{MARK}", f"w1[1] c1\n{MARK}\n", f"c1{MARK}"):
            with self.subTest(text=text), self.assertRaisesRegex(BadInput, "bad event"):
                parse(text)

    @unittest.skipUnless(PROGRAM.exists(), NO_PROGRAM)
    def test_the_auditor_refuses_it(self) -> None:
        for text in (MARK, f"w1[1]{MARK}", f"w1[1] c1\n{MARK}\n", f"c1{MARK}"):
            with self.subTest(text=text):
                done = subprocess.run([PROGRAM], input=text.encode(), capture_output=True, timeout=LONG_SECONDS)
                self.assertEqual((done.returncode, done.stdout[:8]), (3, b"refused:"))

    def test_commands_that_write_no_history_leave_it_out(self) -> None:
        for words in (["names"], ["graph", "nosuch"], ["page", "nosuch", "nosuch"], ["names", "--legend", "nosuch"]):
            with self.subTest(words=words):
                done = run_command(*words)
                self.assertEqual((done.returncode, done.stdout, done.stderr.count(b"\n")), (2, b"", 1))

    def test_an_output_that_goes_elsewhere(self) -> None:
        """Where the history is to stand in a file that --output names, nothing is on standard output, and no mark is."""
        words = f"import sys; sys.path.insert(0, {str(COMPANION)!r}); from si_history.cli import main; sys.exit(main(sys.argv[1:]))"
        for output, marked in (("nosuch/x", b""), ("-", MARKED)):
            done = subprocess.run(
                [sys.executable, "-I", "-S", "-c", words, "record", "postgres", "-o", output], capture_output=True, timeout=LONG_SECONDS
            )
            self.assertEqual((done.returncode, done.stdout, done.stderr.count(b"\n")), (2, marked, 1))

    def test_what_is_no_failure_has_none(self) -> None:
        for words in (["--help"], ["--version"], ["from-events", "--help"], ["record", "postgres", "--help"]):
            with self.subTest(words=words):
                done = run_command(*words)
                self.assertEqual((done.returncode, MARK.encode() + b"\n" in done.stdout), (0, False))

    def test_no_python(self) -> None:
        command = REPOSITORY / "companion" / "si-history"
        done = subprocess.run(["/bin/sh", command, "from-events", "-"], capture_output=True, timeout=LONG_SECONDS, env={"PATH": "/nowhere"})
        self.assertEqual((done.returncode, done.stdout, done.stderr), (2, MARKED, b"si-history: there is no python3\n"))


@unittest.skipUnless(PROGRAM.exists(), NO_PROGRAM)
class PipeTest(unittest.TestCase):
    """Pipes of which a stage fails: the auditor at their end refuses, with status 3."""

    def refused(self, stages: str, given: bytes = b"") -> None:
        done = run_shell(f"{stages} | $AUDITOR", given)
        self.assertEqual((done.returncode, done.stdout[:8]), (3, b"refused:"), done.stderr)

    def test_bad_logs(self) -> None:
        for given in (b"", b"{}\n", EVENTS + b"{", EVENTS[:-3], b"\xff\n"):
            for command in ("from-events", "from-transactions"):
                with self.subTest(given=given, command=command):
                    self.refused(f"{COMMAND} {command} -", given)

    def test_an_empty_log_is_told(self) -> None:
        for command in ("from-events", "from-transactions"):
            done = run_command(command, "-")
            said = b"si-history: standard input: the log has no event, so there is no history of it\n"
            self.assertEqual((done.returncode, done.stdout, done.stderr), (2, MARKED, said))

    def test_files_that_are_missing(self) -> None:
        self.refused(f"{COMMAND} from-events nosuch.jsonl")
        self.refused(f"{COMMAND} from-transactions nosuch.jsonl")

    def test_command_lines_that_are_faulty(self) -> None:
        for words in (
            "", "from-evnts -", "from-events", "from-events - --legnd x", "record", "record oracle", "record postgres --keys 1",
        ):
            with self.subTest(words=words):
                self.refused(f"{COMMAND} {words}", EVENTS)

    def test_a_python_without_a_driver(self) -> None:
        words = f"import sys; sys.path.insert(0, '{COMPANION}'); from si_history.cli import main; sys.exit(main(sys.argv[1:]))"
        python = f'{sys.executable} -I -S -c "{words}"'
        self.refused(f"{python} record mariadb --format history")
        self.refused(f"{python} record postgres --format events | {python} from-events -")
        self.refused(f"{python} record postgres | {python} from-transactions -")

    def test_the_first_lines_cut_away(self) -> None:
        done = run_shell(f"{COMMAND} from-events nosuch.jsonl | $AUDITOR | sed -n 2,3p")
        self.assertEqual(done.stdout, b"")

    def test_a_command_that_is_not_whole(self) -> None:
        with tempfile.TemporaryDirectory() as directory:
            path = Path(directory) / "si-history"
            path.write_bytes((REPOSITORY / "companion" / "si-history").read_bytes())
            done = subprocess.run(
                [sys.executable, "-I", str(path), "from-events", "-"],
                input=EVENTS, capture_output=True, timeout=LONG_SECONDS, cwd=directory,
            )
        self.assertEqual((done.returncode, done.stdout), (2, MARKED))
        self.assertRegex(done.stderr, rb"^si-history: it is not installed whole: [^\n]*\n$")


class FileTest(unittest.TestCase):
    def setUp(self) -> None:
        directory = tempfile.TemporaryDirectory()
        self.addCleanup(directory.cleanup)
        self.path = Path(directory.name) / "run.history"

    def test_a_file_without_room(self) -> None:
        """A file that may have at most so many blocks has the mark in the place of the front of a history."""
        for unbuffered in ("", "1"):
            with self.subTest(unbuffered=unbuffered):
                done = run_shell(f"ulimit -f 2; PYTHONUNBUFFERED={unbuffered} {COMMAND} from-events - >'{self.path}'", LONG_LOG)
                said = b"si-history: standard output: can't be written: File too large\n"
                self.assertEqual((done.returncode, done.stderr, self.path.read_bytes()), (2, said, MARKED))

    def test_a_file_without_room_that_had_something(self) -> None:
        self.path.write_bytes(b"w1[1]\n")
        run_shell(f"ulimit -f 2; {COMMAND} from-events - >>'{self.path}'", LONG_LOG)
        self.assertEqual(self.path.read_bytes(), b"w1[1]\n" + MARKED)

    def test_a_failure_behind_what_was_there(self) -> None:
        run_shell(f"{{ echo 'w1[1]'; {COMMAND} from-events -; }} >'{self.path}'", b"{}\n")
        self.assertEqual(self.path.read_bytes(), b"w1[1]\n" + MARKED)

    def test_an_output_that_is_the_input_is_left_alone(self) -> None:
        self.path.write_bytes(EVENTS)
        done = run_shell(f"{COMMAND} from-events '{self.path}' >>'{self.path}'")
        self.assertEqual((done.returncode, self.path.read_bytes()), (2, EVENTS))

    def test_a_terminal_shows_none(self) -> None:
        master, slave = os.openpty()
        done = subprocess.run(
            [sys.executable, "-m", "si_history", "from-events", "nosuch"], stdout=slave, stderr=subprocess.PIPE,
            env=ENVIRONMENT, timeout=LONG_SECONDS,
        )
        os.close(slave)
        self.assertEqual(done.returncode, 2)
        with os.fdopen(master, "rb", buffering=0) as file:
            with self.assertRaises(OSError):  # the terminal is gone, and nothing was written to it
                file.read(1)


class SignalTest(unittest.TestCase):
    def ended_by(self, number: int) -> tuple[int, bytes]:
        """The status and the output of a command that waits for its log when the signal comes."""
        with subprocess.Popen(
            [sys.executable, "-m", "si_history", "from-events", "-"],
            stdin=subprocess.PIPE, stdout=subprocess.PIPE, stderr=subprocess.PIPE, env=ENVIRONMENT,
        ) as process:
            assert process.stdin is not None
            process.stdin.write(LONG_LOG)
            process.stdin.flush()
            self.wait_until_it_reads(process.pid)
            process.send_signal(number)
            output, _ = process.communicate(timeout=LONG_SECONDS)
        return process.returncode, output

    def wait_until_it_reads(self, number: int) -> None:
        """Waits until a process has the handler that says that its command runs."""
        end = time.monotonic() + LONG_SECONDS
        while time.monotonic() < end:
            status = Path(f"/proc/{number}/status").read_text()
            caught = next(int(line.split()[1], 16) for line in status.splitlines() if line.startswith("SigCgt"))
            if caught >> (signal.SIGTERM - 1) & 1:
                return
            time.sleep(0.01)
        self.fail("the command doesn't start")

    @unittest.skipUnless(os.path.exists("/proc/self/status"), "left out: there is no /proc")
    def test_signals(self) -> None:
        for number in (signal.SIGTERM, signal.SIGHUP):
            with self.subTest(number=number):
                self.assertEqual(self.ended_by(number), (-number, MARKED))
        self.assertEqual(self.ended_by(signal.SIGINT), (130, MARKED))


if __name__ == "__main__":
    unittest.main()
