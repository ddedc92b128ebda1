"""Where words go: to the device that they are meant for or nowhere, with the status that is documented, and never a traceback."""

from __future__ import annotations

import os
import shlex
import signal
import subprocess
import sys
import tempfile
import textwrap
import unittest
from pathlib import Path

from tests.support import COMPANION, LONG_SECONDS, MARKED, REPOSITORY, log_of

LOG = log_of([{"txn": "A", "op": "write", "key": "k"}, {"txn": "A", "op": "commit"}])
COMMAND = f"{shlex.quote(sys.executable)} -B -m si_history"
FULL = "/dev/full"


def run_shell(line: str, given: bytes = b"") -> tuple[int, bytes, bytes]:
    """Runs a line of the shell, `si-history` being the command. Answers the status, and what came on both outputs."""
    done = subprocess.run(["sh", "-c", line.replace("si-history", COMMAND)], input=given, capture_output=True,
                          timeout=LONG_SECONDS, env={**os.environ, "PYTHONPATH": str(COMPANION)})
    return done.returncode, done.stdout, done.stderr


class ErrorsTest(unittest.TestCase):
    """With standard error closed or full the status alone tells, and no word of an error reaches standard output."""

    def test_standard_error_is_closed(self) -> None:
        for words in ("from-events /no/such/file", "from-events", "no-such-command", "names --legend /no/such/file -",
                      "page - - -o x", "record postgres --sessions 1", "from-events --legend /no/such/legend -"):
            with self.subTest(words):
                output = b"" if words.startswith(("names", "page")) else MARKED
                self.assertEqual(run_shell(f"si-history {words} 2>&-", LOG), (2, output, b""))

    def test_what_is_written_is_whole_with_standard_error_closed(self) -> None:
        with tempfile.TemporaryDirectory() as place:
            legend = Path(place) / "legend"
            status, output, _ = run_shell(f"si-history from-events --legend {legend} - 2>&-", LOG)
            self.assertEqual((status, output), (0, b"w1[0]\nc1\n"))
            self.assertTrue(legend.read_text().startswith('{"format"'))

    @unittest.skipUnless(os.path.exists(FULL), "left out: there is no /dev/full")
    def test_standard_error_is_full(self) -> None:
        for words in ("from-events /no/such/file", "from-events", "no-such-command"):
            with self.subTest(words):
                self.assertEqual(run_shell(f"si-history {words} 2>{FULL}"), (2, MARKED, b""))


class HelpTest(unittest.TestCase):
    """Help and version are output like any other."""

    @unittest.skipUnless(os.path.exists(FULL), "left out: there is no /dev/full")
    def test_a_full_device(self) -> None:
        for words in ("--help", "--version", "from-events --help", "record postgres --help"):
            with self.subTest(words):
                self.assertEqual(run_shell(f"si-history {words} >{FULL}"),
                                 (2, b"", b"si-history: standard output: can't be written: No space left on device\n"))

    def test_a_closed_device(self) -> None:
        for words in ("--help", "--version", "page --help"):
            with self.subTest(words):
                self.assertEqual(run_shell(f"si-history {words} >&-"),
                                 (2, b"", b"si-history: standard output: can't be written: it is closed\n"))

    def test_a_reader_that_ends_early(self) -> None:
        for words in ("--help", "--version", "record --help"):
            with self.subTest(words):
                status, _, said = run_shell(f"{{ sleep 0.5; si-history {words}; echo $? >&2; }} | true")
                self.assertEqual((status, said), (0, b"0\n"))


class NamesTest(unittest.TestCase):
    """What a file or an argument is called can't upset a terminal, and an error stays on one line."""

    ODD = "a\x1b[31mb\nc\x9bd\u202e"
    SHOWN = "a\\x1b[31mb\\x0ac\\xc2\\x9bd\\xe2\\x80\\xae"

    def check_shown(self, *words: str) -> None:
        done = subprocess.run([sys.executable, "-B", "-m", "si_history", *words], capture_output=True, timeout=LONG_SECONDS,
                              env={**os.environ, "PYTHONPATH": str(COMPANION), "PYTHONUTF8": "1"})
        said = done.stderr.decode()
        self.assertEqual((done.returncode, said.count("\n"), done.stdout), (2, 1, MARKED if words[0] == "from-events" else b""))
        self.assertTrue(said[:-1].isprintable(), said)
        return self.assertIn(self.SHOWN, said)

    def test_a_file(self) -> None:
        self.check_shown("from-events", self.ODD)
        self.check_shown("page", self.ODD, self.ODD, "-o", self.ODD)
        self.check_shown("names", "--legend", self.ODD, "--history", "nosuch", "-")

    def test_an_argument(self) -> None:
        self.check_shown("from-events", "-", self.ODD)
        self.check_shown("from-events", "-", f"--{self.ODD}")

    def test_bytes_that_are_no_utf_8(self) -> None:
        done = subprocess.run([sys.executable, "-B", "-m", "si_history", "from-events", b"\xff\x1b"], capture_output=True,
                              timeout=LONG_SECONDS, env={**os.environ, "PYTHONPATH": str(COMPANION), "PYTHONUTF8": "1"})
        self.assertEqual((done.returncode, done.stderr), (2, b"si-history: \\xff\\x1b: No such file or directory\n"))


class InterruptsTest(unittest.TestCase):
    """An interrupt at the keyboard gives status 130 and no traceback, whatever is under way, and no empty history."""

    def check_ended(self, module: str, number: int, status: int) -> None:
        """A signal comes while this module is looked for."""
        script = textwrap.dedent(f"""
            import os, runpy, signal, sys
            class Interrupt:
                def find_spec(self, name, *_):
                    if name == {module!r}:
                        os.kill(os.getpid(), {int(number)})
            sys.meta_path.insert(0, Interrupt())
            sys.argv = ["si-history", "--version"]
            runpy.run_module("si_history", run_name="__main__")
        """)
        done = subprocess.run([sys.executable, "-B", "-c", script], capture_output=True, timeout=LONG_SECONDS,
                              env={**os.environ, "PYTHONPATH": str(COMPANION)})
        self.assertEqual((done.returncode, done.stdout, done.stderr), (status, MARKED, b""))

    def test_modules_load(self) -> None:
        for module in ("si_history.cli", "argparse", "si_history.graph", "json.decoder", "si_history.record.command"):
            with self.subTest(module):
                self.check_ended(module, signal.SIGINT, 130)
        for number in (signal.SIGTERM, signal.SIGHUP):
            self.check_ended("si_history.cli", number, -number)

    def test_input_is_awaited(self) -> None:
        with subprocess.Popen([sys.executable, "-B", "-m", "si_history", "from-events", "-"], stdin=subprocess.PIPE,
                              stdout=subprocess.PIPE, stderr=subprocess.PIPE,
                              env={**os.environ, "PYTHONPATH": str(COMPANION)}) as process:
            assert process.stdin is not None
            process.stdin.write(LOG)
            process.stdin.flush()
            wait_for_read(process.pid)
            process.send_signal(signal.SIGINT)
            # Standard input stays open until the process has ended.
            self.assertEqual((process.wait(LONG_SECONDS), process.communicate()), (130, (MARKED, b"")))

    def test_a_process_that_ignores_interrupts_goes_on(self) -> None:
        status, output, said = run_shell("trap '' INT; si-history --version & wait $!", b"")
        self.assertEqual((status, output[:11], said), (0, b"si-history ", b""))


def wait_for_read(process: int) -> None:
    """Waits until a process sleeps in a read of its standard input."""
    wait = "while ! grep -q '^0 0x0 ' /proc/%d/syscall 2>/dev/null; do sleep 0.05; done" % process
    subprocess.run(["sh", "-c", wait], timeout=LONG_SECONDS, check=False)


class IsolatedTest(unittest.TestCase):
    """An installed si-history takes no module from beside it, and nothing from the environment."""

    def test_files_beside_it_are_no_modules(self) -> None:
        with tempfile.TemporaryDirectory() as place:
            done = subprocess.run(["sh", "tools/install_companion.sh"], cwd=REPOSITORY, capture_output=True, timeout=LONG_SECONDS,
                                  env={**os.environ, "DESTDIR": place, "PREFIX": "/usr"})
            self.assertEqual(done.returncode, 0, done.stderr)
            command = Path(place) / "usr" / "bin" / "si-history"
            for module in ("argparse", "json", "signal", "os", "si_history"):
                for directory in (command.parent, Path(place)):
                    (directory / f"{module}.py").write_text(f"raise SystemExit('this is another {module}')\n")
            done = subprocess.run([command, "from-events", "-"], input=LOG, cwd=place, capture_output=True, timeout=LONG_SECONDS,
                                  env={**os.environ, "PYTHONPATH": place, "PYTHONSTARTUP": f"{place}/os.py"})
            self.assertEqual((done.returncode, done.stdout, done.stderr), (0, b"w1[0]\nc1\n", b""))


if __name__ == "__main__":
    unittest.main()
