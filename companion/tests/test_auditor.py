"""The auditor's program: found or told to be missing or old, and each way in which a run of it ends."""

from __future__ import annotations

import argparse
import os
import tempfile
import unittest
from collections.abc import Callable
from pathlib import Path
from unittest import mock

from si_history import auditor
from si_history.auditor import Auditor, Ending, Outcome
from si_history.errors import BadInput
from si_history.memory import in_words, machine_memory, memory_limit, size_of
from tests.fake_auditor import fake_auditor
from tests.support import NO_PROGRAM, PROGRAM

REPORT = "events 0 committed 0 aborted 0 open 0\nisolation kept\nssi pass\nserializable yes\norder\n"
ECHO = f"cat >/dev/null; printf '{REPORT}'".replace("\n", "\\n")
LONG_HISTORY = b"".join(b"w%d[%d]\n" % (n % 1000 + 1, n) for n in range(90_000))


class InDirectory(unittest.TestCase):
    """A test with a directory of its own."""

    def setUp(self) -> None:
        directory = tempfile.TemporaryDirectory()
        self.addCleanup(directory.cleanup)
        self.directory = directory.name

    def fake(self, body: str) -> Auditor:
        """An auditor that is a script."""
        return Auditor.found(fake_auditor(self.directory, body))


class FoundTest(InDirectory):
    def refused(self, said: str, find: Callable[[], object]) -> None:
        with self.assertRaises(BadInput) as caught:
            find()
        self.assertEqual(str(caught.exception).replace(self.directory, "D"), said)

    def test_by_name(self) -> None:
        path = fake_auditor(self.directory, ECHO)
        found = Auditor.found(path, 1 << 30)
        self.assertEqual((found.path, found.version, found.memory), (path, "0.2.0", 1 << 30))
        self.assertEqual(Auditor.found(path).memory, memory_limit())

    def test_newer_ones(self) -> None:
        for version in ("0.2.1", "0.10.0", "1.0.0"):
            with self.subTest(version=version):
                self.assertEqual(Auditor.found(fake_auditor(self.directory, "", f"echo si_audit {version}")).version, version)

    def test_beside_the_command_and_on_the_path(self) -> None:
        beside, elsewhere = Path(self.directory, "bin"), Path(self.directory, "other")
        beside.mkdir()
        elsewhere.mkdir()
        path = fake_auditor(elsewhere, ECHO)
        with mock.patch("sys.argv", [str(beside / "si-history")]), mock.patch.dict(os.environ, {"PATH": f"{elsewhere}:/bin:/usr/bin"}):
            self.assertEqual(Auditor.found().path, path)
            first = fake_auditor(beside, ECHO)
            self.assertEqual(Auditor.found().path, first)

    def test_nowhere(self) -> None:
        words = "there is no si_audit beside this command, nor on the PATH: install it, or name it by --auditor"
        with mock.patch("sys.argv", [f"{self.directory}/si-history"]), mock.patch.dict(os.environ, {"PATH": self.directory}):
            self.refused(words, Auditor.found)

    def test_missing(self) -> None:
        self.refused('there is no auditor "D/none"', lambda: Auditor.found(f"{self.directory}/none"))
        self.refused('there is no auditor "D"', lambda: Auditor.found(self.directory))

    def test_that_can_not_be_started(self) -> None:
        path = Path(self.directory, "si_audit")
        path.write_bytes(b"\x7fELF no program")
        path.chmod(0o755)
        self.refused('the auditor "D/si_audit" can\'t be started: Exec format error', lambda: Auditor.found(str(path)))
        path.chmod(0o644)
        self.refused('the auditor "D/si_audit" can\'t be started: Permission denied', lambda: Auditor.found(str(path)))

    def test_old(self) -> None:
        older = fake_auditor(self.directory, ECHO, "echo 'si_audit 0.1.9 (Rattle logic 0)'")
        self.refused('the auditor "D/si_audit" is too old: it is si_audit 0.1.9, and 0.2.0 or later is wanted', lambda: Auditor.found(older))
        fake_auditor(self.directory, ECHO, "echo 'error: unexpected argument' >&2; exit 2")
        self.refused(
            '"D/si_audit" is no auditor, or one that is too old: it tells no version and ends with status 2'
            " (error: unexpected argument); si_audit 0.2.0 or later is wanted", lambda: Auditor.found(older),
        )

    def test_other_programs(self) -> None:
        self.refused(
            '"/bin/true" is no auditor, or one that is too old: it tells no version; si_audit 0.2.0 or later is wanted',
            lambda: Auditor.found("/bin/true"),
        )
        path = fake_auditor(self.directory, ECHO, "kill -9 $$")
        self.refused(
            '"D/si_audit" is no auditor, or one that is too old: it tells no version and is ended by the signal SIGKILL;'
            " si_audit 0.2.0 or later is wanted", lambda: Auditor.found(path),
        )

    def test_one_that_hangs(self) -> None:
        path = fake_auditor(self.directory, ECHO, "exec sleep 600")
        with mock.patch.object(auditor, "SECONDS_FOR_VERSION", 0.2):
            self.refused(
                '"D/si_audit" is no auditor, or one that is too old: it does not answer --version; si_audit 0.2.0 or later is wanted',
                lambda: Auditor.found(path),
            )

    @unittest.skipUnless(PROGRAM.exists(), NO_PROGRAM)
    def test_the_program(self) -> None:
        self.assertRegex(Auditor.found(str(PROGRAM)).version, r"^[0-9]+\.[0-9]+\.[0-9]+$")


class RunTest(InDirectory):
    def test_reports(self) -> None:
        for status, meets in ((0, True), (1, False)):
            outcome = self.fake(f"{ECHO}; exit {status}").run(b"w1[1]\n")
            self.assertEqual(outcome, Outcome(Ending.REPORT, status, REPORT.encode(), ""))
            self.assertEqual((outcome.meets, outcome.exit_status), (meets, status))

    def test_what_it_is_given(self) -> None:
        given = self.fake("printf 'events '; echo \"$@\"; cat; ulimit -v")
        wanted = b"events --explain --check si\nw1[1] c1\n%d\n" % (given.memory // 1024)
        self.assertEqual(given.run(b"w1[1] c1\n", ["--explain", "--check", "si"]).report, wanted)
        path = Path(self.directory, "history")
        path.write_bytes(b"w1[1] c1\n")
        with path.open("rb") as file:
            self.assertEqual(given.run(file, ["--explain", "--check", "si"]).report, wanted)

    def test_a_file_for_the_report(self) -> None:
        with tempfile.TemporaryFile() as file:
            outcome = self.fake(f"{ECHO}; exit 1").run(b"", into=file)
            self.assertEqual((outcome.ending, outcome.status, outcome.report, file.read()), (Ending.REPORT, 1, b"", REPORT.encode()))

    def ends(self, body: str, ending: Ending, status: int, exit_status: int, words: str) -> None:
        outcome = self.fake(body).run(b"w1[1]\n")
        self.assertEqual((outcome.ending, outcome.status, outcome.exit_status), (ending, status, exit_status))
        self.assertEqual(outcome.words, words)
        self.assertFalse(outcome.meets)
        self.assertEqual(outcome.report != b"", ending is Ending.REFUSAL)

    def test_a_refusal(self) -> None:
        self.ends("echo 'refused: token 1: bad event'; exit 3", Ending.REFUSAL, 3, 3, "the auditor refused the history")

    def test_signals(self) -> None:
        self.ends(
            "kill -9 $$", Ending.KILLED, -9, 4,
            "the auditor was ended by the signal SIGKILL, as a system does where memory runs out",
        )
        self.ends(f"{ECHO}; kill -15 $$", Ending.KILLED, -15, 4, "the auditor was ended by the signal SIGTERM")
        self.ends("echo oh >&2; kill -11 $$", Ending.KILLED, -11, 4, "the auditor was ended by the signal SIGSEGV: oh")

    def test_memory(self) -> None:
        words = f"the auditor ran out of memory: it may take {in_words(memory_limit())}, which --memory changes"
        self.ends("echo 'si_audit: no memory' >&2; exit 4", Ending.MEMORY, 4, 4, words)
        self.ends("echo 'memory allocation of 8 bytes failed' >&2; kill -6 $$", Ending.MEMORY, -6, 4, words)

    def test_devices(self) -> None:
        self.ends(
            "echo 'si_audit: read failed' >&2; exit 4", Ending.DEVICE, 4, 4,
            "the auditor could not read or write: si_audit: read failed",
        )

    def test_an_old_program(self) -> None:
        self.ends(
            "printf 'error: unexpected \\033[1margument\\n\\nSee\\n' >&2; exit 2", Ending.COMMAND_LINE, 2, 2,
            "the auditor refused its arguments, so it is too old or too new: error: unexpected ?[1margument See",
        )

    def test_no_report(self) -> None:
        """A status without the report that goes with it is no verdict."""
        self.ends("exit 0", Ending.ODD, 0, 4, "the auditor ended with status 0 and no report")
        self.ends("printf 'events 1'; exit 0", Ending.ODD, 0, 4, "the auditor ended with status 0 and no report")
        self.ends("echo hello; exit 1", Ending.ODD, 1, 4, "the auditor ended with status 1 and no report")
        self.ends(f"{ECHO}; exit 3", Ending.ODD, 3, 4, "the auditor ended with status 3 and no report")
        self.ends("echo gone >&2; exit 127", Ending.ODD, 127, 4, "the auditor ended with status 127 and no report: gone")
        with tempfile.TemporaryFile() as file:
            self.assertIs(self.fake("exit 0").run(b"", into=file).ending, Ending.ODD)

    def test_one_that_reads_nothing(self) -> None:
        self.assertIs(self.fake("exit 0").run(LONG_HISTORY).ending, Ending.ODD)

    def test_time(self) -> None:
        outcome = self.fake("exec sleep 600").run(b"", seconds=0.2)
        self.assertEqual((outcome.ending, outcome.exit_status, outcome.report), (Ending.TIME, 4, b""))
        self.assertEqual(outcome.words, "the auditor took too long and was stopped: more than 0.2 seconds")

    def test_a_program_that_is_gone(self) -> None:
        gone = self.fake(ECHO)
        os.unlink(gone.path)
        with self.assertRaisesRegex(BadInput, "can't be started: No such file or directory$"):
            gone.run(b"")


@unittest.skipUnless(PROGRAM.exists(), NO_PROGRAM)
class ProgramTest(unittest.TestCase):
    def run_program(self, history: bytes, *words: str, memory: int | None = None) -> Outcome:
        return Auditor.found(str(PROGRAM), memory).run(history, words)

    def test_levels(self) -> None:
        """Write skew keeps snapshot isolation, and is not serializable."""
        skew = b"b1 b2 r1[1:0] r1[2:0] r2[1:0] r2[2:0] w1[1] w2[2] c1 c2\n"
        statuses = [self.run_program(skew, "--explain", "--check", level).status for level in auditor.LEVELS]
        self.assertEqual(statuses, [0, 0, 1, 1])

    def test_a_refusal(self) -> None:
        outcome = self.run_program(b"w1[1] c1 !\n", "--explain")
        self.assertEqual((outcome.ending, outcome.status, outcome.report.splitlines()[0]), (Ending.REFUSAL, 3, b"refused: token 3: bad event"))

    def test_arguments(self) -> None:
        self.assertIs(self.run_program(b"", "--check", "none").ending, Ending.COMMAND_LINE)

    def test_memory(self) -> None:
        self.assertIs(self.run_program(LONG_HISTORY, memory=1 << 30).ending, Ending.REPORT)
        for memory in (12 << 20, 14 << 20):
            self.assertIs(self.run_program(LONG_HISTORY, memory=memory).ending, Ending.MEMORY)

    @unittest.skipUnless(os.path.exists("/dev/full"), "left out: there is no /dev/full")
    def test_a_full_device(self) -> None:
        with open("/dev/full", "r+b", buffering=0) as full:
            outcome = Auditor.found(str(PROGRAM)).run(b"w1[1] c1\n", into=full)
        self.assertEqual((outcome.ending, outcome.exit_status), (Ending.DEVICE, 4))
        self.assertEqual(outcome.words, "the auditor could not read or write: si_audit: write failed")


class MemoryTest(unittest.TestCase):
    def test_sizes(self) -> None:
        for word, size in (("16M", 1 << 24), ("8g", 1 << 33), ("20000000", 20_000_000), ("1T", 1 << 40)):
            self.assertEqual(size_of(word), size)
        for word in ("", "8", "1M", "-1G", "1.5G", "G", "8GB", "9" * 15 + "T", "９G"):
            with self.subTest(word=word), self.assertRaises(argparse.ArgumentTypeError):
                size_of(word)

    def test_in_words(self) -> None:
        for size, words in ((1, "1 bytes"), (2048, "2 KB"), (3 << 29, "1.5 GB"), (123 << 20, "123 MB")):
            self.assertEqual(in_words(size), words)

    def test_the_machine(self) -> None:
        self.assertEqual(memory_limit(), machine_memory() * 3 // 4)
        self.assertLessEqual(machine_memory(), os.sysconf("SC_PHYS_PAGES") * os.sysconf("SC_PAGE_SIZE"))


if __name__ == "__main__":
    unittest.main()
