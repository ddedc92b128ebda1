"""What is written leaves what was there: whole or not at all, and never in the place of an input."""

from __future__ import annotations

import json
import os
import resource
import shutil
import subprocess
import sys
import tempfile
import unittest
from collections.abc import Callable
from pathlib import Path
from unittest import mock

from si_history.errors import BadInput
from si_history.files import write_output
from si_history.legend import Legend
from tests.support import COMPANION, LONG_SECONDS, log_of

LOG = log_of([{"txn": "A", "op": "write", "key": "k"}, {"txn": "A", "op": "commit"}])
HISTORY = "w1[0] c1\n"
REPORT = "events 2 committed 1 aborted 0 open 0\nisolation kept\nssi pass\nserializable yes\norder 1\n"
CAN_MOUNT = shutil.which("unshare") is not None and subprocess.run(
    ["unshare", "-rm", "sh", "-c", "mount -t tmpfs -o size=64k tmpfs /mnt"], capture_output=True).returncode == 0
PROTECTION = Path("/proc/sys/fs/protected_symlinks")
LINKS_PROTECTED = PROTECTION.exists() and PROTECTION.read_text().strip() == "1"
LEGEND = Legend({1: "A"}, {0: "k"}, [1, 2]).to_json(HISTORY.encode())


class OutputTest(unittest.TestCase):
    """Commands that run in a directory of their own, with files whose content is known before."""

    def setUp(self) -> None:
        place = tempfile.TemporaryDirectory(prefix="si-test-")
        self.addCleanup(place.cleanup)
        self.place = Path(place.name)

    def run_shell(self, line: str, file_size: int | None = None) -> tuple[int, str]:
        """Runs a line of the shell in the directory, `si-history` being the command. Answers its status and standard error."""
        def limited() -> None:
            if file_size is not None:
                resource.setrlimit(resource.RLIMIT_FSIZE, (file_size, file_size))

        done = self.run_process(["sh", "-c", self.command_in(line)], limited)
        return done.returncode, done.stderr.decode()

    def command_in(self, line: str) -> str:
        """A line of the shell with the command as it is run here."""
        return line.replace("si-history ", f"{sys.executable} -B -m si_history ")

    def run_process(self, words: list[str], first: Callable[[], None] | None = None) -> subprocess.CompletedProcess[bytes]:
        """Runs a process in the directory. It does `first` before all else."""
        return subprocess.run(words, cwd=self.place, capture_output=True, timeout=LONG_SECONDS, preexec_fn=first,
                              env={**os.environ, "PYTHONPATH": str(COMPANION)})

    def write(self, **files: str | bytes) -> None:
        for name, content in files.items():
            (self.place / name).write_bytes(content if isinstance(content, bytes) else content.encode())

    def content(self, name: str) -> str:
        return (self.place / name).read_text()

    def files(self) -> set[str]:
        return set(os.listdir(self.place))


class InputsTest(OutputTest):
    """An output that is one of the inputs is refused, by whatever name it goes, and the input is as it was."""

    def check_refused(self, line: str, output: str, same: str, kept: str) -> None:
        before = self.content(kept)
        self.assertEqual(self.run_shell(line), (2, f"si-history: {output}: can't be written: it is the same file as {same}\n"))
        self.assertEqual(self.content(kept), before)

    def test_a_legend_in_the_place_of_the_log(self) -> None:
        self.write(log=LOG)
        self.check_refused("si-history from-events --legend log log", "log", "log", "log")

    def test_another_name_of_the_log(self) -> None:
        self.write(log=LOG)
        (self.place / "symbolic").symlink_to("log")
        (self.place / "hard").hardlink_to(self.place / "log")
        for name in ("symbolic", "hard", "./log", str(self.place / "log")):
            with self.subTest(name):
                self.check_refused(f"si-history from-events --legend {name} log", name, "log", "log")
                self.check_refused(f"si-history from-events --legend log {name}", "log", name, "log")

    def test_a_log_on_standard_input(self) -> None:
        self.write(log=LOG)
        self.check_refused("si-history from-events --legend log - <log", "log", "standard input", "log")

    def test_a_page_in_the_place_of_what_it_is_made_of(self) -> None:
        self.write(history=HISTORY, report=REPORT, legend=LEGEND)
        for name in ("history", "report", "legend"):
            with self.subTest(name):
                self.check_refused(f"si-history page history report --legend legend -o {name}", name, name, name)

    def test_standard_output_that_goes_to_an_input(self) -> None:
        self.write(log=LOG, history=HISTORY, report=REPORT, legend=LEGEND)
        for line, same in (
            ("si-history names --legend legend --history history report >>report", "report"),
            ("si-history names --legend legend --history history <report >>legend", "legend"),
            ("si-history names --legend legend --history history <report >>history", "history"),
            ("si-history graph <report >>report", "standard input"),
            ("si-history from-events log >>log", "log"),
        ):
            with self.subTest(line):
                self.check_refused(line, "standard output", same, line.rpartition(">")[2])

    def test_a_legend_where_the_history_goes(self) -> None:
        self.write(log=LOG)
        status, said = self.run_shell("si-history from-events --legend both log >both")
        self.assertEqual((status, said), (2, "si-history: both: can't be written: it is the same file as /dev/stdout\n"))

    def test_one_place_for_both_outputs_of_a_record(self) -> None:
        for name in ("there", "missing"):
            self.write(there="kept")
            with self.subTest(name):
                status, said = self.run_shell(f"si-history record postgres --format history --legend {name} -o ./{name}")
                self.assertEqual((status, said), (2, f"si-history: {name}: can't be written: it is the same file as ./{name}\n"))
                self.assertEqual((self.content("there"), self.files()), ("kept", {"there"}))


class WholeTest(OutputTest):
    """A file is there whole or as it was before, and nothing else is left beside it."""

    def test_a_limit_of_file_size_leaves_what_was_there(self) -> None:
        self.write(log=log_of([{"txn": f"t{n}", "op": "abort"} for n in range(2000)]), legend="the legend of before")
        status, said = self.run_shell("si-history from-events --legend legend log >/dev/null", file_size=4096)
        self.assertEqual((status, said), (2, "si-history: legend: can't be written: File too large\n"))
        self.assertEqual((self.content("legend"), self.files()), ("the legend of before", {"log", "legend"}))

    def test_a_limit_of_file_size_leaves_a_page_and_a_picture(self) -> None:
        for words in ("", "--svg "):
            self.write(history=HISTORY, report=REPORT, page="what was there before")
            with self.subTest(words):
                status, said = self.run_shell(f"si-history page history report {words}-o page", file_size=1024)
                self.assertEqual((status, said), (2, "si-history: page: can't be written: File too large\n"))
                self.assertEqual((self.content("page"), self.files()), ("what was there before", {"history", "report", "page"}))

    @unittest.skipUnless(CAN_MOUNT, "left out: no small disk can be mounted here")
    def test_a_full_disk_leaves_what_was_there(self) -> None:
        self.write(log=log_of([{"txn": f"t{n}", "op": "abort"} for n in range(10_000)]))
        script = ("mkdir disk && mount -t tmpfs -o size=64k tmpfs disk && echo the legend of before >disk/legend && "
                  "{ si-history from-events --legend disk/legend log >/dev/null; status=$?; ls -A disk; cat disk/legend; exit $status; }")
        done = self.run_process(["unshare", "-rm", "sh", "-c", self.command_in(script)])
        self.assertEqual((done.returncode, done.stdout.decode(), done.stderr.decode()), (
            2, "legend\nthe legend of before\n", "si-history: disk/legend: can't be written: No space left on device\n"))

    def test_an_interrupt_leaves_what_was_there(self) -> None:
        self.write(page="the page of before")
        for call in ("open", "fchmod", "replace"):
            with mock.patch.object(os, call, side_effect=KeyboardInterrupt), self.assertRaises(KeyboardInterrupt):
                write_output("a new page", str(self.place / "page"))
        self.assertEqual((self.content("page"), self.files()), ("the page of before", {"page"}))

    def test_a_file_is_replaced_with_its_mode_and_a_new_one_has_that_of_the_umask(self) -> None:
        self.write(old="before")
        (self.place / "old").chmod(0o640)
        before = os.umask(0o027)
        try:
            for name in ("old", "new"):
                write_output("after\n", str(self.place / name))
        finally:
            os.umask(before)
        self.assertEqual([(self.place / name).stat().st_mode & 0o7777 for name in ("old", "new")], [0o640, 0o640])
        self.assertEqual((self.content("old"), self.content("new"), self.files()), ("after\n", "after\n", {"old", "new"}))

    def test_a_link_stays_a_link(self) -> None:
        self.write(target="before")
        for name, target in (("link", "target"), ("dangling", "made")):
            (self.place / name).symlink_to(target)
            write_output("after", str(self.place / name))
            self.assertTrue((self.place / name).is_symlink())
            self.assertEqual(self.content(target), "after")

    def test_the_system_may_refuse_to_follow_a_link(self) -> None:
        """It is asked for the path as it was given, before anything is written."""
        self.write(target="before")
        link = self.place / "link"
        link.symlink_to("target")
        with mock.patch.object(os, "open", side_effect=PermissionError(13, "Permission denied")) as opened:
            with self.assertRaisesRegex(BadInput, "Permission denied"):
                write_output("after", str(link))
        self.assertEqual(opened.call_args_list, [mock.call(str(link), os.O_WRONLY)])
        self.assertEqual((self.content("target"), self.files()), ("before", {"link", "target"}))

    @unittest.skipUnless(os.geteuid() == 0 and LINKS_PROTECTED, "left out: no link of another's is refused here")
    def test_a_link_of_anothers_in_a_directory_of_all_is_not_followed(self) -> None:
        (self.place / "all").mkdir()
        (self.place / "all").chmod(0o1777)
        self.write(target="root's")
        for target in ("../target", "../missing"):
            link = self.place / "all" / "link"
            link.symlink_to(target)
            os.chown(link, 1, 1, follow_symlinks=False)
            with self.subTest(target), self.assertRaisesRegex(BadInput, "Permission denied"):
                write_output("after", str(link))
            link.unlink()
        self.assertEqual((self.content("target"), self.files()), ("root's", {"all", "target"}))

    @unittest.skipIf(os.geteuid() == 0, "left out: root may write everything")
    def test_a_file_that_may_not_be_written_stays(self) -> None:
        self.write(kept="before")
        (self.place / "kept").chmod(0o444)
        with self.assertRaisesRegex(BadInput, "Permission denied"):
            write_output("after", str(self.place / "kept"))
        self.assertEqual((self.content("kept"), self.files()), ("before", {"kept"}))

    def test_places_that_are_no_file(self) -> None:
        for name, words in (("", "No such file or directory"), (".", "Is a directory"), ("no/page", "No such file or directory"),
                            ("no/", "No such file or directory"), ("a\0b", "embedded null byte")):
            with self.subTest(name), self.assertRaisesRegex(BadInput, f"can't be written: .*{words}"):
                write_output("text", name and str(self.place) + "/" + name)
        self.assertEqual(self.files(), set())


class DirectTest(OutputTest):
    """Devices, pipes and what is open already are written to as they are."""

    def test_a_device_stays_one(self) -> None:
        self.write(log=LOG)
        self.assertEqual(self.run_shell("si-history from-events --legend /dev/null log >/dev/null"), (0, ""))
        self.assertTrue(Path("/dev/null").is_char_device())

    def test_a_pipe_with_a_name(self) -> None:
        self.write(log=LOG)
        status, said = self.run_shell("mkfifo pipe && { cat pipe >got & si-history from-events --legend pipe log >history; wait; }")
        self.assertEqual((status, said), (0, ""))
        self.assertEqual(json.loads(self.content("got"))["transactions"], {"1": "A"})
        self.assertTrue((self.place / "pipe").is_fifo())

    def test_a_file_that_is_open_is_added_to(self) -> None:
        self.write(log=LOG, there="before\n")
        self.assertEqual(self.run_shell("si-history from-events --legend /dev/fd/3 log 3>>there >history"), (0, ""))
        self.assertTrue(self.content("there").startswith('before\n{"format"'))

    def test_a_page_to_the_device_of_standard_output(self) -> None:
        self.write(history=HISTORY, report=REPORT)
        self.assertEqual(self.run_shell("si-history page history report -o /dev/stdout >page"), (0, ""))
        self.assertIn("</html>", self.content("page"))


if __name__ == "__main__":
    unittest.main()
