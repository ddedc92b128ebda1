"""Servers in temporary directories: shell scripts stand for the databases' programs, and for one that attacks the recorder."""

from __future__ import annotations

import ctypes
import os
import pwd
import signal
import subprocess
import sys
import tempfile
import textwrap
import time
import unittest
from pathlib import Path
from unittest import mock

from si_history.record import drivers, postgres, server
from si_history.record.model import StoreFault
from si_history.record.server import MEGABYTE, Server, program
from tests.support import COMPANION, LONG_SECONDS

ACCOUNT = pwd.getpwuid(os.geteuid()).pw_name


def fake(room: int = MEGABYTE, account: str = ACCOUNT) -> Server:
    return Server("Fake", account, signal.SIGTERM, room)


class Servers(unittest.TestCase):
    def setUp(self) -> None:
        self.place = tempfile.TemporaryDirectory(prefix="si-test-")
        self.addCleanup(self.place.cleanup)
        patched = mock.patch.object(tempfile, "tempdir", self.place.name)
        patched.start()
        self.addCleanup(patched.stop)

    def left(self) -> list[str]:
        return os.listdir(self.place.name)

    def test_a_server_is_stopped_and_its_directory_removed(self) -> None:
        with fake() as one:
            one.prepare(["/bin/sh", "-c", "mkdir data"])
            one.start(["/bin/sh", "-c", "echo $$ >data/process; exec sleep 600"], (one.data / "process").exists)
            process = int((one.data / "process").read_text())
            os.kill(process, 0)
            self.assertEqual(len(self.left()), 1)
        self.assertEqual(self.left(), [])
        with self.assertRaises(ProcessLookupError):
            os.kill(process, 0)

    def test_workers_that_outlive_the_server_are_ended(self) -> None:
        with fake() as one:
            script = "setsid sleep 600 & echo $! >worker; exit 1"
            with self.assertRaises(StoreFault):
                one.start(["/bin/sh", "-c", script], lambda: False)
            worker = int((one.directory / "worker").read_text())
        self.assertEqual(self.left(), [])
        with self.assertRaises(ProcessLookupError):
            self.wait_for_end(worker)

    def wait_for_end(self, process: int) -> None:
        """Raises ProcessLookupError once there is no such process, or it only waits to be taken notice of."""
        end = time.monotonic() + LONG_SECONDS
        while time.monotonic() < end:
            if Path(f"/proc/{process}/stat").exists() and Path(f"/proc/{process}/stat").read_text().split(") ")[1][0] == "Z":
                raise ProcessLookupError
            os.kill(process, 0)
            time.sleep(0.02)

    def test_the_last_words_of_a_failing_command_are_told(self) -> None:
        with self.assertRaisesRegex(StoreFault, r"Fake: sh failed \(its last words: no room for it\)"), fake() as one:
            one.prepare(["/bin/sh", "-c", "echo no room for it; exit 3"])
        self.assertEqual(self.left(), [])

    def test_a_server_that_ends_by_itself_is_told(self) -> None:
        with self.assertRaisesRegex(StoreFault, "the Fake server ended by itself; run it again"), fake() as one:
            one.start(["/bin/sh", "-c", "exit 0"], lambda: False)
        self.assertEqual(self.left(), [])

    def test_a_disk_with_too_little_room_is_told_before_anything_starts(self) -> None:
        with self.assertRaisesRegex(StoreFault, "MB free, and a Fake server needs .* set TMPDIR"), fake(room=2**60):
            self.fail("it started")
        self.assertEqual(self.left(), [])

    def test_a_disk_that_fills_up_is_told(self) -> None:
        with self.assertRaisesRegex(StoreFault, "0 MB free.* set TMPDIR"), fake() as one:
            one.start(["/bin/sh", "-c", "exec sleep 600"], lambda: True)
            one.look()
            with mock.patch.object(server.shutil, "disk_usage", return_value=mock.Mock(free=1000)):
                one.look()
        self.assertEqual(self.left(), [])

    def test_a_directory_that_is_too_long_for_a_socket_is_told(self) -> None:
        longer = Path(self.place.name) / ("x" * 100)
        longer.mkdir()
        with mock.patch.object(tempfile, "tempdir", str(longer)):
            with self.assertRaisesRegex(StoreFault, "set TMPDIR to a shorter directory"), fake():
                self.fail("it started")
        self.assertEqual(os.listdir(longer), [])

    @unittest.skipUnless(os.geteuid() == 0, "left out: only root needs another account")
    def test_an_account_that_is_missing_is_told(self) -> None:
        with self.assertRaisesRegex(StoreFault, "no account si-nobody.*install_databases.sh"), fake(account="si-nobody"):
            self.fail("it started")

    def test_signals_stop_the_server(self) -> None:
        script = textwrap.dedent(f"""
            import signal, sys
            from si_history.record import signals
            from si_history.record.server import Server
            with signals.met():
                with Server("Fake", {ACCOUNT!r}, signal.SIGTERM, 1000) as one:
                    one.start(["/bin/sh", "-c", "echo $$; exec sleep 600"], lambda: True)
                    print(one._process.pid, flush=True)
                    one.start(["/bin/sh", "-c", "exec sleep 600"], lambda: False)
        """)
        for number in (signal.SIGTERM, signal.SIGHUP):
            with self.subTest(number):
                environment = {**os.environ, "PYTHONPATH": str(COMPANION), "TMPDIR": self.place.name}
                with subprocess.Popen([sys.executable, "-c", script], stdout=subprocess.PIPE, env=environment) as process:
                    assert process.stdout is not None
                    started = int(process.stdout.readline())
                    process.send_signal(number)
                    self.assertEqual(process.wait(LONG_SECONDS), -number)
                with self.assertRaises(ProcessLookupError):
                    self.wait_for_end(started)
                self.assertEqual(self.left(), [])


def shared_memory() -> int:
    """Makes a piece of shared memory, of root's, and answers its id."""
    made = int(ctypes.CDLL(None).shmget(0, 56, 0o1600))
    assert made >= 0
    return made


def memories() -> set[int]:
    """The ids of all shared memory."""
    lines = Path("/proc/sysvipc/shm").read_text().split("\n")
    return {int(line.split()[1]) for line in lines[1:] if line}


@unittest.skipUnless(os.geteuid() == 0, "left out: only root has rights that a server could abuse")
class Attacks(unittest.TestCase):
    """What a server can do under its account, daemon, to a recorder that is root."""

    def setUp(self) -> None:
        for name in ("place", "kept"):
            made = tempfile.TemporaryDirectory(prefix="si-test-")
            self.addCleanup(made.cleanup)
            setattr(self, name, Path(made.name))
        self.place: Path
        self.kept: Path
        self.place.chmod(0o1777)
        (self.kept / "file").write_text("root's\n")
        patched = mock.patch.object(tempfile, "tempdir", str(self.place))
        patched.start()
        self.addCleanup(patched.stop)

    def run_server(self, script: str) -> None:
        """A server that is made by this script, and then says something."""
        with fake(account="daemon") as one:
            one.prepare(["/bin/sh", "-c", f"mkdir data && {script}"])
            one.prepare(["/bin/sh", "-c", "echo evil"])

    def check_kept(self) -> None:
        """What was root's is as it was, and the recorder has left nothing."""
        self.assertEqual([path.name for path in self.kept.iterdir()], ["file"])
        self.assertEqual((self.kept / "file").read_text(), "root's\n")
        self.assertEqual(os.listdir(self.place), [])

    def test_what_the_server_says_goes_to_no_file_of_its_choice(self) -> None:
        for name in ("said", "../said"):
            with self.subTest(name):
                self.run_server(f"rm -f {name}; ln -s {self.kept}/file {name} || true")
                self.check_kept()

    def test_the_directory_cant_be_put_elsewhere(self) -> None:
        for directory in ('"$PWD"', '"$(dirname "$PWD")"'):
            with self.subTest(directory):
                with self.assertRaisesRegex(StoreFault, "Permission denied|not permitted"):
                    self.run_server(f"mv {directory} {self.place}/moved && ln -s {self.kept} {directory}")
                self.check_kept()

    def test_a_link_among_the_data_is_not_followed(self) -> None:
        self.run_server(f"ln -s {self.kept} data/kept; ln {self.kept}/file data/file || true")
        self.check_kept()

    def test_files_of_root_in_the_directory_are_not_removed(self) -> None:
        with self.assertRaisesRegex(StoreFault, "could not be removed: remove it by hand"), fake(account="daemon") as one:
            (one.directory / "mounted").mkdir()
            (one.directory / "mounted" / "file").touch()
        self.assertTrue((one.directory / "mounted" / "file").exists())

    def test_shared_memory_of_others_stays(self) -> None:
        memory = shared_memory()
        try:
            note = "\\n".join(["1", "2", "3", "4", "5", "6", f"1 {memory}"])
            self.run_server(f"printf '{note}\\n' >data/postmaster.pid")
            self.assertIn(memory, memories())
        finally:
            subprocess.run(["ipcrm", "-m", str(memory)], check=False, capture_output=True)
        self.check_kept()

    @unittest.skipUnless(os.access("/usr/bin/python3", os.X_OK), "left out: there is no /usr/bin/python3")
    def test_shared_memory_of_a_server_that_was_killed_is_freed(self) -> None:
        before = memories()
        make = "import ctypes; ctypes.CDLL(None).shmget(0, 56, 0o1600); open('made', 'w'); __import__('time').sleep(600)"
        with Server("Fake", "daemon", signal.SIGKILL, MEGABYTE) as one:
            one.start(["/usr/bin/python3", "-c", make], (one.directory / "made").exists)
            self.assertEqual(len(memories() - before), 1)
        self.assertEqual(memories() - before, set())

    def test_a_pipe_in_the_place_of_a_file_holds_nothing_up(self) -> None:
        script = textwrap.dedent("""
            import signal
            from si_history.record.server import Server
            with Server("Fake", "daemon", signal.SIGTERM, 1000) as one:
                one.prepare(["/bin/sh", "-c", "mkdir data; rm -f said; mkfifo said data/postmaster.pid"])
        """)
        environment = {**os.environ, "PYTHONPATH": str(COMPANION), "TMPDIR": str(self.place)}
        done = subprocess.run([sys.executable, "-c", script], env=environment, timeout=LONG_SECONDS / 5, check=False)
        self.assertEqual(done.returncode, 0)
        self.check_kept()

    def test_processes_of_others_are_not_ended(self) -> None:
        with fake(account="daemon") as one:
            other = subprocess.Popen(["sleep", "600"], cwd=one.directory)
            self.addCleanup(other.wait)
            self.addCleanup(other.kill)
        self.assertIsNone(other.poll())
        self.check_kept()

    def test_many_words_are_not_all_read(self) -> None:
        with mock.patch.object(os, "pread", wraps=os.pread) as read:
            with self.assertRaisesRegex(StoreFault, r"its last words: x{200}\)$"), fake(account="daemon") as one:
                one.prepare(["/bin/sh", "-c", "head -c 9000000 /dev/zero | tr '\\0' x; exit 1"])
        self.assertLessEqual(read.call_args.args[1], 2**16)


class Missing(unittest.TestCase):
    def test_a_missing_server_is_told(self) -> None:
        with self.assertRaisesRegex(StoreFault, r"no PostgreSQL server was found.*tools/install_databases\.sh installs it"):
            program("si-no-such-program", "PostgreSQL", [Path("/nowhere")])

    def test_a_server_of_a_known_place_is_found(self) -> None:
        self.assertEqual(program("sh", "Shell", []), Path(program("sh", "Shell")))
        with mock.patch.dict(os.environ, {"PATH": "/nowhere"}):
            self.assertEqual(program("sh", "Shell", [Path("/bin")]), Path("/bin/sh"))

    def test_a_missing_driver_is_told(self) -> None:
        with self.assertRaisesRegex(StoreFault, r"there is no Python module si_one or si_two.*install_databases\.sh"):
            drivers.load("PostgreSQL", ("si_one", "si_two"))

    def test_the_python_that_has_the_driver_is_told(self) -> None:
        with mock.patch.object(drivers, "_has_module", lambda python, name: name == "si_two"), \
                mock.patch.object(drivers, "SYSTEM_PYTHON", "/the/other/python3"):
            with self.assertRaisesRegex(StoreFault, r"/the/other/python3 has si_two: use /the/other/python3 -m si_history"):
                drivers.load("PostgreSQL", ("si_one", "si_two"))

    def test_a_file_of_the_directory_is_no_driver(self) -> None:
        with tempfile.TemporaryDirectory(prefix="si-test-") as place:
            (Path(place) / "si_one.py").write_text("open('ran', 'w')\n")
            script = "from si_history.record import drivers; print(drivers._has_module(drivers.SYSTEM_PYTHON, 'si_one'))"
            done = subprocess.run([sys.executable, "-P", "-c", script], cwd=place, capture_output=True, timeout=LONG_SECONDS,
                                  check=False, env={**os.environ, "PYTHONPATH": str(COMPANION)})
            self.assertEqual((done.stdout, os.listdir(place)), (b"False\n", ["si_one.py"]))

    def test_the_newest_server_of_debian_is_taken(self) -> None:
        places = [Path("/usr/lib/postgresql") / version / "bin" for version in ("9", "15", "13", "odd")]
        self.assertEqual(max(places, key=postgres._version).parent.name, "15")


if __name__ == "__main__":
    unittest.main()
