"""Minimizing: what is left still has the finding, nothing more can be left out, and each way to fail has its status."""

from __future__ import annotations

import io
import json
import random
import subprocess
import tempfile
import time
import unittest
from collections.abc import Sequence
from contextlib import suppress
from pathlib import Path

from si_history.auditor import Auditor
from si_history.errors import BadInput
from si_history.facts import Facts
from si_history.from_events import convert
from si_history.history import Commit, Event, parse, text_of
from si_history.legend import Legend
from si_history.log_of_events import EventsWriter
from si_history.minimizer import Minimal, audited_events, minimal
from si_history.reduction import least
from si_history.report import BadRead
from si_history.shrinking import closed, events_of, of_keys, of_transactions, trace_of
from si_history.wanted import NAMES, Wanted, first_found, wanted_of
from tests.fake_auditor import fake_auditor
from tests.random_store import random_run
from tests.support import NO_PROGRAM, PROGRAM, REPOSITORY, run_command

MOST_SECONDS = 30.0
MOST_EVENTS = 10


def one_line(events: list[Event]) -> str:
    return " ".join(text_of(events).split())


class LeastTest(unittest.TestCase):
    def test_some_that_are_wanted(self) -> None:
        """Of numbers of which some are wanted exactly those are left, wherever they stand."""
        for size in (0, 1, 2, 3, 7, 64, 100):
            for count in (0, 1, 2, 5):
                wanted = set(random.Random(f"{size} {count}").sample(range(size), min(size, count)))
                with self.subTest(size=size, wanted=wanted):
                    self.assertEqual(least(range(size), lambda kept: wanted <= set(kept)), sorted(wanted))

    def test_no_part_can_be_left_out(self) -> None:
        """What is wanted here has no simple answer: a sum that leaves a remainder, and 0. Each part that is left is needed for it."""
        def holds(kept: Sequence[int]) -> bool:
            return 0 in kept and sum(kept) % 7 == sum(range(60)) % 7

        left = least(range(60), holds)
        self.assertTrue(holds(left))
        for part in left:
            self.assertFalse(holds([each for each in left if each != part]))

    def test_few_questions(self) -> None:
        """Three parts of a thousand are found by much fewer questions than there are parts."""
        asked = 0

        def holds(kept: Sequence[int]) -> bool:
            nonlocal asked
            asked += 1
            return {13, 500, 999} <= set(kept)

        self.assertEqual(least(range(1000), holds), [13, 500, 999])
        self.assertLess(asked, 200)


def seen_commits(events: list[Event]) -> dict[int, list[int]]:
    """Of each transaction with an event of its own besides its begin the transactions whose commits it sees."""
    facts = Facts(events)
    commits = [(place, event.transaction) for place, event in enumerate(events, 1) if isinstance(event, Commit)]
    return {each.number: [number for place, number in commits if place <= each.start] for each in facts.transactions.values()}


class ShrinkingTest(unittest.TestCase):
    def left(self, history: str, *transactions: int) -> str:
        return one_line(events_of(of_transactions(trace_of(parse(history)), set(transactions))))

    def test_snapshots_do_not_move(self) -> None:
        """Whatever transactions are left out of a random history, each that is left sees the commits that it saw, of those left."""
        for seed in range(200):
            events = random_run(f"shrinking {seed}").events
            before, trace = seen_commits(events), trace_of(events)
            numbers = sorted(before)
            for kept in (set(numbers), set(numbers[::2]), set(numbers[1:])):
                with self.subTest(seed=seed, kept=kept):
                    after = seen_commits(events_of(of_transactions(trace, kept)))
                    self.assertEqual(after, {n: [c for c in before[n] if c in kept] for n in after})

    def test_a_begin_stands_where_it_is_needed(self) -> None:
        self.assertEqual(one_line(events_of(trace_of(parse("b1 r1[1:0] c1")))), "r1[1:0] c1")
        self.assertEqual(one_line(events_of(trace_of(parse("b1 w2[1] c2 r1[1:0] c1")))), "b1 w2[1] c2 r1[1:0] c1")
        self.assertEqual(one_line(events_of(trace_of(parse("w2[1] c2 b1@0 r1[1:0] c1")))), "b1 w2[1] c2 r1[1:0] c1")
        self.assertEqual(one_line(events_of(trace_of(parse("b1 w2[1] r1[1:0] c2 c1")))), "w2[1] r1[1:0] c2 c1")
        self.assertEqual(one_line(events_of(trace_of(parse("b1 b2 c3 a1")))), "b1 c3 a1")

    def test_transactions_that_are_left_out(self) -> None:
        """3 saw 1's version, and 4 a range with one of 2: without those these reads are left out, and 3's snapshot stays."""
        history = "w1[1] c1 w2[2] c2 r3[1:1] w4[9] c4 w3[3] c3 r5[1..2;1:1,2:2] c5"
        self.assertEqual(self.left(history, 3, 4, 5), "b3 w4[9] c4 w3[3] c3 c5")
        self.assertEqual(self.left(history, 1, 5), "w1[1] c1 c5")
        self.assertEqual(self.left(history, 1, 2, 5), "w1[1] c1 w2[2] c2 r5[1..2;1:1,2:2] c5")

    def test_keys_that_are_left(self) -> None:
        """A read of a range becomes reads of the keys; one that wasn't listed stays unlisted."""
        trace = trace_of(parse("w1[1] w1[2] c1 r2[0..9;1:1,2:1] r2[2:1] w2[4] c2"))
        self.assertEqual(one_line(events_of(of_keys(trace, {2, 3}))), "w1[2] c1 r2[2:1] r2[3..3] r2[2:1] c2")

    def test_a_read_before_its_write_is_left_out(self) -> None:
        self.assertEqual(one_line(list(closed(parse("w1[1] r2[1:1] r2[1:3] w3[1] r2[1:3] r2[2:0]")))), "w1[1] r2[1:1] w3[1] r2[1:3] r2[2:0]")


class EventsWriterTest(unittest.TestCase):
    def test_a_log_that_is_read_back(self) -> None:
        """from-events makes the same history of the log of a history whose transactions are numbered as they come."""
        for seed in range(100):
            events = events_of(trace_of(random_run(f"writer {seed}").events))
            numbers = {number: at for at, number in enumerate(dict.fromkeys(event.transaction for event in events), 1)}
            if any(number != at for number, at in numbers.items()):
                continue
            with self.subTest(seed=seed):
                log = EventsWriter(None).log(events)
                self.assertEqual(convert(io.BytesIO(log.encode())).events, events)

    def test_names(self) -> None:
        legend = Legend({1: "w7-2", 2: "é"}, {0: "acct/02", 1: "acct/7"}, [])
        lines = EventsWriter(legend).log(parse("b2 w1[0] c1 r2[0..1;0:1] r2[1:0] a2")).splitlines()
        self.assertEqual([json.loads(line) for line in lines], [
            {"key_order": ["acct/02", "acct/7"]}, {"txn": "é", "op": "begin"}, {"txn": "w7-2", "op": "write", "key": "acct/02"}, {"txn": "w7-2", "op": "commit"},
            {"txn": "é", "op": "range", "from": "acct/02", "to": "acct/7", "found": [["acct/02", "w7-2"]]},
            {"txn": "é", "op": "read", "key": "acct/7", "saw": None}, {"txn": "é", "op": "abort"},
        ])


    def test_an_order_of_keys(self) -> None:
        """9 is before 10 as the history has it, and not as strings are: the header says so."""
        legend = Legend({1: "A"}, {0: "9", 1: "10", 2: "x", 3: "y"}, [])
        events = parse("r1[0..1] r1[2:0] c1")
        log = EventsWriter(legend).log(events)
        self.assertEqual(json.loads(log.splitlines()[0]), {"key_order": ["9", "10", "x"]})
        self.assertEqual(convert(io.BytesIO(log.encode())).events, events)


def bank_log(transactions: int, seed: str) -> list[dict[str, object]]:
    """A log of a store that keeps snapshot isolation, 10 events a transaction, but for one torn read.

    Each transaction reads six of a hundred accounts and writes two. The torn read is the sixth of one transaction in the middle:
    it sees what was committed after its snapshot.
    """
    rng = random.Random(seed)
    lines: list[dict[str, object]] = []
    latest: dict[str, str] = {}
    is_torn = False
    for number in range(0, transactions, 2):
        pair = [f"w{each % 4}-{each}" for each in (number, number + 1)]
        snapshot, accounts = dict(latest), rng.sample(range(100), 16)
        keys = [[f"acct/{each:02}" for each in accounts[at : at + 8]] for at in (0, 8)]
        lines += [{"txn": name, "op": "begin"} for name in pair]
        for name, own in zip(pair, keys):
            lines += [{"txn": name, "op": "read", "key": key, "saw": snapshot.get(key)} for key in own[:5]]
        lines += [{"txn": pair[0], "op": "write", "key": key} for key in keys[0][6:]]
        lines.append({"txn": pair[0], "op": "commit"})
        latest.update(dict.fromkeys(keys[0][6:], pair[0]))
        lines.append({"txn": pair[1], "op": "read", "key": keys[1][5], "saw": snapshot.get(keys[1][5])})
        if number >= transactions // 2 and not is_torn:
            lines.append({"txn": pair[1], "op": "read", "key": keys[0][6], "saw": pair[0]})
            is_torn = True
        lines += [{"txn": pair[1], "op": "write", "key": key} for key in keys[1][6:]]
        lines.append({"txn": pair[1], "op": "commit"})
        latest.update(dict.fromkeys(keys[1][6:], pair[1]))
    return lines


class CommandTest(unittest.TestCase):
    def setUp(self) -> None:
        directory = tempfile.TemporaryDirectory()
        self.addCleanup(directory.cleanup)
        self.directory = Path(directory.name)

    def run_on(self, content: str, *words: str, auditor: str = str(PROGRAM)) -> subprocess.CompletedProcess[bytes]:
        """Runs the command on a log. D in what it says is the directory."""
        path = self.directory / "run"
        path.write_text(content, "utf-8")
        done = run_command("minimize", "--auditor", auditor, *words, str(path))
        done.stderr = done.stderr.replace(str(self.directory).encode(), b"D")
        return done


@unittest.skipUnless(PROGRAM.exists(), NO_PROGRAM)
class MinimizeTest(CommandTest):
    def minimal(self, history: str, name: str | None = None) -> tuple[Minimal, Auditor]:
        auditor = Auditor.found(str(PROGRAM))
        events = parse(history)
        run = audited_events(events, None, auditor)
        assert run.report is not None and run.facts is not None
        return minimal(events, first_found(run.report, run.facts, name), run.facts, auditor), auditor

    def test_one_torn_read_of_three_thousand_events(self) -> None:
        lines = bank_log(340, "torn")
        self.assertGreaterEqual(len(lines), 3000)
        began = time.monotonic()
        files = {name: str(self.directory / name) for name in ("log", "history", "legend")}
        done = self.run_on("".join(f"{json.dumps(line)}\n" for line in lines), *(word for name in files for word in (f"--{name}", files[name])))
        self.assertLess(time.monotonic() - began, MOST_SECONDS)
        self.assertEqual((done.returncode, done.stderr), (0, b""))
        told, log = done.stdout.decode(), Path(files["log"]).read_text("utf-8")
        self.assertRegex(told, r"^Future read: w\d-\d+ read acct/\d\d and saw w\d-\d+'s version, where ")
        self.assertIn(log, told)
        small = [json.loads(line) for line in log.splitlines()]
        self.assertLessEqual(len(small), MOST_EVENTS)
        left = iter(lines)
        for line in small:
            self.assertTrue(any(line == each for each in left), f"the log has no {line} here")
        again = run_command("from-events", "--legend", files["legend"] + "2", files["log"])
        self.assertEqual(again.stdout.decode(), Path(files["history"]).read_text())
        self.assertEqual(Path(files["legend"] + "2").read_text(), Path(files["legend"]).read_text())
        explained = subprocess.run([PROGRAM, "--explain"], input=again.stdout, capture_output=True)
        self.assertEqual(explained.stdout.decode().count("  future read: "), 1)

    def test_every_example(self) -> None:
        """Each finding by its name is kept, and what is left has no event that can be left out."""
        auditor, seen = Auditor.found(str(PROGRAM)), set()
        for path in sorted(REPOSITORY.glob("examples/**/*.history")):
            if path.stem.startswith("refused"):
                continue
            events = parse(path.read_text())
            run = audited_events(events, None, auditor)
            assert run.report is not None and run.facts is not None
            for name in NAMES:
                with self.subTest(path=path.name, name=name):
                    found = None
                    with suppress(BadInput):
                        found = first_found(run.report, run.facts, name)
                    if found is not None:
                        self.check_least(minimal(events, found, run.facts, auditor).events, name)
                        seen.add(name)
        self.assertEqual(seen, set(NAMES))

    def check_least(self, events: list[Event], name: str) -> None:
        """Without any one of its events the history hasn't the finding, and hasn't it elsewhere."""
        auditor = Auditor.found(str(PROGRAM))
        run = audited_events(events, None, auditor)
        assert run.report is not None and run.facts is not None
        wanted = wanted_of(first_found(run.report, run.facts, name), run.facts)
        trace = trace_of(events)
        for at in range(len(trace)):
            smaller = events_of(closed(trace[:at] + trace[at + 1 :]))
            if len(smaller) == len(events):
                continue
            rest = audited_events(smaller, None, auditor)
            if rest.report is not None and rest.facts is not None:
                self.assertIsNone(wanted.found_in(rest.report, rest.facts), one_line(smaller))

    def test_random_histories(self) -> None:
        """Of random histories each first finding is kept, and is the same one."""
        auditor, names = Auditor.found(str(PROGRAM)), set()
        for seed in range(60):
            events = random_run(f"minimize {seed}").events
            run = audited_events(events, None, auditor)
            if run.report is None or run.facts is None or (run.report.isolation.holds and run.report.ssi.holds):
                continue
            with self.subTest(seed=seed):
                found = first_found(run.report, run.facts, None)
                left = minimal(events, found, run.facts, auditor)
                assert left.run.facts is not None
                self.assertEqual(wanted_of(left.found, left.run.facts), wanted_of(found, run.facts))
                self.assertLessEqual(len(left.events), len(events))
                names.add(wanted_of(found, run.facts).name)
        self.assertGreater(len(names), 4)

    def test_what_is_left_of_small_ones(self) -> None:
        """By hand: two transactions and the events without which there is no such finding."""
        for history, name, wanted in (
            ("r9[5:0] w1[1] w2[2] c1 r2[1:0] w2[1] c2 c9", None, "w1[1] b2 c1 w2[1] c2"),
            ("b3 w1[7] r2[7:1] w2[8] c2 a1 c3", "aborted-read", "w1[7] r2[7:1] a1"),
            ("w1[3] c1 r2[0..9] w2[9] c2", "phantom", "w1[3] c1 r2[3..3]"),
        ):
            with self.subTest(history=history):
                self.assertEqual(one_line(self.minimal(history, name)[0].events), wanted)

    def test_numbers_stay_those_of_the_history(self) -> None:
        done = self.run_on("w17[5] c99 r23[5:17] c23 a17\n")
        self.assertEqual(done.returncode, 0, done.stderr)
        told = done.stdout.decode()
        self.assertIn("Aborted read: transaction 23 read key 5 and saw transaction 17's version, where the initial version was due.\n", told)
        self.assertIn('{"txn": "23", "op": "read", "key": 5, "saw": "17"}\n', told)
        self.assertTrue(told.endswith("Its history:\n\nw17[5] r23[5:17] a17\n"), told)

    def test_a_log_of_transactions(self) -> None:
        done = run_command("minimize", "--auditor", str(PROGRAM), str(REPOSITORY / "examples" / "logs" / "shop.transactions.jsonl"))
        self.assertEqual((done.returncode, done.stderr), (0, b""))
        self.assertRegex(done.stdout.decode(), "^Future read: order-1 read stock/tea and saw order-2's version")

    def test_nothing_to_minimize(self) -> None:
        for content, words, said in (
            ("w1[1] c1\n", (), "si-history: D/run: the auditor finds nothing in it\n"),
            ("w1[1] r2[1:1] a1 c2\n", ("--finding", "cycle"), "si-history: D/run: the auditor finds no cycle in it\n"),
            ("", (), "si-history: D/run: the auditor finds nothing in it\n"),
        ):
            with self.subTest(said=said):
                done = self.run_on(content, *words)
                self.assertEqual((done.returncode, done.stdout, done.stderr.decode()), (2, b"", said))

    def test_a_refused_history(self) -> None:
        done = self.run_on("r1[1:2] c1\n")
        self.assertEqual((done.returncode, done.stdout), (3, b""))
        self.assertRegex(done.stderr.decode(), "^si-history: D/run: the auditor refused the history .*version not written.*\n$")

    def test_an_auditor_that_is_killed_on_the_way(self) -> None:
        """The first run is good, and the third is killed: nothing is written."""
        body = f'n=$(cat "$0.n" 2>/dev/null || echo 0); echo $((n + 1)) >"$0.n"; [ "$n" -lt 2 ] || kill -9 $$; exec {PROGRAM} "$@"'
        out = self.directory / "small"
        done = self.run_on("w1[1] r2[1:1] a1 c2\n", "--history", str(out), auditor=fake_auditor(self.directory, body))
        self.assertEqual((done.returncode, done.stdout, out.exists()), (4, b"", False))
        self.assertRegex(done.stderr.decode(), "^si-history: D/run: the auditor was ended by the signal SIGKILL.*\n$")


class RefusedTest(CommandTest):
    def test_command_lines(self) -> None:
        auditor = fake_auditor(self.directory, "exit 4")
        for words, said in (
            (("--finding", "nonsense"), "argument --finding: invalid choice: 'nonsense'"),
            (("--history", "-"), "--log, --history and --legend each need a file"),
            (("--history", str(self.directory / "run")), "can't be written: it is the same file as"),
            (("--history", str(self.directory / "x"), "--log", str(self.directory / "x")), "can't be written: it is the same file as"),
        ):
            with self.subTest(words=words):
                done = self.run_on("w1[1] c1\n", *words, auditor=auditor)
                self.assertEqual((done.returncode, done.stdout, done.stderr.count(b"\n")), (2, b"", 1))
                self.assertIn(said, done.stderr.decode())

    def test_no_auditor(self) -> None:
        done = self.run_on("w1[1] c1\n", auditor=str(self.directory / "none"))
        self.assertEqual((done.returncode, done.stdout, done.stderr), (2, b"", b'si-history: there is no auditor "D/none"\n'))

    def test_a_bad_log(self) -> None:
        done = self.run_on('{"txn": "a", "op": "read"}\n', auditor=fake_auditor(self.directory, "exit 4"))
        self.assertEqual((done.returncode, done.stdout), (2, b""))
        self.assertRegex(done.stderr.decode(), "^si-history: D/run: line 1: ")

    def test_identities(self) -> None:
        """Two bad reads of one key are two findings, and a bad read has the name that the report gives it."""
        self.assertNotEqual(Wanted("stale-read", (1, 2, 0)), Wanted("stale-read", (1, 2, 3)))
        self.assertEqual([name for name in NAMES if "-read" in name], ["aborted-read", "uncommitted-read", "future-read", "stale-read", "unexplained-read"])
        self.assertEqual(BadRead(1, 2, 3, 4, 5).reasons, [])


if __name__ == "__main__":
    unittest.main()
