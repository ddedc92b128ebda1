"""Splitting: the findings of the parts are those of the whole, at its places, and what is said of the whole is so."""

from __future__ import annotations

import io
import os
import re
import sys
import tempfile
import unittest
from collections import Counter
from collections.abc import Iterator
from dataclasses import replace
from pathlib import Path
from random import Random
from typing import NamedTuple
from unittest import mock

from si_history.cli import make_parser
from si_history.endings import Ending, endings_of
from si_history.errors import BadInput
from si_history.legend import Legend
from si_history.limits import Limits
from si_history.number_set import NumberSet
from si_history.part_text import PartText
from si_history.sorted_keys import MOST_IN_RUN, SortedKeys
from si_history.splitting import parts_of
from si_history.tokens import BYTES_OF_PIECE, tokens_of
from tests.support import NO_PROGRAM, PROGRAM, REPOSITORY, audit, run_command

sys.path.insert(0, str(REPOSITORY / "tools"))
from histories import Store, interleave  # noqa: E402
from oracle.account import LEVELS, Account  # noqa: E402
from oracle.reading import Refusal, read  # noqa: E402
from oracle.small import text_of as small_text  # noqa: E402
from oracle.store import HABITS, ErringStore, Habits, ids, keys  # noqa: E402
from oracle.taking import account_of  # noqa: E402

# More of both can be asked for: SPLIT_RUNS=5000 SPLIT_EVENTS=1000000 python3 -m unittest tests.test_split
RUNS = int(os.environ.get("SPLIT_RUNS", "120"))
LONG_EVENTS = int(os.environ.get("SPLIT_EVENTS", "40000"))
ODD_HABITS = Habits(begins=0.5, named=0.3, wrong_reads=0.1, late_commits=1, aborts=0.1, left_open=0.05)
PLACE = re.compile(r"^(bad-read|unexplained) ([0-9]+) ", re.MULTILINE)
FINDING = re.compile(r"^(?:(?:bad-read|unexplained) .*\n  [a-z ]+:|bad-write .*)", re.MULTILINE)


def split(text: str, most_events: int) -> list[PartText]:
    tokens = text.split()
    return list(parts_of(tokens, endings_of(tokens), most_events))


def text_of(part: PartText) -> str:
    return "\n".join(part.tokens)


def account(text: str) -> Account:
    events = read(text.encode())
    if isinstance(events, Refusal):
        raise AssertionError(events.line)
    return account_of(events)


def report_of(text: str) -> str:
    """The full report by the definitions."""
    return account(text).report().decode()


def at_whole(reported: str, part: PartText) -> str:
    """What a part's report says, with the places of the whole."""
    return PLACE.sub(lambda it: f"{it[1]} {part.places[int(it[2]) - 1]} ", reported)


class Findings(NamedTuple):
    """The findings of a history: the bad reads, the bad writes and the unexplained reads."""

    bad_reads: list[tuple[int, ...]]
    bad_writes: list[tuple[int, ...]]
    unexplained: list[tuple[int, ...]]


def findings(found: Account, part: PartText | None = None) -> Findings:
    """The findings of an account, with the places of the whole where it is a part's."""
    def placed(place: int) -> int:
        return place if part is None else part.places[place - 1]

    return Findings(
        [it._replace(place=placed(it.place)) for it in found.bad_reads],
        list(found.bad_writes),
        [it._replace(place=placed(it.place)) for it in found.unexplained],
    )


def erring_run(random: Random) -> str:
    """A run of 20 to 400 events with named starts, ranges, ends of every kind, and errors."""
    count = random.randint(20, 400) if random.random() < 0.3 else random.randint(20, 100)
    habits = random.choice((*HABITS, ODD_HABITS, replace(ODD_HABITS, wrong_reads=0.02)))
    store = ErringStore(random, habits, ids(random, 2 * count + 40))
    some = keys(random, random.choice((1, 2, 5, 20)))
    writes, wide = random.choice((0.1, 0.3, 0.6)), random.choice((0, 0.1, 0.3))

    def act(store: Store, transaction: int) -> None:
        key = random.choice(some)
        if random.random() < writes:
            store.write(transaction, key)
        elif random.random() < wide:
            store.read_range(transaction, key, random.choice([it for it in some if it >= key]))
        else:
            store.read(transaction, key)

    return " ".join(interleave(store, count, random, act, random.choice((1, 3, 6, 20)), random.choice((1, 2, 4, 8, 20))))


def quiet_run(random: Random) -> str:
    """A run with places where no transaction is open."""
    store = ErringStore(random, replace(random.choice(HABITS[:5]), named=0), ids(random, 400))
    some = keys(random, random.choice((2, 5)))

    def act(store: Store, transaction: int) -> None:
        (store.write if random.random() < 0.4 else store.read)(transaction, random.choice(some))

    for _ in range(random.randint(2, 6)):
        interleave(store, len(store.events) + random.randint(8, 25), random, act, 4, random.choice((1, 2, 3, 4)))
    return " ".join(store.events)


def runs(count: int) -> Iterator[tuple[str, int]]:
    """Random runs, each with a number of events that a part may have."""
    for seed in range(count):
        random = Random(f"split {seed}")
        text = random.choice((erring_run, erring_run, quiet_run, lambda it: small_text(it).decode("latin-1")))(random)
        if text.split() and not isinstance(read(text.encode("latin-1")), Refusal):
            length = len(text.split())
            for most in (random.randint(4, 20), random.randint(10, 60), random.randint(20, max(20, length)), length):
                yield text, most


class RandomTest(unittest.TestCase):
    def test_by_the_definitions(self) -> None:
        """Findings are those of the whole, edges and pivots are some of its, and the verdicts go with what is printed."""
        seen = Counter[str]()
        for text, most in runs(RUNS):
            with self.subTest(text=text, most=most):
                try:
                    parts = split(text, most)
                except BadInput as fault:
                    self.assertRegex(str(fault), "has no room in a part|it can't be cut behind")
                    seen["refused" if "room" in str(fault) else "not cut"] += 1
                    continue
                self.assertLessEqual(max(len(part.tokens) for part in parts), most)
                whole, accounts = account(text), [account(text_of(part)) for part in parts]
                wanted = findings(whole)
                told = [findings(found, part) for found, part in zip(accounts, parts, strict=True)]
                for name in Findings._fields:
                    self.assertEqual(sorted(sum((getattr(each, name) for each in told), [])), getattr(wanted, name))
                    seen[name] += len(getattr(wanted, name))
                self.check_rest(whole, accounts)
                seen["split" if len(parts) > 1 else "in one part"] += 1
                if len(parts) > 1 and not any(part.over for part in parts):
                    seen["quiet"] += 1
                    for level in ("si", "ssi", "serializable"):
                        self.assertEqual(whole.status(level), max(each.status(level) for each in accounts))
        if RUNS > 1000:
            print(dict(seen), file=sys.stderr)
        for name in ("split", "refused", "in one part", "quiet", *Findings._fields):
            self.assertGreater(seen[name], RUNS // 10, name)

    def check_rest(self, whole: Account, accounts: list[Account]) -> None:
        """What else a part has is of the whole."""
        pivots = {it.txn: it for it in whole.pivots}
        for found in accounts:
            self.assertLessEqual(set(found.edges), set(whole.edges))
            for pivot in found.pivots:
                for one, other in zip(pivot[1:], pivots[pivot.txn][1:], strict=True):
                    self.assertLessEqual(set(one), set(other))
            for level in LEVELS:
                self.assertLessEqual(found.status(level), whole.status(level))

    @unittest.skipUnless(PROGRAM.exists(), NO_PROGRAM)
    def test_by_the_program(self) -> None:
        """The program names the same findings of the parts, each bad read by the same name."""
        for number, (text, most) in enumerate(runs(RUNS)):
            if number % 8:
                continue
            with self.subTest(text=text, most=most):
                try:
                    parts = split(text, most)
                except BadInput:
                    continue
                told = [at_whole(audit(text_of(part), "--explain")[1], part) for part in parts]
                whole = audit(text, "--explain")[1]
                self.assertEqual(sorted(FINDING.findall("".join(told))), sorted(FINDING.findall(whole)))


class CutTest(unittest.TestCase):
    def test_the_parts_of_a_small_run(self) -> None:
        """Transaction 4 is open at the cut. What it needs is loaded: the version that was due, and the newer one."""
        text = "w1[1] c1 w2[1] c2 r4[1:2] w4[1] w3[1] c3 c4"
        first, second = split(text, 8)
        self.assertEqual((first.tokens, first.places), ("w1[1] c1 w2[1] c2 w3[1] c3".split(), [1, 2, 3, 4, 7, 8]))
        self.assertEqual(second.tokens, "w2[1] c2 w3[1] c3 b4@2 r4[1:2] w4[1] c4".split())
        self.assertEqual(second.places, [4, 4, 8, 8, 5, 5, 6, 9])
        self.assertEqual((second.first, second.last, second.added, second.over), (9, 9, 5, 1))
        self.assertIn("bad-write 1 3 4", report_of(text_of(second)))

    def test_a_version_that_is_committed_later(self) -> None:
        """It is written before the read that saw it, and ends with the part, as it ends later."""
        for end, ends in (("c2", ["c2"]), ("a2", ["a2"]), ("r2[9:0]", [])):
            first, second = split(f"w2[1] r2[9:0] r1[1:2] c1 w3[2] c3 {end}", 6)
            self.assertEqual(first.tokens, ["w2[1]", "r1[1:2]", "c1", "w3[2]", "c3", *ends])
            self.assertEqual((first.places[:3], second.tokens[-1]), ([3, 3, 4], end))

    def test_a_cut_moves_back(self) -> None:
        """Between the commits of 1 and 2, which is a bad write, no cut is made where 1 has read what 2 wrote."""
        text = "w9[9] c9 w8[8] c8 w2[1] r1[1:2] w1[1] c1 r3[3:0] c3 c2"
        self.assertEqual([part.last for part in split(text, 10)], [7, 11])
        with self.assertRaisesRegex(BadInput, "^it can't be cut behind token 0 into parts of 7 events"):
            split("w2[1] r1[1:2] w1[1] c1 w3[3] w3[4] w3[5] c3 c2", 7)

    def test_two_versions_that_are_committed_later(self) -> None:
        """Of two of one key, which are a bad write where both commit, a part has one at most."""
        text = "w8[8] w8[7] w8[6] c8 w1[1] w2[1] r3[1:1] c3 r4[1:2] c4 w5[5] c5 c1 c2"
        self.assertEqual([part.last for part in split(text, 12)], [9, 14])
        self.assertEqual([part.last for part in split(text.replace("c2", "a2"), 12)], [11, 14])

    def test_who_runs_over_a_cut(self) -> None:
        """The transaction whose first event is the last one before the cut does, and one that aborts isn't counted."""
        text = "b5 w1[1] w1[2] w1[3] c1 r4[4:0] c4 c5"
        self.assertEqual([(part.last, part.over) for part in split(text, 5)], [(6, 0), (8, 2)])
        self.assertEqual([(part.last, part.over) for part in split(text.replace("c5", "a5"), 5)], [(6, 0), (8, 1)])

    def test_no_room(self) -> None:
        with self.assertRaisesRegex(BadInput, "^transaction 3, which ends at token 7, has no room in a part of 5 events"):
            split("w1[1] c1 r2[1:1] w2[1] c2 r3[1:1] c3", 5)

    def test_a_quiet_place(self) -> None:
        """A part ends where no transaction is open, if there is such a place in its second half."""
        self.assertEqual([part.last for part in split("w1[1] c1 w2[2] c2 w3[3] r4[4:0] c3 c4", 6)], [4, 8])
        self.assertEqual([part.last for part in split("w1[1] c1 w3[3] r4[4:0] w5[5] c5 c3 c4", 6)], [7, 8])

    def test_old_named_starts(self) -> None:
        """A start may reach behind all cuts."""
        run = " ".join(f"w{it}[1] c{it}" for it in range(1, 9))
        *_, last = split(f"{run} b9@5 r9[1:2] c9", 5)
        self.assertEqual(last.tokens, ["w2[1]", "c2", "b9@2", "r9[1:2]", "c9"])

    def test_what_the_auditor_refuses(self) -> None:
        """Each text that breaks a rule is refused in the auditor's words."""
        for text in (
            "c1 c1", "c1 b1", "r1[1:0] b1", "r1[9..3]", "r1[3..9;5:0,5:0]", "r1[3..9;10:0]", "r1[5:2]", "r1[1..9;5:2]", "b1@5",
            "x", "w1[1] r1[1:1] c1 r2[1:1] r2[2:1]", "w0[1]", "r1[1:4294967296]", "c1\xa0c2", "w1[1] a1 w2[1] r2[2:1]",
        ):
            for front in ("", "c7 w8[1] "):
                refusal = read((front + text).encode())
                assert isinstance(refusal, Refusal)
                with self.subTest(text=front + text), self.assertRaises(BadInput) as caught:
                    list(parts_of(tokens_of(io.BytesIO((front + text).encode())), endings_of((front + text).split()), 100))
                self.assertEqual(f"refused: {caught.exception}", refusal.line)

    def test_a_history_that_changes(self) -> None:
        for before, after in (("c1", "c1 c2"), ("c1 c2", "c1"), ("w1[1] c1", "w1[1] w1[2]")):
            with self.subTest(before=before), self.assertRaisesRegex(BadInput, "^it changed while it was read$"):
                list(parts_of(after.split(), endings_of(before.split()), 100))


    def test_bytes(self) -> None:
        """No part is longer than a text may be."""
        with mock.patch("si_history.part_room.STANDARD", Limits(bytes=400)):
            for text, most in runs(RUNS // 4):
                try:
                    parts = split(text, most)
                except BadInput:
                    continue
                for part in parts:
                    self.assertLessEqual(len(text_of(part)) + 1, 400)


class HelpersTest(unittest.TestCase):
    def test_tokens(self) -> None:
        """Tokens are whole wherever a piece of the file ends."""
        text = b" \t\r\n".join(b"r%d[%d:0]" % (it, it) for it in range(1, BYTES_OF_PIECE // 9))
        for front in range(12):
            self.assertEqual(list(tokens_of(io.BytesIO(b" " * front + text))), text.decode().split())
        self.assertEqual(list(tokens_of(io.BytesIO(b"\xff\x0b c1\x0cc2\n"))), ["\xff\x0b", "c1\x0cc2"])

    def test_endings(self) -> None:
        found = endings_of("b1 w2[1] c1 r3[1:0] a2 w3[4] faulty".split())
        self.assertEqual([found.of(it) for it in (1, 2, 3)], [Ending.COMMIT, Ending.ABORT, Ending.OPEN])
        self.assertEqual((found.events, found.unended), (7, {3: 6}))

    def test_sets_of_numbers_and_keys(self) -> None:
        random = Random(5)
        numbers = random.sample(range(2**32), 500) + random.sample(range(9_000), 3_000)
        some, sorted_keys = NumberSet(), SortedKeys()
        for number in dict.fromkeys(numbers):
            some.add(number)
            sorted_keys.add(number)
        self.assertGreater(len(numbers), MOST_IN_RUN)
        self.assertEqual([it for it in range(9_100) if it in some], sorted(it for it in set(numbers) if it < 9_100))
        for low, high in ((0, 2**64), (5, 5), (100, 4_000), (8_000, 2**31), (2**40, 2**41)):
            self.assertEqual(list(sorted_keys.within(low, high)), sorted(it for it in set(numbers) if low <= it <= high))
        self.assertEqual(list(SortedKeys().within(0, 9)), [])


class CommandTest(unittest.TestCase):
    def setUp(self) -> None:
        place = tempfile.TemporaryDirectory(prefix="si-test-")
        self.addCleanup(place.cleanup)
        self.place = Path(place.name)
        self.run_path = self.place / "run.history"
        self.run_path.write_text("w1[1] c1 r2[1:1] w2[1] c2 r3[1:1] c3\n")

    def split(self, *words: str, given: bytes = b"") -> tuple[int, str, str]:
        done = run_command("split", *words, given=given)
        return done.returncode, done.stdout.decode(), done.stderr.decode()

    def names(self) -> list[str]:
        return sorted(path.name for path in self.place.iterdir())

    def test_parts_and_legends(self) -> None:
        status, told, fault = self.split("--events", "6", "-o", f"{self.place}/run", str(self.run_path))
        self.assertEqual((status, fault), (0, ""))
        self.assertRegex(told, r"^\S*run\.history: 7 events, in 2 parts\.\n\n  \S*run-001\.history  places 1 to 5, 0 added\n")
        self.assertIn("the whole meets\nsi, ssi and serializable each exactly if each part meets it.\n", told)
        self.assertTrue(told.endswith("\nIt falls short of gsi if a part does, and may if none does: parts lack versions of the past.\n"))
        self.assertEqual(
            self.names(), ["run-001.history", "run-001.legend", "run-002.history", "run-002.legend", "run.history"]
        )
        self.assertEqual((self.place / "run-002.history").read_text(), "w1[1]\nc1\nw2[1]\nc2\nr3[1:1]\nc3\n")
        if PROGRAM.exists():
            part = self.place / "run-002.history"
            done = run_command("names", "--legend", f"{self.place}/run-002.legend", "--history", str(part),
                               given=audit(part.read_text(), "--explain")[1].encode())
            self.assertIn("bad-read line 6 3 1 saw 1 due 2\n  stale read: event 5 (line 6) 3 read 1", done.stdout.decode())

    def test_standard_input(self) -> None:
        status, told, _ = self.split("-o", f"{self.place}/p", "-", given=b"w1[1] r2[1:1] c2 c1")
        self.assertEqual((status, told[:34]), (0, "standard input: 4 events, in 1 part"[:34]))
        self.assertEqual((self.place / "p-001.history").read_text(), "w1[1]\nr2[1:1]\nc2\nc1\n")

    def test_what_is_said_where_one_runs_over_a_cut(self) -> None:
        _, told, _ = self.split("--events", "6", "-o", f"{self.place}/p", "-", given=b"r4[4:0] w1[1] c1 w2[1] w2[3] c2 r4[3:0] c4")
        self.assertIn("\n1 committed transaction started before a cut and ended behind it. Cycles", told)

    def test_faults(self) -> None:
        """Each is told in one line, and no file is left."""
        before = self.names()
        (self.place / "kept-002.legend").touch()
        here = str(self.place)
        for words, given, wanted in (
            (["-o", f"{here}/p", "-"], b"", "standard input: there is no event in it"),
            (["-o", f"{here}/p", "-"], b"w1[1] r2[1:3]", "standard input: token 2: version not written"),
            (["--events", "6", "-o", f"{here}/p", "-"], b"w1[1] w1[2] c1 w2[1] w2[2] c2 c2", "token 7: transaction already ended"),
            (["--events", "2", "-o", f"{here}/p", str(self.run_path)], b"", "has no room in a part of 2 events"),
            (["-o", f"{here}/p", f"{here}/none"], b"", "none: No such file"),
            (["-o", f"{here}/kept", str(self.run_path)], b"", "kept-002.legend: can't be written: it is there already"),
            (["-o", f"{here}/none/p", str(self.run_path)], b"", "none/p: can't be written: No such file"),
            (["-o", f"{here}/", str(self.run_path)], b"", "can't be written: a prefix of names has to end with some characters"),
            (["--events", "0", "-o", f"{here}/p", str(self.run_path)], b"", "it is no number from 1 to 100,000: 0"),
            (["--events", "100001", "-o", f"{here}/p", str(self.run_path)], b"", "no number from 1 to 100,000: 100001"),
            ([str(self.run_path)], b"", "-o/--prefix"),
        ):
            with self.subTest(words=words), self.assertRaises(BadInput) as caught:
                with mock.patch("sys.stdin", io.TextIOWrapper(io.BytesIO(given))):
                    arguments = make_parser().parse_args(["split", *words])
                    arguments.run(arguments)
            self.assertIn(wanted, str(caught.exception))
            self.assertEqual([name for name in self.names() if not name.startswith("kept")], before)

    def test_a_fault_is_one_line(self) -> None:
        """It is told on standard error, and standard output, where no history was due, has no mark."""
        told = "si-history: standard input: there is no event in it\n"
        self.assertEqual(self.split("-o", f"{self.place}/p", "-", given=b" \n"), (2, "", told))

    def test_no_output_is_the_input(self) -> None:
        part = self.place / "run-001.history"
        part.write_text("c1\n")
        self.assertEqual(self.split("-o", f"{self.place}/run", str(part))[0], 2)
        self.assertEqual(part.read_text(), "c1\n")


@unittest.skipUnless(PROGRAM.exists(), NO_PROGRAM)
class LongTest(unittest.TestCase):
    def test_a_long_run(self) -> None:
        """Of a long run with a few bad reads in it exactly these are found, at their places."""
        random = Random("a long run")
        store = _PlantedStore(random, LONG_EVENTS // 7)

        def act(store: Store, transaction: int) -> None:
            (store.read if random.random() < 0.6 else store.write)(transaction, random.randrange(LONG_EVENTS))

        events = interleave(store, LONG_EVENTS, random, act, 5)
        most = min(90_000, LONG_EVENTS // 5)
        with tempfile.TemporaryDirectory() as folder:
            Path(folder, "run").write_text(" ".join(events))
            done = run_command("split", "--events", str(most), "-o", f"{folder}/run", f"{folder}/run")
            self.assertEqual((done.returncode, done.stderr), (0, b""))
            found = set[str]()
            paths = sorted(Path(folder).glob("*.history"))
            for path in paths:
                legend = Legend.from_json(path.with_suffix(".legend").read_text())
                legend.check(path.read_bytes())
                status, told = audit(path.read_text(), "--brief")
                lines = re.findall("^(?:bad-|unexplained).*", told, re.MULTILINE)
                found.update(PLACE.sub(lambda it: f"{it[1]} {legend.line(int(it[2]))} ", line) for line in lines)
                self.assertEqual(status, 1 if lines else 0)
            self.assertGreater(len(paths), LONG_EVENTS // most)
            self.assertIn(len(store.planted), (6, 7))
            self.assertEqual(found, store.planted)


class _PlantedStore(Store):
    """A store that now and then reads version 0 where another one is due."""

    def __init__(self, random: Random, every: int) -> None:
        super().__init__()
        self.random, self.every = random, every
        self.planted = set[str]()

    def read(self, txn: int, key: int) -> None:
        if len(self.events) // self.every > len(self.planted) and self.versions:
            key = self.random.choice(list(self.versions))
            due = self.due(txn, key)
            if due not in (0, txn):
                self.record(txn, f"r{txn}[{key}:0]")
                self.planted.add(f"bad-read {len(self.events)} {txn} {key} saw 0 due {due}")
                return
        super().read(txn, key)


if __name__ == "__main__":
    unittest.main()
