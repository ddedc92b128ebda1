"""The sessions that run a workload, on a small store in memory."""

from __future__ import annotations

import random
import threading
import time
import unittest
from collections.abc import Callable
from dataclasses import replace

from si_history import from_events
from si_history.history import text_of
from si_history.record.driver import Run, Settings, run, transact, watched
from si_history.record.log import events_log
from si_history.record.model import Aborted, RangeDone, ReadDone, Recorded, StoreFault, WriteDone
from si_history.record.script import read_script
from si_history.record.workloads import Bump, Flip, GiveUp, Look, Put, Scan, Workload, rows_at_first
from tests.small_store import SmallConnection, SmallStore
from tests.support import LONG_SECONDS, NO_PROGRAM, PROGRAM, audit, converted, history_line


def nothing() -> None:
    """What is seen of a server that is well."""


def settings(interleave: bool, seed: int = 1, transactions: int | None = 60, events: int | None = None) -> Settings:
    return Settings(Workload.MIX, 8, 4, seed, interleave, transactions, events)


def recorded(chosen: Settings, late: bool = False) -> tuple[list[Recorded], SmallStore]:
    store = SmallStore(late)
    store.prepare(rows_at_first(range(chosen.keys)))
    return run(store, chosen, nothing, LONG_SECONDS), store


class Runs(unittest.TestCase):
    def test_every_transaction_is_recorded_once(self) -> None:
        for interleave in (False, True):
            with self.subTest(interleave=interleave):
                records, _ = recorded(settings(interleave))
                self.assertEqual([record.number for record in records], list(range(1, 61)))

    def test_a_seed_repeats_an_interleaved_run(self) -> None:
        first, second, other = (recorded(settings(True, seed))[0] for seed in (1, 1, 2))
        self.assertEqual(first, second)
        self.assertNotEqual(first, other)

    def test_no_transaction_begins_once_there_are_enough_events(self) -> None:
        for interleave in (False, True):
            with self.subTest(interleave=interleave):
                records, _ = recorded(settings(interleave, transactions=None, events=200))
                count = sum(len(record.operations) + 2 for record in records)
                # At most four sessions are in the midst of a transaction then, with at most six events each.
                self.assertTrue(200 <= count <= 200 + 4 * 6, count)

    def test_tickets_rise_within_a_transaction(self) -> None:
        for record in recorded(settings(False))[0]:
            tickets = [record.begun, *(operation.ticket for operation in record.operations), record.ended]
            self.assertEqual(tickets, sorted(set(tickets)))

    @unittest.skipUnless(PROGRAM.is_file(), NO_PROGRAM)
    def test_isolation_is_kept_in_what_is_recorded_of_the_small_store(self) -> None:
        for interleave in (False, True):
            for seed in range(10):
                with self.subTest(interleave=interleave, seed=seed):
                    records, store = recorded(settings(interleave, seed))
                    log = events_log(records, store.points).encode().splitlines()
                    _, report = audit(text_of(converted(from_events.convert, list(log)).events))
                    self.assertIn("isolation kept\n", report)


    @unittest.skipUnless(PROGRAM.is_file(), NO_PROGRAM)
    def test_a_late_snapshot_is_noted_at_the_first_statement(self) -> None:
        """And where it is noted at the begin, as a control does, some run is broken."""
        broken = 0
        for interleave in (True, False):
            for seed in range(6):
                for notes_begins in (False, True):
                    with self.subTest(interleave=interleave, seed=seed, notes_begins=notes_begins):
                        chosen = replace(settings(interleave, seed), workload=Workload.GENERAL, notes_begins=notes_begins)
                        records, store = recorded(chosen, late=True)
                        log = events_log(records, store.timeline(records)).encode().splitlines()
                        _, report = audit(text_of(converted(from_events.convert, list(log)).events))
                        if notes_begins:
                            broken += "isolation broken\n" in report
                        else:
                            self.assertIn("isolation kept\n", report)
        self.assertGreater(broken, 0)


class Transactions(unittest.TestCase):
    def setUp(self) -> None:
        self.store = SmallStore()
        self.store.prepare([0, 2])
        self.run = Run(settings(True))

    def transact(self, number: int, *steps: Look | Scan | Put | Flip | Bump | GiveUp) -> Recorded:
        for _ in transact(self.store, self.store.connect(), steps, number, self.run):
            pass
        return self.run.records[-1]

    def test_reads_tell_who_wrote(self) -> None:
        self.transact(1, Put(1), Put(2))
        self.assertEqual(self.transact(2, Look(0), Look(1), Look(3), Scan(0, 3)).operations, [
            ReadDone(6, 0, 0), ReadDone(7, 1, 1), ReadDone(8, 3, 0), RangeDone(9, 0, 3, ((1, 1), (2, 1)))])

    def test_a_flip_inserts_deletes_and_brings_back(self) -> None:
        for number, is_gone in ((1, False), (2, True), (3, False)):
            self.assertEqual(self.transact(number, Scan(0, 3), Flip(1)).operations[-1].key, 1)
            self.assertEqual(self.store.commits[-1][1], (1, number, is_gone))

    def test_a_bump_is_a_read_and_a_write(self) -> None:
        self.transact(1, Bump(1), Bump(1), Bump(0))
        self.assertEqual(self.transact(2, Bump(1)).operations, [ReadDone(10, 1, 1), WriteDone(11, 1)])
        self.assertEqual(self.run.records[0].operations, [
            ReadDone(2, 1, 0), WriteDone(3, 1), ReadDone(4, 1, 1), WriteDone(5, 1), ReadDone(6, 0, 0), WriteDone(7, 0)])

    def test_a_transaction_that_gives_up_is_an_abort(self) -> None:
        record = self.transact(1, Look(0), Put(1), GiveUp())
        self.assertFalse(record.is_committed)
        self.assertEqual(self.transact(2, Look(1)).operations[0].saw, 0)

    def test_a_begin_that_is_refused_is_an_abort_with_nothing_done(self) -> None:
        class Refusing(SmallConnection):
            def begin(self, number: int, is_reader: bool) -> None:
                raise Aborted("a writer is open")
        for _ in transact(self.store, Refusing(self.store), (Look(0),), 1, self.run):
            self.fail("it began")
        self.assertEqual(self.run.records, [Recorded(1, 1, [], ended=2)])

    def test_a_refused_commit_is_an_abort(self) -> None:
        held = transact(self.store, self.store.connect(), (Look(0), Put(0)), 1, self.run)
        next(held)
        self.assertTrue(self.transact(2, Put(0)).is_committed)
        for _ in held:
            pass
        self.assertFalse(self.run.records[-1].is_committed)
        self.assertIsInstance(self.run.records[-1].operations[-1], WriteDone)


class Scripts(unittest.TestCase):
    def play(self, text: str, late: bool = True) -> str:
        script, store = read_script(text), SmallStore(late)
        store.prepare(script.keys)
        records = run(store, settings(True), nothing, LONG_SECONDS, script)
        log = events_log(records, store.timeline(records)).encode().splitlines()
        return history_line(converted(from_events.convert, list(log)))

    def test_a_script_is_played_as_it_stands(self) -> None:
        self.assertEqual(self.play("r1[0:0] w2[0] w2[1] c2 r1[1:9] r3[0..1] a3 c1"),
                         "b1@0 r1[0:0] b2@0 w2[0] w2[1] c2 r1[1:0] b3@6 r3[0..1;0:2,1:2] a3 c1")

    def test_a_begin_takes_the_snapshot_of_a_store_that_takes_it_there(self) -> None:
        text = "b1 w2[0] c2 r1[0:0] c1"
        self.assertEqual(self.play(text, late=False), "b1@0 b2@0 w2[0] c2 r1[0:0] c1")
        self.assertEqual(self.play(text, late=True), "b1@0 w1[0] c1 b2@3 r2[0:1] c2")

    def test_what_the_store_refuses_is_over(self) -> None:
        self.assertEqual(self.play("r1[0:0] r2[0:0] w1[0] w2[0] c1 c2 r3[0:1] c3"),
                         "b1@0 r1[0:0] b2@0 r2[0:0] w1[0] w2[0] c1 a2 b3@7 r3[0:1] c3")

    def test_what_has_no_end_gives_up(self) -> None:
        self.assertEqual(self.play("r1[0:0] w2[0]"), "b1@0 r1[0:0] b2@0 w2[0] a1 a2")

    def test_a_session_that_is_idle_is_used_again(self) -> None:
        connections: list[SmallConnection] = []

        class Watched(SmallStore):
            def connect(self) -> SmallConnection:
                connections.append(super().connect())
                return connections[-1]

        script = read_script("r1[0:0] w2[1] c2 a1 r3[1:2] r4[1:2] c3 c4 r5[0:0] c5")
        self.assertEqual(script.sessions, 2)
        store = Watched()
        store.prepare(script.keys)
        run(store, settings(True), nothing, LONG_SECONDS, script)
        self.assertEqual(len(connections), 2)


class Faults(unittest.TestCase):
    def check(self, job: Callable[[], None], wanted: str, patience: float = LONG_SECONDS) -> None:
        """The fault is raised, and the session that waits for its answer isn't waited for."""
        began = time.monotonic()
        with self.assertRaisesRegex(StoreFault, wanted):
            watched([job, nothing], nothing, lambda: 0, patience)
        self.assertLess(time.monotonic() - began, LONG_SECONDS)

    def test_a_fault_of_a_job_is_told(self) -> None:
        def fail() -> None:
            raise StoreFault("the store is gone")
        self.check(fail, "the store is gone")

    def test_an_abort_where_there_can_be_none_is_told(self) -> None:
        def fail() -> None:
            raise Aborted("a conflict")
        self.check(fail, "refused a statement.*a conflict")

    def test_a_store_that_does_not_answer_is_left(self) -> None:
        self.check(lambda: threading.Event().wait(2 * LONG_SECONDS) and None, "gave no answer for 0 seconds", patience=0.2)

    def test_a_server_that_is_seen_to_fail_ends_the_run(self) -> None:
        looks = random.Random(1)

        def look() -> None:
            if looks.random() < 0.5:
                raise StoreFault("the server ended")
        with self.assertRaisesRegex(StoreFault, "the server ended"):
            watched([lambda: threading.Event().wait(2 * LONG_SECONDS) and None], look, lambda: 0, LONG_SECONDS)

    def test_a_store_that_fails_in_mid_run_leaves_no_session_running(self) -> None:
        class FailingConnection(SmallConnection):
            def commit(self, number: int) -> None:
                if number == 30:
                    raise StoreFault("the disk is full")
                super().commit(number)

        class FailingStore(SmallStore):
            def connect(self) -> SmallConnection:
                return FailingConnection(self)

        for interleave in (False, True):
            with self.subTest(interleave=interleave):
                store, before = FailingStore(), threading.active_count()
                store.prepare([0])
                with self.assertRaisesRegex(StoreFault, "the disk is full"):
                    run(store, settings(interleave, transactions=10_000), nothing, LONG_SECONDS)
                self.assertEqual(threading.active_count(), before)


if __name__ == "__main__":
    unittest.main()
