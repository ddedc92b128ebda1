"""What the stores in a folder of the recorder's own share: their order, their folder, rows as values, statements of SQL."""

from __future__ import annotations

import os
import signal
import tempfile
import unittest
from unittest import mock

from si_history.record import firebird_client, local, signals
from si_history.record.keyvalue import KeyValueConnection, packed
from si_history.record.kinds import KINDS
from si_history.record.local import Holders, folder, timeline
from si_history.record.model import Moment, Point, Recorded, Row, StoreFault
from si_history.record.sql import Cell, SqlConnection


class Order(unittest.TestCase):
    def test_the_order_is_that_of_the_tickets(self) -> None:
        records = [Recorded(1, 1, ended=6, is_committed=True), Recorded(2, 2, ended=4, is_committed=True),
                   Recorded(3, 5, ended=7)]
        self.assertEqual(timeline(records), [Point(Moment.START, 1), Point(Moment.START, 2), Point(Moment.COMMIT, 2),
                                             Point(Moment.START, 3), Point(Moment.COMMIT, 1)])

    def test_what_one_session_holds_no_other_has(self) -> None:
        holders, one, other = Holders(), object(), object()
        self.assertTrue(holders.is_free(5, one))
        self.assertTrue(holders.is_free(5, one))
        self.assertFalse(holders.is_free(5, other))
        self.assertTrue(holders.is_free(6, other))
        holders.let_go(one)
        self.assertTrue(holders.is_free(5, other))
        self.assertFalse(holders.is_free(6, one))


class Folders(unittest.TestCase):
    def setUp(self) -> None:
        self.place = tempfile.TemporaryDirectory(prefix="si-test-")
        self.addCleanup(self.place.cleanup)
        patched = mock.patch.object(tempfile, "tempdir", self.place.name)
        patched.start()
        self.addCleanup(patched.stop)

    def test_a_folder_is_for_its_owner_and_is_removed(self) -> None:
        with folder() as one:
            self.assertEqual(one.stat().st_mode & 0o777, 0o700)
            (one / "file").write_text("x")
        self.assertEqual(os.listdir(self.place.name), [])

    def test_a_folder_is_removed_after_a_fault(self) -> None:
        with self.assertRaisesRegex(StoreFault, "no more"), folder():
            raise StoreFault("no more")
        self.assertEqual(os.listdir(self.place.name), [])

    def test_a_folder_is_removed_where_a_signal_comes_while_it_is_made(self) -> None:
        make = tempfile.mkdtemp

        def disturbed(prefix: str) -> str:
            made = make(prefix=prefix)
            os.kill(os.getpid(), signal.SIGINT)
            return made

        with mock.patch.object(tempfile, "mkdtemp", disturbed), self.assertRaises(KeyboardInterrupt), signals.met(), folder():
            self.fail("the signal is lost")
        self.assertEqual(os.listdir(self.place.name), [])

    def test_a_disk_with_too_little_room_is_told(self) -> None:
        with mock.patch.object(local.shutil, "disk_usage", return_value=mock.Mock(free=1000)):
            with self.assertRaisesRegex(StoreFault, "0 MB free.* set TMPDIR"), folder():
                self.fail("there was room")
        self.assertEqual(os.listdir(self.place.name), [])


class SmallPairs(KeyValueConnection):
    """Pairs in memory."""

    def __init__(self) -> None:
        self.values: dict[bytes, bytes] = {}
        self.wanted: list[bool] = []

    def get(self, key: bytes, is_to_be_set: bool) -> bytes | None:
        self.wanted.append(is_to_be_set)
        return self.values.get(key)

    def pairs(self, low: bytes, high: bytes) -> list[tuple[bytes, bytes]]:
        return sorted(pair for pair in self.values.items() if low <= pair[0] <= high)

    def set(self, key: bytes, value: bytes) -> None:
        self.values[key] = value


class Pairs(unittest.TestCase):
    def test_rows_are_values(self) -> None:
        pairs = SmallPairs()
        pairs.insert(300, 7)
        pairs.update(2, 2**40, is_gone=True)
        self.assertIsNone(pairs.read(3))
        self.assertEqual(pairs.scan(0, 299), [Row(2, 2**40, True)])
        self.assertEqual(pairs.scan(2, 300), [Row(2, 2**40, True), Row(300, 7, False)])

    def test_a_value_may_be_padded(self) -> None:
        pairs = SmallPairs()
        pairs.put(1, 5)
        pairs.values[packed(1)] += b"xx"
        self.assertEqual(pairs.read(1), Row(1, 5, False))

    def test_a_bump_says_that_it_will_write(self) -> None:
        pairs = SmallPairs()
        self.assertEqual((pairs.bump(1, 5), pairs.bump(1, 6), pairs.wanted), (0, 5, [True, True]))
        self.assertEqual(pairs.read(1), Row(1, 6, False))


class SmallStatements(SqlConnection):
    """Keeps what it is told. Each change finds the rows that `present` says."""

    def __init__(self, tables: int, present: bool) -> None:
        super().__init__(tables)
        self.present = present
        self.told: list[tuple[str, tuple[int, ...]]] = []

    def ask(self, statement: str, values: tuple[int, ...]) -> list[tuple[Cell, ...]]:
        self.told.append((statement, values))
        return [(9,)] if statement.startswith("SELECT prev") else [(5, 3, 1), (4, 2, 0)]

    def change(self, statement: str, values: tuple[int, ...]) -> int:
        self.told.append((statement, values))
        return int(self.present)


class Statements(unittest.TestCase):
    def test_keys_are_spread_over_the_tables(self) -> None:
        session = SmallStatements(2, present=True)
        self.assertEqual(session.read(5), Row(5, 3, True))
        self.assertEqual(session.scan(4, 5), [Row(4, 2, False), Row(5, 3, True)])
        self.assertEqual(session.told, [
            ("SELECT id, writer, gone FROM kv1 WHERE id = ?", (5,)),
            ("SELECT id, writer, gone FROM kv0 WHERE id BETWEEN ? AND ? UNION ALL "
             "SELECT id, writer, gone FROM kv1 WHERE id BETWEEN ? AND ?", (4, 5, 4, 5))])

    def test_a_row_that_is_missing_is_inserted(self) -> None:
        for present, count in ((True, 1), (False, 2)):
            session = SmallStatements(1, present)
            session.put(5, 7)
            self.assertEqual(len(session.told), count)
        self.assertEqual(session.told[-1], ("INSERT INTO kv0 VALUES (?, ?, 0, NULL)", (5, 7)))

    def test_a_bump_answers_the_writer_before_it(self) -> None:
        self.assertEqual(SmallStatements(1, present=True).bump(5, 7), 9)
        self.assertEqual(SmallStatements(1, present=False).bump(5, 7), 0)


class Kinds(unittest.TestCase):
    def test_each_kind_has_a_name_and_levels(self) -> None:
        self.assertEqual(len({kind.name for kind in KINDS}), len(KINDS))
        for kind in KINDS:
            self.assertTrue(kind.levels and all(kind.levels.values()) and all(kind.settings.values()), kind.name)


class FirebirdCounts(unittest.TestCase):
    """The answer to isc_info_sql_records, as the interface's guide words it: an item, its length in two bytes, its number."""

    def test_inserts_and_updates_are_counted(self) -> None:
        def item(kind: int, count: int) -> bytes:
            return bytes([kind, 4, 0]) + count.to_bytes(4, "little")

        selected, inserted, updated, deleted = 13, 14, 15, 16
        for items, wanted in (([(updated, 1)], 1), ([(updated, 2), (deleted, 9), (selected, 9), (inserted, 300)], 302), ([], 0)):
            content = b"".join(item(*one) for one in items)
            answer = bytes([23]) + len(content).to_bytes(2, "little") + content + b"\x01\x01"
            with self.subTest(items):
                self.assertEqual(firebird_client._changed(answer.ljust(64, b"\0")), wanted)


if __name__ == "__main__":
    unittest.main()
