"""Logs by values, and versions that no transaction of the log wrote: what they become, and what is refused."""

from __future__ import annotations

import unittest
from collections.abc import Callable

from si_history import from_events, from_transactions
from si_history.conversion import Conversion
from si_history.errors import BadInput
from si_history.history import text_of
from si_history.policy import STRICT, Policy
from tests.named_report import named
from tests.random_store import Line
from tests.support import NO_PROGRAM, PROGRAM, audit, converted, history_line

HEADER: Line = {"values": "unique"}
LENIENT = Policy(takes_unknown_values=True, takes_unknown_writers=True, takes_intermediate=True)


def txn(name: str, start: int, commit: object, *operations: object) -> Line:
    """One line of a log of transactions."""
    return {"txn": name, "start": start, "commit": commit, "aborted": False, "ops": list(operations)}


def event(name: str, kind: str, **fields: object) -> Line:
    """One line of a log of events."""
    return {"txn": name, "op": kind, **fields}


def made_of(*lines: Line, policy: Policy = STRICT, is_events: bool = False) -> Conversion:
    """What a log becomes."""
    convert = from_events.convert if is_events else from_transactions.convert
    return converted(lambda file: convert(file, policy), list(lines))


class ValuesTest(unittest.TestCase):
    def test_transactions(self) -> None:
        lines = [
            txn("A", 1, 2, ["w", "x", "one"], ["w", "x", 2], ["r", "x", 2], ["w", "y", True]),
            txn("B", 3, 4, ["r", "x", 2], ["r", "z", None], ["range", "x", "y", [["x", 2], ["y", True]]], ["w", "x", 1]),
            txn("C", 5, 6, ["r", "x", 1]),
        ]
        told = "b1@0 w1[0] w1[0] r1[0:1] w1[1] c1 b2@6 r2[0:1] r2[2:0] r2[0..1;0:1,1:1] w2[0] c2 b3@12 r3[0:2] c3"
        self.assertEqual(history_line(made_of(HEADER, *lines)), told)
        self.assertEqual(history_line(made_of(*lines, policy=Policy(by_values=True))), told)

    def test_events(self) -> None:
        self.assertEqual(
            history_line(made_of(
                HEADER, event("A", "write", key=1, value=0.5), event("A", "read", key=1, value=0.5),
                event("B", "read", key=1, value=None), {"txn": "B", "op": "range", "from": 1, "to": 2, "found": [[1, 0.5]]},
                is_events=True,
            )),
            "w1[1] r1[1:1] r2[1:0] r2[1..2;1:1]",
        )

    def test_one_value_of_two_keys_is_two_versions(self) -> None:
        made = made_of(HEADER, txn("A", 1, 2, ["w", 1, 7]), txn("B", 1, 3, ["w", 2, 7]), txn("C", 4, 5, ["r", 1, 7], ["r", 2, 7]))
        self.assertEqual(history_line(made), "b1@0 w1[1] b2@0 w2[2] c1 c2 b3@6 r3[1:1] r3[2:2] c3")

    def test_a_value_that_one_transaction_wrote_again_is_its_version(self) -> None:
        made = made_of(HEADER, txn("A", 1, 2, ["w", 1, 7], ["w", 1, 8], ["w", 1, 7]), txn("B", 3, 4, ["r", 1, 7]))
        self.assertEqual(history_line(made), "b1@0 w1[1] w1[1] w1[1] c1 b2@5 r2[1:1] c2")

    def test_true_and_1_are_two_values(self) -> None:
        made = made_of(HEADER, txn("A", 1, 2, ["w", 1, 1]), txn("B", 3, 4, ["w", 1, True]), txn("C", 5, 6, ["r", 1, True]))
        self.assertIn("r3[1:2]", history_line(made))


class RefusalTest(unittest.TestCase):
    def refused(self, said: str, *lines: Line, policy: Policy = STRICT, is_events: bool = False) -> None:
        """The log is refused with exactly these words."""
        with self.assertRaises(BadInput) as caught:
            made_of(*lines, policy=policy, is_events=is_events)
        self.assertEqual(str(caught.exception), said)

    def test_a_value_that_two_wrote(self) -> None:
        self.refused(
            'line 3: "B" wrote the value 5 to "x", as "A" did at line 2: a value that two wrote doesn\'t tell whose version was read',
            HEADER, txn("A", 1, 2, ["w", "x", 5]), txn("B", 3, 4, ["w", "x", 5]), policy=LENIENT,
        )

    def test_a_value_that_nobody_wrote(self) -> None:
        self.refused(
            'line 3: "B" saw a version of "x" from nowhere: nobody wrote the value 6 to it',
            HEADER, txn("A", 1, 2, ["w", "x", 5], ["w", "y", 6]), txn("B", 3, 4, ["r", "x", 6]),
        )

    def test_intermediate_reads(self) -> None:
        writer = txn("A", 1, 2, ["w", "x", 5], ["w", "x", 6])
        self.refused(
            'line 3: intermediate read (G1b): "B" saw the value 5 of "x", which "A" (line 2) wrote there and overwrote with 6',
            HEADER, writer, txn("B", 3, 4, ["r", "x", 5]),
        )
        self.refused(
            'line 2: "A" saw the value 5 of "x", where its own write of 6 stands last before this read',
            HEADER, txn("A", 1, 2, ["w", "x", 5], ["w", "x", 6], ["r", "x", 5]),
        )
        self.refused(
            'line 2: "A" saw its own value 5 of "x" before it wrote that key', HEADER, txn("A", 1, 2, ["r", "x", 5], ["w", "x", 5])
        )

    def test_events_out_of_order(self) -> None:
        self.refused(
            'line 2: "B" saw a version of "x" from nowhere: the value 5 was written only at line 3',
            HEADER, event("B", "read", key="x", value=5), event("A", "write", key="x", value=5), is_events=True, policy=LENIENT,
        )

    def test_fields_and_forms(self) -> None:
        said = 'operation 1 is none of ["r", key, value], ["w", key, value] or ["range", from, to, [[key, value], ..]]'
        self.refused(f"line 2: {said}", HEADER, txn("A", 1, 2, ["w", "x"]))
        self.refused(
            "line 2: the value of operation 1 is null, and so names the version that no transaction wrote",
            HEADER, txn("A", 1, 2, ["w", "x", None]),
        )
        self.refused(
            "line 2: the value of operation 1 is no key: a string, a number, true, false, null, or a list of these",
            HEADER, txn("A", 1, 2, ["r", "x", [[5]]]),
        )
        self.refused('line 2: the field "value" is missing', HEADER, event("A", "write", key=1), is_events=True)
        self.refused(
            "line 2: what operation 1 found is no list of pairs [key, value]", HEADER, txn("A", 1, 2, ["range", 1, 2, [3]])
        )

    def test_headers(self) -> None:
        good = txn("A", 1, 2)
        self.refused('line 1: "values" is neither "writers" nor "unique"', {"values": "some"}, good)
        self.refused('line 1: "values" of the header is not what --values says', HEADER, good, policy=Policy(by_values=False))
        self.refused(
            'line 1: "key_order" is none of unicode, utf-16, and no list of all keys in their order', {"key_order": "binary"}, good
        )
        self.refused('line 1: key 3 of "key_order" is key 1 too', {"key_order": [1, 2, 1.0]}, good)
        self.refused('line 2: the field "txn" is missing', HEADER, HEADER)
        self.refused(
            'line 2: the key "c" is not in the list "key_order" of the header', {"key_order": ["b", "a"]}, txn("A", 1, 2, ["w", "c"])
        )


class KeyOrderTest(unittest.TestCase):
    def numbers(self, order: object, *keys: object) -> list[str]:
        """The keys as their numbers have them, of a log with a range."""
        made = made_of({"key_order": order}, txn("A", 1, 2, *(["w", key] for key in keys), ["range", keys[0], keys[0], []]))
        return list(made.legend.keys.values())

    def test_orders(self) -> None:
        self.assertEqual(self.numbers("unicode", "b", "a", 7), ["7", "a", "b"])
        # By UTF-16 the first character outside of the first 65,536 comes before U+FF5E.
        self.assertEqual(self.numbers("unicode", "\U00010000", "\uff5e"), ["\uff5e", "\U00010000"])
        self.assertEqual(self.numbers("utf-16", "\U00010000", "\uff5e"), ["\U00010000", "\uff5e"])
        self.assertEqual(self.numbers("unicode", ["a", 2], ["a", 10], ["a"], ["A", 3]), ['["A", 3]', '["a"]', '["a", 2]', '["a", 10]'])
        self.assertEqual(self.numbers(["c", ["x"], "a"], "a", ["x"], "c"), ["c", '["x"]', "a"])


class StandInTest(unittest.TestCase):
    def check(self, told: str, kinds: dict[int, str], names: dict[int, str], made: Conversion) -> None:
        """Compares a history, and the kinds and names of its stand-ins."""
        self.assertEqual((history_line(made), made.legend.outcomes), (told, kinds))
        self.assertEqual({number: made.legend.transactions[number] for number in kinds}, names)

    def test_values(self) -> None:
        lines = [txn("A", 1, 2, ["w", "x", 5], ["w", "x", 6]), txn("B", 3, 4, ["r", "x", 5], ["r", "x", 9], ["r", "x", 5])]
        self.check(
            "b1@0 w1[0] w1[0] c1 b2@4 b3@4 w3[0] r2[0:3] b4@4 w4[0] r2[0:4] r2[0:3] c2",
            {3: "overwritten", 4: "not-in-the-log"}, {3: "A:x=5:overwritten", 4: "x=9:not-in-the-log"},
            made_of(HEADER, *lines, policy=LENIENT),
        )

    def test_writers(self) -> None:
        # X is nowhere in the log, and A never wrote y: X is one transaction, and A's version of y one of another.
        lines = [txn("A", 1, 2, ["w", "x"]), txn("B", 3, 4, ["r", "x", "X"], ["range", "x", "y", [["x", "X"], ["y", "A"]]], ["r", "z", "X"])]
        self.check(
            "b1@0 w1[0] c1 b2@3 b3@3 w3[0] r2[0:3] w3[2] b4@3 w4[1] r2[0..1;0:3,1:4] r2[2:3] c2",
            {3: "not-in-the-log", 4: "not-in-the-log"}, {3: "X:not-in-the-log", 4: "A:y:not-in-the-log"},
            made_of(*lines, policy=LENIENT),
        )

    def test_writers_in_a_log_of_events(self) -> None:
        lines = [event("X:not-in-the-log", "begin"), event("B", "read", key=1, saw="X"), event("B", "read", key=2, saw="X")]
        self.check(
            "b1 w3[1] w3[2] r2[1:3] r2[2:3]", {3: "not-in-the-log"}, {3: "X:not-in-the-log'"},
            made_of(*lines, policy=LENIENT, is_events=True),
        )

    @unittest.skipUnless(PROGRAM.exists(), NO_PROGRAM)
    def test_a_version_of_a_stand_in_is_a_bad_read(self) -> None:
        made = made_of(txn("A", 1, 2, ["w", "x"]), txn("B", 3, 4, ["r", "x", "X"]), policy=LENIENT)
        name: Callable[[int], str] = made.legend.transactions.__getitem__
        report = named(*audit(text_of(made.events)), made.events, name, made.legend.keys.__getitem__)
        self.assertEqual(report.status, 1)
        self.assertIn(("bad-read", "B", 0, "B", "x", "X:not-in-the-log", "A"), report.lines)


class FieldsTest(unittest.TestCase):
    def test_fields_are_kept_beside_their_events(self) -> None:
        made = made_of(
            txn("A", 1, 2, ["w", 1, {"node": "n1"}], ["w", 2], ["r", 1, "A", {"at": [1, 2]}]) | {"host": "h", "ms": 1.5}
        )
        self.assertEqual(history_line(made), "b1@0 w1[1] w1[2] r1[1:1] c1")
        self.assertEqual(made.legend.fields, {1: {"host": "h", "ms": 1.5}, 2: {"node": "n1"}, 4: {"at": [1, 2]}})
        made = made_of(event("A", "write", key=1, value="v"), event("A", "commit", ts=5), is_events=True)
        self.assertEqual((made.legend.fields, made.warnings), ({1: {"value": "v"}, 2: {"ts": 5}}, []))

    def test_fields_of_the_header_are_kept_at_place_0(self) -> None:
        header = {"values": "unique", "store": "TiDB 7.5"}
        self.assertEqual(made_of(header, txn("A", 1, 2)).legend.fields, {0: {"store": "TiDB 7.5"}})
        made = made_of(header, event("A", "commit", at=1), is_events=True)
        self.assertEqual(made.legend.fields, {0: {"store": "TiDB 7.5"}, 1: {"at": 1}})

    def test_misspelt_fields_are_told(self) -> None:
        said = 'line {}: the field "{}" is kept, and means nothing here; is it a misspelt "{}"?'
        begins = [event("A", "begin", strat=0), event("B", "begin", strat=0), event("C", "begin", Start=0, stop=1)]
        self.assertEqual(
            made_of(*begins, is_events=True).warnings, [said.format(1, "strat", "start"), said.format(3, "Start", "start")]
        )
        line = {"txn": "A", "start": 1, "commit": 2, "ops": [], "abort": 1, "aborte": True}
        self.assertEqual(made_of({"values": "unique", "keyorder": 1}, line).warnings, [
            said.format(1, "keyorder", "key_order"), said.format(2, "aborte", "aborted"),
        ])

    def test_aborted_may_be_left_out_beside_a_commit(self) -> None:
        self.assertEqual(history_line(made_of({"txn": "A", "start": 1, "commit": 2, "ops": []})), "b1@0 c1")
        self.assertEqual(history_line(made_of({"txn": "A", "start": 1, "commit": "unknown", "ops": []})), "b1@0")


if __name__ == "__main__":
    unittest.main()
