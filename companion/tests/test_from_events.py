"""Logs of events: what each line becomes, and what is refused."""

import unittest
from unittest import mock

from si_history.errors import BadInput
from si_history.from_events import convert
from si_history.limits import STANDARD, Limits
from si_history.log_lines import most_bytes
from si_history.policy import Policy
from tests.support import Convert, converted, history_line, log_of

Fields = dict[str, object]


def event(txn: object, op: str, **fields: object) -> Fields:
    """One line of a log; `low` stands for "from", which is a word of Python."""
    named = {"from" if name == "low" else name: value for name, value in fields.items()}
    return {"txn": txn, "op": op, **named}


def within(limits: Limits) -> Convert:
    """The conversion of logs whose histories have these limits."""
    return lambda file: convert(file, Policy(limits=limits))


def history(*lines: object) -> str:
    """The history of a log, on one line."""
    return history_line(converted(convert, list(lines)))


class HistoryTest(unittest.TestCase):
    def test_each_kind_of_event(self) -> None:
        self.assertEqual(
            history(
                event("7f3a", "begin"),
                event("7f3a", "read", key="b", saw=None),
                event("7f3a", "write", key="b"),
                event("7f3a", "commit"),
                event("0c11", "range", low="a", to="c", found=[["b", "7f3a"]]),
                event("0c11", "abort"),
            ),
            # The log names the keys a, b and c, which sort as 0, 1 and 2.
            "b1 r1[1:0] w1[1] c1 r2[0..2;1:1] a2",
        )

    def test_an_empty_log_has_no_event(self) -> None:
        self.assertEqual(history(), "")

    def test_starts_count_commits(self) -> None:
        self.assertEqual(
            history(
                event("A", "write", key=1), event("A", "commit"),
                event("X", "abort"),
                event("B", "write", key=1), event("B", "commit"),
                event("C", "begin", start=0), event("D", "begin", start=1), event("E", "begin", start=2),
            ),
            # The commits stand at the places 2 and 5; the abort counts for nothing.
            "w1[1] c1 a2 w3[1] c3 b4@0 b5@2 b6@5",
        )

    def test_a_start_that_is_null_is_left_out(self) -> None:
        self.assertEqual(history(event("A", "begin", start=None)), "b1")

    def test_fields_that_are_null_count_for_nothing(self) -> None:
        self.assertEqual(history(event("A", "write", key=3, saw=None, found=None, start=None)), "w1[3]")

    def test_numbers_as_names_of_transactions(self) -> None:
        self.assertEqual(history(event(70, "write", key=5), event("A", "read", key=5, saw="70")), "w1[5] r2[5:1]")

    def test_a_range_lists_its_keys_in_order(self) -> None:
        self.assertEqual(
            history(
                event("A", "write", key=12), event("A", "write", key=19),
                event("B", "range", low=10, to=20, found=[[19, "A"], [15, None], [12, "A"]]),
                event("B", "range", low=7, to=7, found=[]),
            ),
            "w1[12] w1[19] r2[10..20;12:1,15:0,19:1] r2[7..7]",
        )

    def test_a_version_may_be_seen_before_its_writer_commits(self) -> None:
        self.assertEqual(
            history(event("A", "write", key=1), event("B", "read", key=1, saw="A"), event("A", "read", key=1, saw="A")),
            "w1[1] r2[1:1] r1[1:1]",
        )


class KeysTest(unittest.TestCase):
    def test_whole_numbers_stand_for_themselves(self) -> None:
        made = converted(convert, [event("A", "write", key=2**64 - 1), event("A", "write", key=0)])
        self.assertEqual(history_line(made), "w1[18446744073709551615] w1[0]")
        self.assertEqual(made.legend.keys, {0: "0", 2**64 - 1: "18446744073709551615"})

    def test_strings_are_numbered_in_their_order(self) -> None:
        made = converted(convert, [event("A", "write", key=key) for key in ("b", "", "a/10", "a/9", "\u00e9", "\U0001f600", "B")])
        self.assertEqual(made.legend.keys, {0: "", 1: "B", 2: "a/10", 3: "a/9", 4: "b", 5: "\u00e9", 6: "\U0001f600"})
        self.assertEqual(history_line(made), "w1[4] w1[0] w1[2] w1[3] w1[5] w1[6] w1[1]")

    def test_numbers_that_no_history_can_say_are_numbered(self) -> None:
        made = converted(convert, [event("A", "write", key=key) for key in (2**64, -1, 0.5, 3, 3.0)])
        self.assertEqual(history_line(made), "w1[3] w1[0] w1[1] w1[2] w1[2]")
        self.assertEqual(made.legend.keys, {0: "-1", 1: "0.5", 2: "3", 3: "18446744073709551616"})

    def test_keys_of_all_kinds(self) -> None:
        keys = ("5", 5, ["a", None, False], None, True, 1, "1", '"1"', "a")
        made = converted(convert, [event("A", "write", key=key) for key in keys])
        # null, true, the numbers, the strings by their characters, the list; strings that read as JSON are named as JSON.
        self.assertEqual(
            list(made.legend.keys.values()),
            ["null", "true", "1", "5", '"\\"1\\""', '"1"', '"5"', "a", '["a", null, false]'],
        )
        self.assertEqual(history_line(made), "w1[6] w1[3] w1[8] w1[0] w1[1] w1[2] w1[5] w1[4] w1[7]")

    def test_strings_of_digits_are_strings(self) -> None:
        self.assertEqual(history(event("A", "write", key="9"), event("A", "write", key="10")), "w1[1] w1[0]")


class LegendTest(unittest.TestCase):
    def test_names_and_lines(self) -> None:
        legend = converted(convert, [event("7f3a", "write", key="k"), event("0c11", "abort"), event("7f3a", "commit")]).legend
        self.assertEqual(legend.transactions, {1: "7f3a", 2: "0c11"})
        self.assertEqual(legend.keys, {0: "k"})
        self.assertEqual(legend.events, [1, 2, 3])


class RefusalTest(unittest.TestCase):
    def refused(self, said: str, *lines: object, limits: Limits = STANDARD) -> None:
        """The log is refused with exactly these words, which tell the line."""
        with self.assertRaises(BadInput) as caught:
            converted(within(limits), list(lines))
        self.assertEqual(str(caught.exception), said)

    def test_lines_that_are_no_objects(self) -> None:
        good = event("A", "write", key=1)
        self.refused("line 2: not JSON: Expecting value at column 1", good, b"")
        self.refused("line 2: not JSON: Expecting property name enclosed in double quotes at column 2", good, b"{")
        self.refused("line 2: not JSON: Extra data at column 4", good, b"{} {}")
        self.refused("line 2: no JSON object", good, b"[1]")
        self.refused("line 2: not UTF-8", good, b'{"txn": "\xff"}')
        self.refused("line 2: not JSON that is used here: it is too deep", good, b"[" * 100_000)
        self.refused("line 2: not JSON that is used here: NaN is no number", good, b'{"txn": NaN}')
        self.refused("line 2: not JSON that is used here: a number has too many digits", good, b'{"txn": ' + b"9" * 5_000 + b"}")
        self.refused("line 2: not JSON: Unterminated string starting at column 2", good, b'{"txn')
        self.refused("line 2: not JSON that is used here: a field stands twice", good, b'{"txn": "A", "txn": "B"}')

    def test_fields_that_are_missing_or_too_many(self) -> None:
        self.refused('line 1: the field "txn" is missing', {"op": "commit"})
        self.refused('line 1: the field "op" is missing', {"txn": "A"})
        self.refused('line 1: the field "key" is missing', event("A", "write"))
        self.refused('line 1: the field "saw" is missing', event("A", "read", key=1))
        self.refused('line 1: the field "found" is missing', event("A", "range", low=1, to=2))
        self.refused('line 1: there is no field "start" here', event("A", "read", key=1, saw=None, start=0))

    def test_values_of_another_kind(self) -> None:
        self.refused('line 1: "op" is none of begin, read, range, write, commit, abort', event("A", "Commit"))
        self.refused('line 1: "op" is none of begin, read, range, write, commit, abort', {"txn": "A", "op": ["commit"]})
        for name in (None, "", 1.5, True, ["A"]):
            self.refused('line 1: "txn" is no name: a string that isn\'t empty, or a whole number', event(name, "commit"))
        for key in ({}, [[1]], ["A", {}]):
            self.refused(
                'line 1: "key" is no key: a string, a number, true, false, null, or a list of these', event("A", "write", key=key)
            )
        self.refused(
            'line 1: "saw" is no name: a string that isn\'t empty, or a whole number', event("A", "read", key=1, saw=False)
        )
        self.refused('line 1: "start" is no whole number', event("A", "begin", start="0"))
        for found in (None, {}, [1], [[1]], [[1, "A", 2]]):
            self.refused(
                'line 1: "found" is no list of pairs [key, writer]', event("A", "range", low=1, to=2, found=found)
            )

    def test_numbers_that_are_too_large(self) -> None:
        self.refused('line 1: "key" has a number that is too large', b'{"txn": "A", "op": "write", "key": 1e999}')

    def test_half_characters(self) -> None:
        self.refused('line 1: "key" has half a character (an unpaired surrogate)', event("A", "write", key="\ud800"))
        self.refused('line 1: "txn" has half a character (an unpaired surrogate)', event("\udfff", "commit"))

    def test_ranges_of_keys_that_have_no_order(self) -> None:
        said = "line 4: a range needs an order of the keys, and nothing says how keys such as {} are ordered: "
        end = 'a header has to name it as "key_order"'
        self.refused(
            said.format('5 (line 2) and "a" (line 3)') + end,
            event("A", "begin"), event("A", "write", key=5), event("A", "write", key="a"),
            event("A", "range", low=1, to=9, found=[]),
        )
        self.refused(
            said.format('["a", 1] (line 2)') + end,
            event("A", "begin"), event("A", "write", key=["a", 1]), event("A", "write", key=["a", 2]),
            event("A", "range", low=["a", 1], to=["a", 2], found=[]),
        )

    def test_events_that_cannot_come_next(self) -> None:
        self.refused(
            'line 3: the transaction "A" ended at line 2', event("A", "begin"), event("A", "commit"), event("A", "abort")
        )
        self.refused('line 2: the transaction "A" has begun at line 1', event("A", "write", key=1), event("A", "begin"))
        self.refused(
            'line 2: "start" is 2, and the number of commits before this line is 1',
            event("A", "commit"), event("B", "begin", start=2),
        )
        self.refused(
            'line 2: "start" is 1, and the number of commits before this line is 0', event("A", "abort"), event("B", "begin", start=1)
        )
        self.refused('line 1: "start" is -1, and the number of commits before this line is 0', event("B", "begin", start=-1))

    def test_ranges_that_are_none(self) -> None:
        self.refused('line 1: the range is empty: "b" comes after "a"', event("A", "range", low="b", to="a", found=[]))
        self.refused("line 1: the key 3 was found outside the range", event("A", "range", low=1, to=2, found=[[3, None]]))
        self.refused(
            "line 1: the key 2 was found twice", event("A", "range", low=1, to=2, found=[[2, None], [2, None]])
        )

    def test_versions_from_nowhere(self) -> None:
        self.refused(
            'line 2: "B" saw a version of "k" from nowhere: "X" never wrote that key',
            event("X", "write", key="j"), event("B", "read", key="k", saw="X"),
        )
        self.refused(
            'line 1: "B" saw a version of "k" from nowhere: "X" wrote that key only at line 2',
            event("B", "range", low="a", to="z", found=[["k", "X"]]), event("X", "write", key="k"),
        )
        self.refused(
            'line 1: "A" saw a version of 5 from nowhere: "A" wrote that key only at line 2',
            event("A", "read", key=5, saw="A"), event("A", "write", key=5),
        )

    def test_the_limit_of_events(self) -> None:
        lines = [event(name, "abort") for name in range(100_001)]
        self.assertEqual(len(converted(convert, lines[:100_000]).events), 100_000)
        self.refused("line 100001: too many events: the limit of events of a history is 100,000, which --max-events changes", *lines)
        self.assertEqual(len(converted(within(Limits(events=100_001)), lines).events), 100_001)
        said = "line 3: too many events: the limit of events of a history is 2, which --max-events changes"
        self.refused(said, *lines, limits=Limits(events=2))

    def test_the_limit_of_bytes(self) -> None:
        lines = [event("A", "range", low=0, to=9, found=[[0, None], [1, None]])] * 3
        # Four bytes at least are taken by each of the six listed keys.
        said = "line 3: text too long: the limit of bytes of a history is 23, which --max-bytes changes"
        self.refused(said, *lines, limits=Limits(bytes=23))
        self.assertEqual(len(converted(within(Limits(bytes=24)), lines).events), 3)

    def test_the_limit_of_a_log(self) -> None:
        lines = [event("A", "begin"), event("A", "commit")]
        size = len(log_of(lines))
        self.assertEqual((most_bytes(STANDARD), most_bytes(Limits(bytes=1 << 30))), (1 << 28, 1 << 30))
        with mock.patch("si_history.log_lines.most_bytes", return_value=size - 1):
            self.refused(f"line 2: log too long: the limit of bytes of a log is {size - 1}", *lines)
        with mock.patch("si_history.log_lines.most_bytes", return_value=size):
            self.assertEqual(len(converted(convert, lines).events), 2)

    def test_a_name_in_a_message_is_one_short_line(self) -> None:
        self.refused(
            'line 1: "B" saw a version of "a\\nb" from nowhere: "' + "x" * 60 + '..." never wrote that key',
            event("B", "read", key="a\nb", saw="x" * 1_000),
        )


if __name__ == "__main__":
    unittest.main()
