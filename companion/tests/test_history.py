"""The text of a history: each form is read and written, and what is no event is refused."""

import unittest

from si_history.errors import BadInput
from si_history.history import Abort, Begin, Commit, RangeRead, Read, Write, parse, text_of
from si_history.limits import Limits

FORMS = [
    ("b1", Begin(1)),
    ("b1@4", Begin(1, 4)),
    ("r1[7:3]", Read(1, 7, 3)),
    ("r1[10..20]", RangeRead(1, 10, 20)),
    ("r1[10..20;12:3,15:0]", RangeRead(1, 10, 20, ((12, 3), (15, 0)))),
    ("w1[7]", Write(1, 7)),
    ("c1", Commit(1)),
    ("a1", Abort(1)),
]


class HistoryTest(unittest.TestCase):
    def test_each_form_is_read_and_written(self) -> None:
        for token, event in FORMS:
            with self.subTest(token=token):
                self.assertEqual(parse(token), [event])
                self.assertEqual(text_of([event]), token + "\n")

    def test_separators(self) -> None:
        self.assertEqual(parse(" \t\r\n"), [])
        self.assertEqual(parse("\nc1\t \r\nc2 "), [Commit(1), Commit(2)])

    def test_one_event_a_line(self) -> None:
        self.assertEqual(text_of([Write(1, 7), Commit(1)]), "w1[7]\nc1\n")

    def test_the_greatest_numbers(self) -> None:
        self.assertEqual(parse(f"r{2**32 - 1}[{2**64 - 1}:0]"), [Read(2**32 - 1, 2**64 - 1, 0)])

    def test_bad_events(self) -> None:
        for token in ("r01[1:0]", "r1[1:", "r1[0..5;]", "b1c1", "R1[1:0]", "b1@", "b1@00", "c\u0661"):
            with self.subTest(token=token), self.assertRaisesRegex(BadInput, "^token 2: bad event$"):
                parse("c9 " + token)

    def test_numbers_out_of_range(self) -> None:
        for token in (
            "r0[1:0]", "r4294967296[1:0]", "r1[1:4294967296]", "r1[18446744073709551616:0]", "b1@4294967296",
            "w1[" + "9" * 10_000 + "]", "r1[0..18446744073709551616]", "r1[0..9;1:4294967296]",
        ):
            with self.subTest(token=token[:40]), self.assertRaisesRegex(BadInput, "^token 1: number out of range$"):
                parse(token)

    def test_limits(self) -> None:
        self.assertEqual(len(parse("b1 " * 100_000)), 100_000)
        with self.assertRaisesRegex(BadInput, "limit of events is 100,000"):
            parse("b1 " * 100_001)
        with self.assertRaisesRegex(BadInput, "limit of bytes is 16,777,216"):
            parse(" " * 16_777_217)
        with self.assertRaisesRegex(BadInput, "limit of events is 100,000"):
            text_of([Begin(1)] * 100_001)
        # Each listed key takes 32 bytes: 20 digits, a colon, 10 digits, and a comma or the bracket.
        long = RangeRead(1, 0, 2**64 - 1, tuple((2**64 - 1 - below, 4_294_967_295) for below in range(524_288, 0, -1)))
        with self.assertRaisesRegex(BadInput, "limit of bytes is 16,777,216"):
            text_of([long])
        few = Limits(2, 9)
        self.assertEqual(text_of(parse("w1[1] c1", limits=few), few), "w1[1]\nc1\n")
        for text, said in (("b1 c1 c2", "limit of events is 2"), ("w1[10] c1 ", "limit of bytes is 9")):
            with self.assertRaisesRegex(BadInput, said):
                parse(text, limits=few)
            with self.assertRaisesRegex(BadInput, said):
                text_of(parse(text), few)


if __name__ == "__main__":
    unittest.main()
