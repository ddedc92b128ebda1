"""Names and messages hold nothing that can't be seen, and no two names come out alike by it."""

from __future__ import annotations

import unicodedata
import unittest

from si_history.naming import shown
from si_history.unseen import is_seen, visible

# What Unicode calls default ignorable (its property Default_Ignorable_Code_Point), the first and the last of each run.
DEFAULT_IGNORABLE = """
    00AD-00AD 034F-034F 061C-061C 115F-1160 17B4-17B5 180B-180F 200B-200F 202A-202E 2060-206F 3164-3164 FE00-FE0F FEFF-FEFF
    FFA0-FFA0 FFF0-FFF8 1BCA0-1BCA3 1D173-1D17A E0000-E0FFF
"""
# What is drawn as nothing, or like a space, and isn't among them.
DRAWN_AS_NOTHING = "\u2800\ufffc\U0001d159\u00a0\u1680\u2000\u200a\u202f\u205f\u3000\u0085\u2028"


def ignorable() -> list[str]:
    """All that is default ignorable."""
    runs = [run.split("-") for run in DEFAULT_IGNORABLE.split()]
    return [chr(code) for first, last in runs for code in range(int(first, 16), int(last, 16) + 1)]


class UnseenTest(unittest.TestCase):
    def test_names_that_look_alike_come_out_differently(self) -> None:
        for sign in [*ignorable(), *DRAWN_AS_NOTHING]:
            for name in (f"acct{sign}", f"{sign}acct", f"ac{sign}ct", sign):
                with self.subTest(name=ascii(name)):
                    self.assertNotEqual(seen(shown(name)), seen(shown(name.replace(sign, ""))))
                    self.assertNotEqual(seen(shown(name)), seen(shown(name.replace(sign, " "))))
                    self.assertTrue(shown(name).isascii())

    def test_names_that_unicode_calls_equivalent_come_out_differently(self) -> None:
        for composed in ("é", "Å", "가", "ש"):
            for other in (unicodedata.normalize("NFD", composed), "\u212b" if composed == "Å" else composed + "\u0301"):
                if other != composed:
                    with self.subTest(composed):
                        self.assertTrue(shown(other).isascii() or unicodedata.is_normalized("NFC", shown(other)))
        self.assertEqual(shown("caf\u00e9"), "café")
        self.assertEqual(shown("cafe\u0301"), '"cafe\\u0301"')
        self.assertEqual(shown("\u212b"), '"\\u212b"')

    def test_a_sign_that_joins_what_stands_before_it(self) -> None:
        self.assertEqual(shown("\u0338T1"), '"\\u0338T1"')

    def test_names_that_can_be_seen_stay(self) -> None:
        for name in ("acct/5", "T1", "naïve", "счёт", "口座", "שלום", "🐘", "क्ष"):
            with self.subTest(name):
                self.assertEqual(shown(unicodedata.normalize("NFC", name)), unicodedata.normalize("NFC", name))

    def test_what_controls_a_terminal_is_shown_by_its_bytes(self) -> None:
        for text, wanted in (
            ("plain é \\", "plain é \\"),
            ("\x1b[31mred\x07\x7f", "\\x1b[31mred\\x07\\x7f"),
            ("two\r\nlines\t", "two\\x0d\\x0alines\\x09"),
            ("\x9b31m", "\\xc2\\x9b31m"),
            ("a\u202eb\u2800c", "a\\xe2\\x80\\xaeb\\xe2\\xa0\\x80c"),
            ("not UTF-8: \udcff\udc9b", "not UTF-8: \\xff\\x9b"),
            ("\ud800", "\\xed\\xa0\\x80"),
        ):
            with self.subTest(ascii(text)):
                self.assertEqual(visible(text), wanted)
                self.assertTrue(is_seen(visible(text)))


SEEN = str.maketrans({sign: "" for sign in ignorable()} | {sign: " " for sign in DRAWN_AS_NOTHING})


def seen(text: str) -> str:
    """What a reader sees of a text: nothing of what shows nothing, and a space for each that shows like one."""
    return text.translate(SEEN).rstrip()


if __name__ == "__main__":
    unittest.main()
