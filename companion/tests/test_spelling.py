"""Words that are one edit apart."""

import unittest

from si_history.spelling import is_one_edit_away


class SpellingTest(unittest.TestCase):
    def test_one_edit(self) -> None:
        for one in ("starts", "tart", "stat", "sttart", "Start", "strat", "satrt", "star", "start_", "_start"):
            with self.subTest(one=one):
                self.assertTrue(is_one_edit_away(one, "start"))
                self.assertTrue(is_one_edit_away("start", one))

    def test_none_or_more(self) -> None:
        for one in ("start", "", "sta", "st", "STart", "trats", "tsart_", "started", "commit", "rtast"):
            with self.subTest(one=one):
                self.assertFalse(is_one_edit_away(one, "start"))
                self.assertFalse(is_one_edit_away("start", one))


if __name__ == "__main__":
    unittest.main()
