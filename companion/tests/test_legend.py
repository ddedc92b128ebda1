"""The legend: what is written is read back, and what is no legend is refused."""

import json
import unittest

from si_history.errors import BadInput
from si_history.legend import Legend

HISTORY = b"w1[0]\nr1[1:0]\nr2[0:0]\nc2\n"
# What `printf 'w1[0]\nr1[1:0]\nr2[0:0]\nc2\n' | sha256sum` prints.
HASH = "sha256:a57d886f0b0e7e9832d1f50333dae430f3f6971f68980a25e1866ce48e5f132b"
SMALL = Legend({1: "T7", 2: "7f3a"}, {0: "acct/5", 1: "acct/6"}, [1, 1, 3, 2])


class LegendTest(unittest.TestCase):
    def test_the_object_that_is_written(self) -> None:
        self.assertEqual(
            json.loads(SMALL.to_json(HISTORY)),
            {
                "format": "si-history legend 2",
                "history": HASH,
                "transactions": {"1": "T7", "2": "7f3a"},
                "keys": {"0": "acct/5", "1": "acct/6"},
                "events": [1, 1, 3, 2],
            },
        )

    def test_what_is_written_is_read_back(self) -> None:
        self.assertEqual(Legend.from_json(SMALL.to_json(HISTORY)), SMALL)
        timed = Legend({1: "T7"}, {}, [1], times={1: (-5, None), 2: (7, 10**30), 3: (None, None)})
        self.assertEqual(Legend.from_json(timed.to_json(HISTORY)), timed)

    def test_a_legend_knows_its_history(self) -> None:
        legend = Legend.from_json(SMALL.to_json(HISTORY))
        legend.check(HISTORY)
        for other in (b"", HISTORY[:-1], HISTORY.replace(b"2", b"3"), HISTORY.replace(b"\n", b" ")):
            with self.assertRaisesRegex(BadInput, "^the legend is of another history: it was not written with this text$"):
                legend.check(other)
        with self.assertRaises(BadInput):
            SMALL.check(HISTORY)

    def test_names_and_lines(self) -> None:
        self.assertEqual((SMALL.transaction(2), SMALL.key(0), SMALL.line(3)), ("7f3a", "acct/5", 3))
        self.assertEqual((SMALL.transaction(9), SMALL.key(9), SMALL.line(5), SMALL.line(0)), ("9", "9", None, None))

    def test_what_is_no_legend_is_refused(self) -> None:
        good = json.loads(SMALL.to_json(HISTORY))
        for text in (
            "", "{", "[]", "[" * 100_000, "{}",
            json.dumps(good | {"format": "si-history legend 1"}),
            json.dumps(good | {"format": "si-history legend 3"}),
            json.dumps({name: value for name, value in good.items() if name != "history"}),
            json.dumps(good | {"history": None}),
            json.dumps(good | {"history": HASH[:-1]}),
            json.dumps(good | {"history": HASH.upper()}),
            json.dumps(good | {"times": []}),
            json.dumps(good | {"times": {"1": [1]}}),
            json.dumps(good | {"times": {"one": [1, 2]}}),
            json.dumps(good | {"times": {"1": [1, "2"]}}),
            json.dumps(good | {"transactions": ["T7"]}),
            json.dumps(good | {"transactions": {"one": "T7"}}),
            json.dumps(good | {"keys": {"0": 5}}),
            json.dumps(good | {"events": [1, "2"]}),
            json.dumps(good | {"events": [0]}),
            json.dumps(good | {"events": [True]}),
        ):
            with self.subTest(text=text[:60]), self.assertRaises(BadInput):
                Legend.from_json(text)


if __name__ == "__main__":
    unittest.main()
