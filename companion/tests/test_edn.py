"""EDN: the forms that are read, with their lines, and what is refused."""

import random
import time
import unittest
from decimal import Decimal
from fractions import Fraction

from si_history.edn import Form, Keyword, Symbol, Tagged, forms
from si_history.errors import BadInput


def read(text: str) -> list[Form]:
    """The forms of a text, without their lines."""
    return [form for _, form in forms(text)]


class FormsTest(unittest.TestCase):
    def test_scalars(self) -> None:
        for text, form in {
            "nil": None, "true": True, "false": False, "0": 0, "-12": -12, "+7": 7, "12N": 12, "1.5": 1.5, "-2e3": -2000.0,
            "3.20M": Decimal("3.20"), "1/2": Fraction(1, 2), "0x1f": 31, '"a b"': "a b", "##Inf": float("inf"), "\\a": "a",
            "\\newline": "\n", "\\u00e9": "\u00e9", '"\\t\\"\\\\\\n\\u00e9"': '\t"\\\n\u00e9', '"\\ud83d\\ude00"': "\U0001f600",
            ":start-ts": Keyword(":start-ts"), ":a.b/c": Keyword(":a.b/c"), "java.lang.Thread": Symbol("java.lang.Thread"),
            "->x": Symbol("->x"),
        }.items():
            with self.subTest(text=text):
                (made,) = read(text)
                self.assertEqual((made, type(made)), (form, type(form)))

    def test_collections(self) -> None:
        self.assertEqual(read("{:a [1 (2 nil)], :b #{1 2}, [1 2] {}}"), [{":a": [1, [2, None]], ":b": frozenset({1, 2}), (1, 2): {}}])
        self.assertEqual(read('#jepsen.history.Op{:a 1} #inst "2020-01-01"'), [Tagged("jepsen.history.Op", {":a": 1}), Tagged("inst", "2020-01-01")])
        self.assertEqual(read("#:op{:type 1 :other/f 2 \"s\" 3}"), [{":op/type": 1, ":other/f": 2, "s": 3}])

    def test_what_is_left_out(self) -> None:
        self.assertEqual(read("; nothing\n1 #_ 2 #_#_ 3 {:a 4} ,,\n[5 #_ #tag 6] ; end"), [1, [5]])

    def test_a_vector_of_all_forms(self) -> None:
        self.assertEqual(list(forms(" ;c\n[{:a 1}\n{:a 2}]\n")), [(2, {":a": 1}), (3, {":a": 2})])
        self.assertEqual(list(forms("(1\n2)")), [(1, 1), (2, 2)])
        self.assertEqual([read(text) for text in ("[]", "", "[#_ 1]")], [[], [], []])

    def test_lines(self) -> None:
        self.assertEqual(list(forms('1\n#a.B\n{:x\n"a\nb"}\n\n:c')), [(1, 1), (2, Tagged("a.B", {":x": "a\nb"})), (7, ":c")])

    def test_random_forms_are_read_back(self) -> None:
        r = random.Random(3)
        for _ in range(2_000):
            form = random_form(r, 4)
            self.assertEqual(read("nil " + text_of(r, form)), [None, form])


class RefusalTest(unittest.TestCase):
    def test_what_is_no_edn(self) -> None:
        for text, said in {
            "{:a": "line 1: not EDN: what begins here with { doesn't end",
            "[\n[1\n2]": "line 1: not EDN: what begins here with [ doesn't end",
            "{:a\n}": "line 2: not EDN: a map has a key without a value",
            "{:a 1\n:a 2}": "line 2: not EDN: a key stands twice in a map",
            "#{1 1}": "line 1: not EDN: an item stands twice in a set",
            "1\n)": "line 2: not EDN: ) ends nothing",
            "[1)": "line 1: not EDN: ) can't end what begins with [",
            "{:a #t}": "line 1: not EDN: nothing stands behind #t",
            "1 #_": "line 1: not EDN: nothing stands behind #_",
            '1\n"a\nb': "line 2: not EDN: a string doesn't end",
            '"\\q"': "line 1: not EDN: there is no escape \\q",
            '"\\ud83d"': "line 1: not EDN: half a character (an unpaired surrogate)",
            "\\nothing": "line 1: not EDN: there is no character \\nothing",
            "[1 2] 3": "line 1: not EDN: something stands behind the end of the list that holds all forms",
            "{:a 01}": 'line 1: not EDN: "01" is no form',
            "1a": 'line 1: not EDN: "1a" is no form',
            "@x": 'line 1: not EDN: "@" is not expected here',
            '#"a"': 'line 1: not EDN: "#" is no form',
            "#:n[1]": "line 1: not EDN: #:n stands before something else than a map",
            "##Nothing": "line 1: not EDN: there is no ##Nothing",
            "9" * 5_000: "line 1: not EDN: a number has too many digits",
            "(" * 200: "line 1: not EDN: a form stands deeper than 100",
        }.items():
            with self.subTest(text=text[:40]), self.assertRaises(BadInput) as caught:
                read(text)
            self.assertEqual(str(caught.exception), said)

    def test_long_texts_take_no_longer_than_their_length(self) -> None:
        for text in (" " * 10**6 + "@", "[1 " + "1 " * 10**6 + "@", "{:a \"" + "\\n" * 10**6, ";" + "x" * 10**6 + "\n@", "#_ " * 10**5):
            before = time.process_time()
            with self.assertRaises(BadInput):
                read(text)
            self.assertLess(time.process_time() - before, 10.0, text[:10])


def random_form(r: random.Random, depth: int) -> Form:
    """A form of numbers, strings, keywords, vectors and maps."""
    kind = r.randrange(6 if depth else 4)
    if kind == 4:
        return [random_form(r, depth - 1) for _ in range(r.randrange(4))]
    if kind == 5:
        return {Keyword(f":k{n}"): random_form(r, depth - 1) for n in range(r.randrange(4))}
    return (None, r.randint(-999, 999), Keyword(f":w-{r.randrange(9)}"), r.choice(['a"b\\', "", "x y", "\u00e9;"]))[kind]


def text_of(r: random.Random, form: Form) -> str:
    """A form as EDN, with white space and comments at random."""
    space = r.choice([" ", ", ", "\n", " ;c [\n", " #_ {:x 1} "])
    if isinstance(form, list):
        return f"[{space.join(text_of(r, one) for one in form)}{r.choice(['', ' '])}]"
    if isinstance(form, dict):
        return "{" + space.join(f"{key} {text_of(r, one)}" for key, one in form.items()) + "}"
    if form is None or isinstance(form, int | Keyword):
        return "nil" if form is None else str(form)
    return '"' + str(form).replace("\\", "\\\\").replace('"', '\\"') + '"'


if __name__ == "__main__":
    unittest.main()
