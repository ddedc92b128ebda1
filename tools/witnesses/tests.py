"""Tests of what reads, tries and keeps the witnesses. In the place of the kit stands a script that says what `rt try` says.

    PYTHONPATH=tools python3 -m unittest witnesses.tests
"""

from __future__ import annotations

import os
import tempfile
import time
import unittest
from concurrent.futures import ThreadPoolExecutor
from contextlib import redirect_stderr, redirect_stdout
from dataclasses import replace
from io import StringIO
from pathlib import Path
from unittest import mock

from witnesses import inputs, ledger
from witnesses.__main__ import Known, check, chosen, main
from witnesses.answers import of_call, of_program, of_tests, of_texts
from witnesses.edits import Edit, copy_into, edits
from witnesses.fault import Fault
from witnesses.inputs import Call, Input, Nothing, Test, Text, hash_of, spelled_out
from witnesses.ledger import Entry
from witnesses.making import entry_of, groups, of_code

# A kit that answers a text by its bytes in capitals, where the code isn't edited, and by its bytes where it is. A text of
# two words it faults on. Its tests fail where the code is edited.
KIT = r"""#!/bin/sh
grep -q edited ../*/src/lib.rt && word=edited || word=real
case "$*" in
    *--test*)
        echo "test tests::one ... ok"
        echo "test tests::of_$(basename "$PWD") ... ok"
        [ $word = real ] && echo "test tests::two ... ok" && exit
        printf 'test tests::two ... FAILED\n    panicked at=/a/b.rt:1:2: left 1\n    run=fault\n'
        ;;
    *--cases*)
        for folder; do :; done
        for file in "$folder"/[0-9]; do
            number=$(basename "$file")
            echo "== $number"
            if grep -q ' ' "$file"; then
                echo "checked: fault kind=overflow in=f at=/a/b.rt:1:2: a sum, called from g" >&2
                echo "case=$number run=fault proved=no" >&2
                continue
            fi
            [ $word = real ] && tr a-z A-Z <"$file" || cat "$file"
            echo
            cat "$folder/$number.args"
            echo "case=$number run=ended status=3 runners=1 proved=no" >&2
        done
        ;;
    *)
        cat src/main.rt "$PWD/../../crates.txt"
        echo "run=ended status=0 runners=2 proved=no" >&2
        ;;
esac
"""
EDIT = Edit("low", "changed", b"file: src/lib.rt\nold: one\nnew: edited\n")


class Kit(unittest.TestCase):
    """With a repository of one crate below the program's, and the script in the place of the kit."""

    def setUp(self) -> None:
        folder = tempfile.TemporaryDirectory()
        self.addCleanup(folder.cleanup)
        self.root = Path(folder.name)
        for crate in ("low", "si_audit"):
            (self.root / "crates" / crate / "src").mkdir(parents=True)
            (self.root / "crates" / crate / "src" / "lib.rt").write_text("fn one()\n")
        for name in ("crates.txt", "HANDLES"):
            (self.root / name).write_text("")
        (self.root / "rt").write_text(KIT)
        (self.root / "rt").chmod(0o755)
        self.enterContext(mock.patch("witnesses.edits.ROOT", self.root))
        self.enterContext(mock.patch("witnesses.inputs.FOLDER", self.root / "witnesses"))
        self.enterContext(mock.patch.dict(os.environ, PATH=f"{self.root}:{os.environ['PATH']}"))

    def room(self) -> Path:
        room = self.root / "room"
        room.mkdir()
        copy_into(room)
        return room

    def program(self) -> str:
        """A program that writes what it reads in capitals."""
        path = self.root / "program"
        path.write_text("#!/bin/sh\ntr a-z A-Z\nexit 3\n")
        path.chmod(0o755)
        return str(path)


class Answers(Kit):
    def test_texts(self) -> None:
        """Each text has its own answer, and its arguments reach the program. Of a fault no path is kept."""
        given = [Text("ab", ("--brief",)), Text("a b"), Text("c{2*d}")]
        told = of_texts(self.room(), given)
        self.assertEqual(told[0], ["status 3", "AB", "--brief"])
        self.assertEqual(told[1], ["fault kind=overflow in=f: a sum"])
        self.assertEqual(told[2], ["status 3", "CDD"])

    def test_tests(self) -> None:
        room = self.room()
        self.assertEqual(of_tests(room, "low", [Test("tests::two")]), [["test ok"]])
        EDIT.apply(room)
        [one, two] = of_tests(room, "low", [Test("tests::one"), Test("tests::two")])
        self.assertEqual(one, ["test ok"])
        self.assertEqual(two[0], "test FAILED")
        self.assertIn("left 1", "\n".join(two))
        self.assertNotIn("b.rt", "\n".join(two))

    def test_tests_of_another_crate(self) -> None:
        """The crate whose tests are run is the one that is named, and else the edit's own."""
        room = self.room()
        self.assertEqual(of_tests(room, "low", [Test("tests::of_low")]), [["test ok"]])
        self.assertEqual(of_tests(room, "low", [Test("si_audit::tests::of_si_audit")]), [["test ok"]])
        with self.assertRaisesRegex(Fault, "rt try ran nothing"):
            of_tests(room, "low", [Test("si_audit::tests::of_low")])
        with self.assertRaisesRegex(Fault, "there is no crate high"):
            of_tests(room, "low", [Test("high::tests::one")])

    def test_unknown_test(self) -> None:
        with self.assertRaisesRegex(Fault, "rt try ran nothing"):
            of_tests(self.room(), "low", [Test("tests::three")])

    def test_call(self) -> None:
        """The program stands in a crate of its own, which uses the crates that it names."""
        told = of_call(self.room(), "low", Call("use low::one;\n"))
        self.assertEqual(told, ["status 0", "use low::one;", "witness: low"])

    def test_no_kit(self) -> None:
        with mock.patch.dict(os.environ, PATH="/nowhere"), self.assertRaisesRegex(Fault, "no command rt"):
            of_texts(self.room(), [Text("a")])

    def test_program(self) -> None:
        self.assertEqual(of_program("/bin/sh", Text("echo $1; exit 3", ("-s", "a"))), ["status 3", "a"])


class Making(Kit):
    def entry(self, *given: Input) -> Entry:
        return entry_of(self.program(), EDIT, list(given))

    def test_first_that_differs(self) -> None:
        entry = self.entry(Text("12"), Text("ab"), Text("cd"))
        self.assertEqual((entry.real, entry.edited), (["status 3", "AB"], ["status 3", "ab"]))
        self.assertEqual(entry.witness, hash_of(Text("ab")))
        self.assertEqual(entry.fault(EDIT, [Text("ab")]), "")

    def test_options_of_the_kit(self) -> None:
        """With options of rt try both answers come from it."""
        entry = self.entry(Text("ab", (), ("--fail-alloc", "1")))
        self.assertEqual((entry.real, entry.edited), (["status 3", "AB"], ["status 3", "ab"]))
        self.assertEqual(entry.fault(EDIT, [Text("ab")]), "the witness is another one")

    def test_test(self) -> None:
        entry = self.entry(Test("tests::one"), Test("tests::two"))
        self.assertEqual((entry.real, entry.edited[0]), (["test ok"], "test FAILED"))

    def test_tests_of_two_crates(self) -> None:
        """Tests of one crate are run together, and those of another one apart."""
        given = (Test("tests::one"), Test("tests::two"), Test("si_audit::tests::one"), Test("si_audit::tests::two"))
        self.assertEqual(list(groups(list(given))), [given[:2], given[2:]])
        entry = self.entry(given[0], *given[2:])
        self.assertEqual((entry.real, entry.edited[0]), (["test ok"], "test FAILED"))
        self.assertEqual(entry.witness, hash_of(given[3]))

    def test_code_is_tried_once(self) -> None:
        """Two edits that ask at once what the code answers share one try."""
        tries: list[str] = []

        def slow(_: Edit | None, crate: str, __: tuple[Input, ...]) -> list[list[str]]:
            tries.append(crate)
            time.sleep(0.1)
            return [["test ok"]]

        with mock.patch("witnesses.making.tried", slow), ThreadPoolExecutor(2) as pool:
            told = list(pool.map(lambda _: of_code("", "low", (Test("tests::shared"),)), range(2)))
        self.assertEqual((told, tries), ([[["test ok"]]] * 2, ["low"]))

    def test_same_answers(self) -> None:
        with self.assertRaisesRegex(Fault, "answers the same to each of its inputs"):
            self.entry(Text("12"))

    def test_nothing(self) -> None:
        entry = self.entry(Nothing("it costs more"))
        self.assertEqual((entry.reason, entry.real, entry.edited), ("it costs more", [], []))
        self.assertEqual(entry.fault(EDIT, [Nothing("it costs more")]), "")

    def test_edit_that_does_not_apply(self) -> None:
        other = replace(EDIT, text=b"file: src/lib.rt\nold: two\nnew: edited\n")
        with self.assertRaisesRegex(Fault, "has the old text 0 times"):
            other.apply(self.room())


class CommandLine(Kit):
    """The whole tool, in a repository of two edits."""

    def setUp(self) -> None:
        super().setUp()
        for name in ("first", "second"):
            path = self.root / "crates" / "low" / "must-fail" / f"{name}.edit"
            path.parent.mkdir(exist_ok=True)
            path.write_bytes(EDIT.text)
        (self.root / "witnesses").mkdir()
        self.write("first\n  text: ab\n\nsecond\n  nothing: it costs more\n")

    def write(self, text: str) -> None:
        (self.root / "witnesses" / "low.txt").write_text(text)

    def told(self, *words: str) -> tuple[int, str]:
        """The status, and what was written."""
        with redirect_stdout(StringIO()) as out, redirect_stderr(out):
            return main(words), out.getvalue()

    def test_check(self) -> None:
        """What lacks is told, until it is made. What changes is told, too."""
        status, text = self.told("check", self.program())
        self.assertEqual((status, text.count("it has no entry in the ledger")), (1, 2))
        status, text = self.told("make", self.program())
        self.assertEqual((status, text.splitlines()[-1]), (0, "2 passed, 0 failed"))
        self.assertEqual(self.told("check", self.program()), (0, "2 passed, 0 failed\n"))
        self.write("first\n  text: abc\n\nthird\n  text: ab\n")
        status, text = self.told("check", self.program())
        self.assertEqual(status, 1)
        self.assertIn("low/first: the witness is another one", text)
        self.assertIn("low/second: it has no witness", text)
        self.assertIn("low/third: there is no such edit", text)

    def test_make_what_changed(self) -> None:
        """Only what isn't of the edits at hand is tried, and an edit that tells nothing keeps its fault."""
        self.told("make", self.program())
        self.write("first\n  text: 12\n\nsecond\n  nothing: it costs more\n")
        status, text = self.told("make", self.program())
        self.assertEqual((status, text.splitlines()[-1]), (1, "0 passed, 1 failed"))
        self.assertIn("low/first: the edited code answers the same to each of its inputs", text)

    def test_edit_that_is_gone(self) -> None:
        self.told("make", self.program())
        (self.root / "crates" / "low" / "must-fail" / "second.edit").unlink()
        self.assertIn("low/second: there is no such edit", self.told("check", self.program())[1])
        self.write("first\n  text: ab\n")
        self.told("make", self.program())
        self.assertEqual(self.told("check", self.program()), (0, "1 passed, 0 failed\n"))

    def test_try(self) -> None:
        """An entry is tried again; where the code answers otherwise now, that is told."""
        self.told("make", self.program())
        status, text = self.told("try", self.program(), "5")
        self.assertEqual((status, text), (0, "low/first: the edited code answers otherwise\n3 passed, 0 failed\n"))
        other = self.root / "other"
        other.write_text("#!/bin/sh\necho AB; echo more\nexit 3\n")
        other.chmod(0o755)
        status, text = self.told("try", str(other), "5")
        self.assertEqual(status, 1)
        self.assertIn("low/first: the code answers otherwise than the ledger has it", text)

    def test_other_program(self) -> None:
        """An entry whose answer isn't the program's is told without a kit, and made anew."""
        self.told("make", self.program())
        entries = ledger.read()
        ledger.write({**entries, "low/first": replace(entries["low/first"], real=["status 9"])})
        status, text = self.told("check", self.program())
        told = "low/first: the code answers otherwise than the ledger has it (make witnesses)\n1 passed, 1 failed\n"
        self.assertEqual((status, text), (1, told))
        status, text = self.told("make", self.program())
        self.assertEqual((status, text.splitlines()[-1]), (0, "1 passed, 0 failed"))
        self.assertEqual(ledger.read(), entries)

    def test_usage(self) -> None:
        lines: list[list[str]] = [[], ["check"], ["check", "p", "x"], ["try", "p"], ["try", "p", "x"], ["make"]]
        for words in lines:
            status, text = self.told(*words)
            self.assertEqual(status, 2)
            self.assertIn("python3 -m witnesses check", text)


class Entries(Kit):
    """What tells that an entry isn't of what is at hand."""

    def setUp(self) -> None:
        super().setUp()
        self.given = Text("ab")
        self.entry = Entry(EDIT.hash, EDIT.source_hash(), hash_of(self.given), ["status 0"], ["status 1"])

    def test_right(self) -> None:
        """Other inputs and what stands above the changes of an edit make no difference."""
        self.assertEqual(self.entry.fault(EDIT, [Text("cd"), self.given]), "")
        headed = replace(EDIT, text=b"shows: what is wrong\n" + EDIT.text)
        self.assertEqual(self.entry.fault(headed, [self.given]), "")

    def test_wrong(self) -> None:
        other = replace(EDIT, text=EDIT.text.replace(b"edited", b"other"))
        self.assertEqual(self.entry.fault(other, [self.given]), "the edit is another one")
        self.assertEqual(self.entry.fault(EDIT, [Text("ab", ("--brief",))]), "the witness is another one")
        same = replace(self.entry, edited=["status 0"])
        self.assertEqual(same.fault(EDIT, [self.given]), "the answers don't differ")
        (self.root / "crates" / "low" / "src" / "lib.rt").write_text("fn one(), two()\n")
        self.assertEqual(self.entry.fault(EDIT, [self.given]), "the edited file is another one")

    def test_kept(self) -> None:
        path = self.root / "ledger.json"
        ledger.write({"low/changed": self.entry}, path)
        self.assertEqual(ledger.read(path), {"low/changed": self.entry})
        path.write_text('{"low/changed": {"edit": ""}}')
        with self.assertRaisesRegex(Fault, "is no ledger"):
            ledger.read(path)


class Inputs(unittest.TestCase):
    def read(self, text: str) -> dict[str, list[Input]]:
        with tempfile.TemporaryDirectory() as folder, mock.patch("witnesses.inputs.FOLDER", Path(folder)):
            Path(folder, "low.txt").write_text(text)
            return inputs.inputs_of("low")

    def test_forms(self) -> None:
        found = self.read(
            "# A comment.\n\none\n  args: --brief {1..3}\n  text: a1\n  try: --fail-io 1\n  text: a2\n\n"
            "two\n  call:\n    use low::f;\n\n    fn main() {}\n\nthree\n  test: tests::a\n  test: high::tests::a\n\n"
            "four\n  nothing: it costs more\n"
        )
        words = ("--brief", "1", "2", "3")
        self.assertEqual(found["one"], [Text("a1", words), Text("a2", words, ("--fail-io", "1"))])
        self.assertEqual(found["two"], [Call("use low::f;\n\nfn main() {}\n")])
        self.assertEqual(found["three"], [Test("tests::a"), Test("high::tests::a")])
        tests = [it for it in found["three"] if isinstance(it, Test)]
        self.assertEqual([(it.crate, it.path) for it in tests], [("", "tests::a"), ("high", "tests::a")])
        self.assertEqual(found["four"], [Nothing("it costs more")])

    def test_spelled_out(self) -> None:
        self.assertEqual(spelled_out("{3}a{2*b1 }{9..11}"), "   ab1 b1 9 10 11")

    def test_faults(self) -> None:
        for text, why in (
            ("one\n", "one has no input"),
            ("one\n  word: a\n", "there is no line 'word:'"),
            ("  text: a1\n", "below the name of an edit"),
            ("one\n  text: a1\n    code\n", "code stands below a line 'text:'"),
            ("one\n  text: a1\none\n  text: a1\n", "one stands there twice"),
            ("One two\n", "is no name of an edit"),
        ):
            with self.subTest(text), self.assertRaisesRegex(Fault, why):
                self.read(text)


class Repository(unittest.TestCase):
    """The edits of this repository."""

    def test_each_edit_applies(self) -> None:
        with tempfile.TemporaryDirectory() as folder:
            copy_into(Path(folder))
            self.assertTrue(edits())
            for edit in edits():
                paths = {Path(folder, "crates", edit.crate, it.file) for it in edit.changes()}
                before = {it: it.read_bytes() for it in paths}
                edit.apply(Path(folder))
                self.assertTrue(any(it.read_bytes() != text for it, text in before.items()), edit.title)
                for path, text in before.items():
                    path.write_bytes(text)

    def test_chosen(self) -> None:
        """Other entries are chosen for another seed, and none that is without a witness."""
        known = Known()
        edit = Edit("low", "changed", b"file: x\n")
        known.edits = {f"low/{it}": edit for it in range(40)}
        known.inputs = {title: [Text("a")] for title in known.edits}
        known.entries = {it: Entry(edit.hash, "s", hash_of(Text("a")), ["1"], ["2"]) for it in known.edits}
        known.entries["low/7"] = replace(known.entries["low/7"], reason="it costs more")
        with mock.patch.object(Edit, "source_hash", lambda _: "s"):
            one, other = chosen(known, 5, "1"), chosen(known, 5, "2")
            self.assertEqual((len(one), chosen(known, 5, "1")), (5, one))
            self.assertNotEqual(one, other)
            self.assertNotIn("low/7", chosen(known, 40, "1"))
            self.assertEqual(check(known, ""), (40, 0))


if __name__ == "__main__":
    unittest.main()
