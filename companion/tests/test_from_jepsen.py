"""Jepsen histories: what they become, and what is refused."""

from __future__ import annotations

import io
import unittest
from unittest import mock

from si_history.errors import BadInput
from si_history.from_jepsen import convert
from si_history.jepsen import Times
from si_history.limits import STANDARD, Limits
from si_history.policy import STRICT, Policy
from tests.support import history_line

LINES = """\
{:process 0, :type :invoke, :f :txn, :value [[:r 5 nil] [:append 5 1]], :index 0, :time 12}
{:process :nemesis, :type :info, :f :start, :value {"n1" #{"n2"}}, :index 1}
{:process 0, :type :ok, :f :txn, :value [[:r 5 []] [:append 5 1]], :index 2, :start-ts 1, :commit-ts 3}
{:process 1, :type :invoke, :f :txn, :value [[:r 5 nil] [:append 5 2]], :index 3, :start-ts 4}
{:process 1, :type :info, :f :txn, :value [[:r 5 nil] [:append 5 2]], :index 4, :error [:timeout "x"]}
{:process 0, :type :invoke, :f :txn, :value [[:r 5 nil] [:append 5 3]], :index 5}
{:process 0, :type :ok, :f :txn, :value [[:r 5 [1 2]] [:append 5 3]], :index 6, :start-ts 7, :commit-ts 9}
{:process 2, :type :invoke, :f :txn, :value [[:append 6 9]], :index 7}
{:process 2, :type :fail, :f :txn, :value [[:append 6 9]], :index 8}
{:process 0, :type :invoke, :f :txn, :value [[:r 5 nil]], :index 9}
{:process 0, :type :ok, :f :txn, :value [[:r 5 [1 2 3]]], :index 10, :start-ts 17}
{:process 3, :type :invoke, :f :txn, :value [[:append 6 2]], :index 11}
"""


# As a client of Jepsen 0.3 writes it, with a nemesis, an exception, records, and forms that Clojure prints.
WRITTEN = r"""
{:type :invoke, :f :txn, :value [[:append 9 1] [:r 8 nil]], :time 3291485317, :process 0, :index 0}
{:type :info, :f :start-partition, :value [:isolated {"n1" #{"n2" "n3"}, "n2" #{"n1"}}], :process :nemesis, :index 1}
{:type :ok, :f :txn, :value [[:append 9 1] [:r 8 nil]], :process 0, :index 2, :start-ts 449, :commit-ts 450, :node "n1"}
{:type :invoke, :f :txn, :value [[:append 9 2]], :time 3301485317, :process 1, :index 3}
{:type :info, :f :txn, :value [[:append 9 2]], :process 1, :index 4, :error [:timeout "read timed out"], :exception {:via
 [{:type java.sql.SQLException, :message "(conn=12)", :at [org.mariadb.jdbc.Foo$Bar lambda$run$0 "Foo.java" 203]}]}}
#jepsen.history.Op{:index 5, :time 3310000000, :type :invoke, :process 0, :f :txn, :value [[:r 9 nil]]}
#jepsen.history.Op{:index 6, :type :ok, :process 0, :f :txn, :value [[:r 9 [1 2]]], :start-ts 460, :at #inst "2024-01-01",
 :client #object[jepsen.client$fn__123 0x1f2ab3 "jepsen.client$fn__123@1f2ab3"], :rate 1/3, :took 1.5E-4, :sign \a}
"""


def ok(process: int, start: int, commit: int | None, *operations: str) -> str:
    """An operation that is done, by itself: a history need not have invocations."""
    end = "" if commit is None else f" :commit-ts {commit}"
    return f"{{:process {process} :type :ok :f :txn :value [{' '.join(operations)}] :start-ts {start}{end}}}"


def history(*lines: str, policy: Policy = STRICT) -> str:
    """The history of a Jepsen history, on one line."""
    return history_line(convert(io.BytesIO("\n".join(lines).encode()), policy))


class HistoryTest(unittest.TestCase):
    def test_each_type(self) -> None:
        made = convert(io.BytesIO(LINES.encode()))
        # T4 is of unknown outcome, and T6 saw its item: it committed. T8 failed, and nobody knows of T11.
        self.assertEqual(made.legend.transactions, {1: "T2", 2: "T4", 3: "T6", 4: "T8", 5: "T10", 6: "T11"})
        self.assertEqual(
            history_line(made),
            "b1@0 r1[5:0] w1[5] b4@0 w4[6] a4 b6@0 w6[6] c1 b2@9 w2[5] c2 b3@12 r3[5:2] w3[5] c3 b5@16 r5[5:3] c5",
        )
        self.assertEqual(made.legend.outcomes, {2: "placed", 6: "unknown"})
        self.assertEqual(made.legend.fields[10], {"process": 1, "error": [":timeout", "x"]})

    def test_what_jepsen_writes(self) -> None:
        made = convert(io.BytesIO(WRITTEN.encode()))
        # T4 tells no start, so it starts right before its commit, which is placed at the start of T6.
        self.assertEqual(history_line(made), "b1@0 w1[9] r1[8:0] c1 b2@4 w2[9] c2 b3@7 r3[9:2] c3")
        self.assertEqual((made.legend.events[0], made.legend.events[-1]), (4, 9))
        self.assertEqual(made.legend.times, {1: (449, 450), 2: (None, None), 3: (460, 460)})
        self.assertEqual(made.legend.fields[8], {
            "process": 0, "at": {"#inst": "2024-01-01"}, "rate": "1/3", "took": 0.00015, "sign": "a",
            "client": {"#object": ["jepsen.client$fn__123", 0x1f2ab3, "jepsen.client$fn__123@1f2ab3"]},
        })

    def test_one_vector_of_records(self) -> None:
        tagged = LINES.replace("{:process", "#jepsen.history.Op{:process")
        self.assertEqual(history(f"[{tagged}]"), history(LINES))

    def test_registers(self) -> None:
        self.assertEqual(
            history(ok(0, 1, 3, "[:w :x 1]", "[:w :x 2]", "[:r :x 2]"), ok(1, 3, 4, "[:r :x 2]", "[:r [:y 1] nil]", "[:w :x 3]")),
            "b1@0 w1[0] w1[0] r1[0:1] c1 b2@5 r2[0:1] r2[1:0] w2[0] c2",
        )

    def test_names_of_the_timestamps(self) -> None:
        text = "{:process 0 :type :ok :f :txn :value [[:w 1 1]] :snapshot 5 :ts 7M :index 3}"
        made = convert(io.BytesIO(text.encode()), times=Times(":snapshot", ":ts"))
        self.assertEqual((history_line(made), made.legend.transactions), ("b1@0 w1[1] c1", {1: "T3"}))

    def test_items_of_one_that_failed_are_read_before_the_list(self) -> None:
        lines = [
            "{:process 0 :type :fail :f :txn :value [[:append 5 1]] :start-ts 1}",
            ok(1, 3, 5, "[:r 5 [1]]", "[:append 5 2]"), ok(2, 6, 7, "[:append 5 4]", "[:r 5 [1 2 4]]"),
        ]
        self.assertEqual(
            history(*lines), "b1@0 w1[5] a1 b2@0 r2[5:1] w2[5] c2 b3@7 r3[5:1] w3[5] r3[5:3] c3",
        )

    def test_items_that_nobody_appended(self) -> None:
        lines = [ok(0, 1, 2, "[:append 5 1]"), ok(1, 3, 4, "[:r 5 [7 1]]")]
        self.assertEqual(
            history(*lines, policy=Policy(takes_unknown_values=True)),
            "b1@0 w1[5] c1 b2@3 b3@3 w3[5] r2[5:3] r2[5:1] c2",
        )


class RefusalTest(unittest.TestCase):
    def refused(self, said: str, *lines: str, limits: Limits = STANDARD) -> None:
        """The history is refused with exactly these words, which tell the line."""
        with self.assertRaises(BadInput) as caught:
            convert(io.BytesIO("\n".join(lines).encode()), Policy(limits=limits))
        self.assertEqual(str(caught.exception), said)

    def test_operations(self) -> None:
        good = ok(0, 1, 2, "[:w 1 1]")
        for bad, said in (
            ("7", "an operation is a map"),
            ("{:process 0 :type :done :f :txn}", '":type" is none of :invoke, :ok, :fail, :info'),
            ("{:type :ok :f :txn :value []}", '":process" is neither a whole number nor a keyword such as :nemesis'),
            ("{:process 0 :type :ok :f :read}", '":f" is not :txn: only histories of transactions can be judged'),
            ("{:process 0 :type :ok :f :txn}", '":value" is no vector of operations'),
            (ok(0, 1, 2, "[:w 1]"), "operation 1 is no vector of three, such as [:r key value]"),
            (ok(0, 1, 2, "[:r 1 nil]", "[:append 1 1]"), "operation 2 is none of :r, :w: :append"),
            (ok(0, 1, 2, "[:w 1 nil]"), "the value of operation 1 is nil, and so names the version that no transaction wrote"),
            (ok(0, 1, 2, "[:w {} 1]"), "the key of operation 1 is no key: a string, a number, true, false, null, or a list of these"),
            (ok(0, 1, 2, '[:w ":x" 1]'), 'the key of operation 1 is a string that reads as a keyword: ":x"'),
            (ok(0, 3, 2), "it committed at 2, before its start at 3"),
            (ok(0, 2, 2, "[:w 1 2]"), "it wrote and committed at 2, which is its start: its own commit can't be in its snapshot"),
            (ok(0, 2, None, "[:w 1 2]"), '":commit-ts" is missing, and it wrote'),
            ("{:process 0 :type :ok :f :txn :value []}", '":start-ts" is missing'),
            ("{:process 0 :type :info :f :txn :value [[:r 1 1]]}", '":start-ts" is missing, and it tells what it read'),
            ("{:process 0 :type :fail :f :txn :value [] :commit-ts 4}", 'it has ":commit-ts", and its type is :fail'),
            (good.replace(":start-ts 1", ":start-ts 1.5"), '":start-ts" is no whole number'),
            (good.replace("}", " :index 0}"), "the index 0 is that of line 1"),
        ):
            with self.subTest(bad=bad):
                self.refused(f"line 2: {said}", good, bad)

    def test_one_index_twice_on_one_line(self) -> None:
        one = ok(0, 1, 2, "[:w 1 1]").replace("}", " :index 4}")
        self.refused("line 1: the index 4 is that of line 1", f"[{one} {one}]")

    def test_invocations(self) -> None:
        invoked = "{:process 4 :type :invoke :f :txn :value []}"
        self.refused("line 3: process 4 is not done with what it invoked at line 1", invoked, ok(0, 1, 2, "[:w 1 1]"), invoked)

    def test_values(self) -> None:
        self.refused(
            'line 2: "T1" wrote the value 1 to 5, as "T0" did at line 1: a value that two wrote doesn\'t tell whose version was read',
            ok(0, 1, 2, "[:w 5 1]"), ok(0, 3, 4, "[:w 5 1]"),
        )
        self.refused(
            'line 2: "T1" saw a version of 5 from nowhere: nobody wrote the value 2 to it',
            ok(0, 1, 2, "[:append 5 1]"), ok(0, 3, 4, "[:r 5 [1 2]]"),
        )

    def test_lists_that_no_transactions_leave_behind(self) -> None:
        first, second = ok(0, 1, 2, "[:append 5 1]", "[:append 5 2]"), ok(0, 3, 4, "[:append 5 3]")
        told = "line 3: the list {} of 5 that \"T2\" read "
        self.refused(
            told.format("[3 1 2]") + "has its versions in another order than their commits: by the list [3] at 4, [1 2] at 2, and "
            "by the commits [1 2] at 2, [3] at 4",
            first, second, ok(0, 5, 6, "[:r 5 [3 1 2]]"),
        )
        self.refused(told.format("[1 1 2]") + "has 1 twice", first, second, ok(0, 5, 6, "[:r 5 [1 1 2]]"))
        self.refused(
            told.format("[1 3]") + 'has [1] of "T0" (line 1), which appended [1 2]', first, second, ok(0, 5, 6, "[:r 5 [1 3]]")
        )
        self.refused(
            'line 3: intermediate read (G1b): "T2" saw the value 1 of 5, which "T0" (line 1) wrote there and overwrote with 2',
            first, second, ok(0, 5, 6, "[:r 5 [1]]"),
        )
        self.refused(
            "line 1: nobody knows whether \"T0\" committed, and its commit can't be placed: it started at 4, and a version that was "
            "committed at 4 came after its version of 5",
            "{:process 0 :type :info :f :txn :value [[:append 5 1]] :start-ts 4}", second, ok(1, 5, 6, "[:r 5 [1 3]]"),
        )

    def test_the_limits(self) -> None:
        text = "\n".join([ok(0, 1, 2, "[:w 1 1]"), ok(0, 3, 4, "[:w 1 2]")])
        with mock.patch("si_history.from_jepsen.most_bytes", return_value=len(text) - 1):
            self.refused(f"line 2: log too long: the limit of bytes of a log is {len(text) - 1}", text)
        unknown = "{:process 0 :type :info :f :txn :value [[:w 1 1]] :start-ts 1}"
        said = "line 1: too many events: the limit of events of a history is 5, which --max-events changes"
        self.refused(said, unknown, ok(0, 2, 2, "[:r 1 1]"), limits=Limits(events=5))

    def test_not_utf_8(self) -> None:
        with self.assertRaises(BadInput) as caught:
            convert(io.BytesIO(b"[]\n\xff"))
        self.assertEqual(str(caught.exception), "line 2: not UTF-8")


if __name__ == "__main__":
    unittest.main()
