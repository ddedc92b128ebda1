#!/usr/bin/env python3
"""Runs the program on the longest texts and on those of hostile and hard kinds, each under a limit of seconds.

    limits.py PROGRAM [SIZE]

Each whole report is worked out by a formula, from the rules of docs/FORMAT.md. Each text of the first kinds is given to one
worker, and to four with some cuts; those that are refused once more, for the explained report. Those of hard.py are asked for
the brief report and for the explained one, under a limit of memory too: at SIZE, which is 100,000 where it isn't given, and at
a fourth of it. The greater one may take at most some eight times as long, and a moment. An explained report may take as much
memory as a brief one, and its own bytes; a full one with four million edges and eight million neighbours of pivots 40 MB. Beyond 100,000 events time and memory may grow with the size. The explained report of
a thousand bad reads has to be there in two seconds, also where each reader passes over 40,000 keys. Proofs bound neither time
nor memory, so that they are small is shown here alone.
The last line is 'N passed, M failed'.
"""

from __future__ import annotations

import filecmp
import os
import shutil
import sys
import tempfile
from collections.abc import Callable, Sequence
from dataclasses import replace
from itertools import zip_longest

import hard
from hard import MAX_KEY, Case, joined
from measuring import Run, apart, limits, run

MAX_BYTES = 16_777_216
MAX_EVENTS = 100_000
MAX_TXN = 2**32 - 1
# Some times what a slow machine takes.
SECONDS = 20
LINES = (["--workers", "1"], ["--workers", "4", "100", "5000", "20000", str(2**63)])
# The same of the hard kinds, whose time is that in which threads were busy: what else the machine does counts little.
HARD_SECONDS = 10
HARD_MEGABYTES = 300
BRIEF, EXPLAIN = "--brief", "--explain"
GROWTH = 8
MOMENT = 0.2
# What a full report takes at most, however many edges and pivots it has.
FULL_MEGABYTES = 40
# The same of a thousand bad reads, each with a snapshot that fits its reader, whatever that passes over.
OLD_SECONDS = 2


def clean(events: int, committed: list[int], still_open: int = 0, edges: str = "") -> bytes:
    """The report of a history that is kept and serializable, with no pivot, and with the ids as they ascend for order."""
    head = f"events {events} committed {len(committed)} aborted 0 open {still_open}\nisolation kept\n{edges}"
    return f"{head}ssi pass\nserializable yes\n{' '.join(map(str, ['order', *sorted(committed)]))}\n".encode()


def ring() -> Case:
    """A cycle of 25,000: transaction i reads key i and writes the next key, and the last one writes key 1."""
    count = 25_000
    tokens = [f"b{i}" for i in range(1, count + 1)]
    tokens += [f"r{i}[{i}:0]" for i in range(1, count + 1)]
    tokens += [f"w{i}[{i % count + 1}]" for i in range(1, count + 1)]
    tokens += [f"c{i}" for i in range(1, count + 1)]
    # Who reads key i must stand before who writes it, which is the transaction one lower.
    before = {i: i - 1 if i > 1 else count for i in range(1, count + 1)}
    behind = {target: source for source, target in before.items()}
    lines = [f"events {4 * count} committed {count} aborted 0 open 0", "isolation kept"]
    lines += [f"edge {i} rw {before[i]} {i}" for i in before]
    # Commits ascend. So the target is the first to commit, but for 1, whose target is the last, and for the last, whose
    # source is 1.
    firsts = {i: f" first {i - 1}" for i in range(2, count)}
    lines += [f"pivot {i} in {behind[i]} out {before[i]}{firsts.get(i, '')}" for i in before]
    steps = "".join(f" >rw:{i % count + 1}> {i}" for i in range(count, 0, -1))
    lines += ["ssi fail", "serializable no", f"cycle 1{steps}"]
    return Case(joined(tokens), ("\n".join(lines) + "\n").encode(), 1)


def all_overlapping() -> Case:
    """Transactions that overlap: each reads all keys and writes the one of its number. So each is a pivot between all others."""
    count = 2_000
    ids = [str(it) for it in range(1, count + 1)]
    tokens = [f"r{it}[1..{count}]" for it in ids] + [f"w{it}[{it}]" for it in ids] + [f"c{it}" for it in ids]
    lines = [f"events {3 * count} committed {count} aborted 0 open 0", "isolation kept"]
    lines += [f"edge {it} rw {other} {other}" for it in ids for other in ids if other != it]
    # Commits ascend, and each transaction is before and behind all others. So those are first that commit before the pivot.
    for place, it in enumerate(ids):
        others = " ".join(ids[:place] + ids[place + 1 :])
        firsts = "".join(f" {other}" for other in ids[:place])
        lines.append(f"pivot {it} in {others} out {others}{' first' + firsts if firsts else ''}")
    lines += ["ssi fail", "serializable no", "cycle 1 >rw:2> 2 >rw:1> 1"]
    return Case(joined(tokens), ("\n".join(lines) + "\n").encode(), 1)


def commits(ids: list[int]) -> Case:
    """Transactions whose only event is their commit."""
    return Case(joined(f"c{it}" for it in ids), clean(len(ids), ids))


def most_transactions() -> Case:
    return commits(list(range(1, MAX_EVENTS + 1)))


def far_apart() -> Case:
    """The greatest number comes first, and each next one is 42,949 lower."""
    return commits([MAX_TXN - 42_949 * it for it in range(MAX_EVENTS)])


# The reader's tables (finder.rt) have a power of two of homes, at most 2^18 where there are 100,000 names. A name's home is its
# low bits, or the bits above the low 32 of the name times this factor.
FACTOR = 6_949_403_065
HOMES = 2**18


def sharing_slots() -> Case:
    """Transactions with four homes among them in the reader's table. Each reads a key."""
    ids = [2**16 * it + home for it in range(1, 8_190) for home in (0, 8, 16, 24)]
    tokens = [f"r{it}[{it}:0]" for it in ids] + [f"b{it}" for it in range(1, 10_000)] + [f"c{it}" for it in ids]
    return Case(joined(tokens), clean(len(tokens), ids, still_open=9_999))


def longest_numbers() -> Case:
    """All events are of one transaction, and each number is as long as it can be."""
    read = f"r{MAX_TXN}[{MAX_KEY}:{MAX_TXN}]"
    tokens = [f"w{MAX_TXN}[{MAX_KEY}]", *[read] * (MAX_EVENTS - 2), f"c{MAX_TXN}"]
    return Case(joined(tokens), clean(MAX_EVENTS, [MAX_TXN]))


def refused(text: bytes, reason: str, below: str) -> Case:
    """A text that is refused for a reason, and what the explained report has below the refusal line."""
    line = f"refused: {reason}\n"
    return Case(text, line.encode(), 3, f"{line}{below}".encode())


def one_bad_token(text: bytes, reason: str) -> Case:
    return refused(text, f"token 1: {reason}", f"  line 1, column 1: {text[:60].decode()}\n")


def one_token() -> Case:
    return one_bad_token(b"x" * MAX_BYTES, "bad event")


def one_number() -> Case:
    return one_bad_token(b"c" + b"9" * (MAX_BYTES - 1), "number out of range")


def one_list_of_commas() -> Case:
    start = b"r1[0..9;"
    return one_bad_token(start + b"," * (MAX_BYTES - len(start)), "bad event")


def too_many_tokens() -> Case:
    """As many tokens as fit, each of the shortest form. The one behind the last event is refused."""
    text = b"".join(b"c%d " % it for it in range(1, MAX_EVENTS + 1))
    rest = b"a " + b"x " * ((MAX_BYTES - len(text) - 2) // 2)
    return refused(text + rest, f"token {MAX_EVENTS + 1}: too many events", f"  line 1, column {len(text) + 1}: a\n")


def separators() -> Case:
    return Case(b" \t\r\n" * (MAX_BYTES // 4), clean(0, []))


def one_byte_too_many() -> Case:
    return refused(b" " * (MAX_BYTES + 1), "text too long", "")


def longest_list() -> Case:
    """The range read with the most listed keys: those from 0 on, as many as leave room for the commit."""
    start, end = f"r1[0..{MAX_KEY};", "] c1"
    pairs: list[str] = []
    left = MAX_BYTES - len(start) - len(end)
    while left >= 0:
        pairs.append(f"{len(pairs)}:0")
        left -= len(pairs[-1]) + 1
    # The last pair needs no comma behind it, which is the only byte that may lack.
    if left < -1:
        pairs.pop()
    text = f"{start}{','.join(pairs)}{end}".encode()
    return Case(text, clean(2, [1]))


def all_listed() -> Case:
    """One transaction writes as many keys as it can, and another reads them all by one range."""
    keys = list(range(MAX_EVENTS - 3))
    pairs = ",".join(f"{key}:1" for key in keys)
    tokens = [*(f"w1[{key}]" for key in keys), "c1", f"r2[0..{MAX_KEY};{pairs}]", "c2"]
    return Case(joined(tokens), clean(MAX_EVENTS, [1, 2], edges="".join(f"edge 1 wr 2 {key}\n" for key in keys)))


def writes_sharing_slots() -> Case:
    """Writes that share homes in the reader's table, which goes by the numbers of transaction and key: the first event lists a
    million keys, which numbers them, and transaction 1 writes those of the first homes. A range lists them all."""
    keys = range(1_000_000)
    written = [it for it in keys if (it * FACTOR >> 32) % HOMES < 16_000]
    tokens = [f"r1[0..{MAX_KEY};{','.join(f'{it}:0' for it in keys)}]", *(f"w1[{it}]" for it in written), "c1"]
    tokens += [f"r2[0..{MAX_KEY};{','.join(f'{it}:1' for it in written)}]", "c2"]
    edges = "".join(f"edge 1 wr 2 {it}\n" for it in written)
    return Case(joined(tokens), clean(len(tokens), [1, 2], edges=edges))


def keys_sharing_slots() -> Case:
    """Keys with one home in the reader's table: times its factor they are small. Transaction 1 writes each, and transaction 2
    sees each one's version 0."""
    back = pow(FACTOR, -1, 2**64)
    keys = [back * it % 2**64 for it in range(1, 49_999)]
    tokens = ["b2", *(f"w1[{key}]" for key in keys), "c1", *(f"r2[{key}:0]" for key in keys), "c2"]
    # 2 started before 1 committed. 1 must stand behind it.
    edges = "".join(f"edge 2 rw 1 {key}\n" for key in sorted(keys))
    report = clean(len(tokens), [1, 2], edges=edges).replace(b"order 1 2", b"order 2 1")
    return Case(joined(tokens), report)


def wide_ranges() -> Case:
    """A transaction reads all of 40,000 written keys 59,996 times, and sees none of their versions."""
    count, reads = 40_000, MAX_EVENTS - 40_000 - 3
    tokens = ["b1", *(f"w2[{key}]" for key in range(count)), "c2", *[f"r1[0..{MAX_KEY}]"] * reads, "c1"]
    return Case(joined(tokens), clean(MAX_EVENTS, [1, 2], edges="".join(f"edge 1 rw 2 {key}\n" for key in range(count))))


def hot_key() -> Case:
    """Each of 2,000 transactions writes one key, one after another."""
    count = 2_000
    ids = list(range(1, count + 1))
    edges = "".join(f"edge {t} ww {u} 7\n" for t in ids for u in range(t + 1, count + 1))
    return Case(joined(f"w{it}[7] c{it}" for it in ids), clean(2 * count, ids, edges=edges))


def most_open() -> Case:
    """Of 50,000 transactions each writes one key and sees its own version, and none ends."""
    tokens = [f"w{it}[7] r{it}[7:{it}]" for it in range(1, MAX_EVENTS // 2 + 1)]
    return Case(joined(tokens), clean(MAX_EVENTS, [], still_open=MAX_EVENTS // 2))


CASES: list[Callable[[], Case]] = [
    ring,
    most_transactions,
    far_apart,
    sharing_slots,
    longest_numbers,
    one_token,
    one_number,
    one_list_of_commas,
    too_many_tokens,
    separators,
    one_byte_too_many,
    longest_list,
    all_listed,
    writes_sharing_slots,
    keys_sharing_slots,
    wide_ranges,
    hot_key,
    most_open,
]


# Those of them whose explained report is asked for, too.
REFUSED: list[Callable[[], Case]] = [one_token, one_number, one_list_of_commas, too_many_tokens, one_byte_too_many]


class Tried:
    """What was tried so far, with files in a folder of its own."""

    def __init__(self, program: str, room: str) -> None:
        self.program = program
        self.text, self.wanted, self.got = f"{room}/text", f"{room}/wanted", f"{room}/got"
        self.status = f"{room}/status"
        self.passed = self.failed = 0

    def count(self, name: str, wrong: str) -> None:
        """One more that passed, where nothing is wrong."""
        self.passed, self.failed = self.passed + (not wrong), self.failed + bool(wrong)
        if wrong:
            print(f"{name}: {wrong}", flush=True)

    def make(self, make: Callable[[], Case]) -> None:
        """Makes the files of a case, away from here, where the peak of memory is to stay low."""
        apart(lambda: self.write(make))

    def write(self, make: Callable[[], Case]) -> None:
        case = make()
        for path, given in ((self.text, case.text), (self.wanted, case.report), (self.status, b"%d" % case.status)):
            with open(path, "wb") as it:
                it.write(given)

    def runs(self, name: str, lines: Sequence[list[str]], seconds: float, megabytes: float = float("inf")) -> list[Run]:
        """One run with each command line, on the files that were made last."""
        them = []
        for line in lines:
            it = run([self.program, *line], self.text, self.got, seconds)
            self.count(f"{name} {' '.join(line)}", self.fault(it, seconds, megabytes))
            them.append(it)
        told = " and ".join(f"{it.seconds:.2f} s {it.megabytes:.0f} MB" for it in them)
        print(f"{name}: {told}", flush=True)
        return them

    def fault(self, it: Run, seconds: float, megabytes: float) -> str:
        """Tells what is wrong with a run, or answers an empty text."""
        with open(self.status, encoding="ascii") as file:
            status = int(file.read())
        if it.seconds >= seconds:
            return f"it had not ended after {seconds} seconds"
        if it.status != status:
            return f"its status is {it.status} and not {status}"
        if it.said:
            return f"it wrote on standard error: {it.said[:200]!r}"
        if it.megabytes > megabytes:
            return f"it took {it.megabytes:.0f} MB, and not at most {megabytes}"
        return "" if filecmp.cmp(self.got, self.wanted, shallow=False) else self.difference()

    def difference(self) -> str:
        """The first line in which the two reports differ."""
        with open(self.got, "rb") as got, open(self.wanted, "rb") as wanted:
            for at, (one, other) in enumerate(zip_longest(got, wanted, fillvalue=b""), 1):
                if one != other:
                    return f"line {at} is {one[:200]!r} and not {other[:200]!r}"
        return ""

    def explained(self, make: Callable[[], Case]) -> None:
        """A case, of which the explained report is asked for."""
        self.make(lambda: in_form(make(), EXPLAIN))
        self.runs(f"{make.__name__} {EXPLAIN}", [[EXPLAIN, *it] for it in LINES], SECONDS)

    def old(self, name: str) -> None:
        """The explained report of a thousand bad reads."""
        self.make(lambda: in_form(hard.OLD_SNAPSHOTS[name](MAX_EVENTS), EXPLAIN))
        self.runs(f"{name} {EXPLAIN}", [[EXPLAIN, *it] for it in LINES], OLD_SECONDS, HARD_MEGABYTES)

    def hard(self, name: str, size: int) -> None:
        """One hard kind in the brief and in the explained form, at a fourth of the size and at the whole."""
        for form in (BRIEF, EXPLAIN):
            fourth, whole = (self.sized(name, it, form) for it in (size // 4, size))
            most = GROWTH * fourth + MOMENT
            self.count(f"{name} {form} grows", f"{whole:.2f} s, and not at most {most:.2f} s" if whole > most else "")

    def sized(self, name: str, size: int, form: str) -> float:
        """How long one worker was busy with a report in this form of a hard kind of this size."""
        self.make(lambda: in_form(hard.KINDS[name](size), form))
        printed = os.path.getsize(self.wanted) / 1e6 if form == EXPLAIN else 0
        times = max(1, size / MAX_EVENTS)
        most = limits(2 * size, max(MAX_BYTES, os.path.getsize(self.text))) if times > 1 else []
        lines = [[form, *most, *it] for it in LINES]
        return self.runs(f"{name} {size} {form}", lines, times * HARD_SECONDS, times * HARD_MEGABYTES + printed)[0].busy


def in_form(case: Case, form: str) -> Case:
    """The case with the report of this form."""
    return replace(case, report=case.explained) if form == EXPLAIN else case


def main(words: Sequence[str]) -> int:
    if len(words) not in (1, 2) or shutil.which(words[0]) is None or not all(it.isdigit() for it in words[1:]):
        print("limits.py: the arguments are the program and, where it isn't 100000, the size", file=sys.stderr)
        return 2
    size = int(words[1]) if words[1:] else MAX_EVENTS
    with tempfile.TemporaryDirectory() as room:
        tried = Tried(words[0], room)
        for make in CASES:
            tried.make(make)
            tried.runs(make.__name__, LINES, SECONDS)
        tried.make(all_overlapping)
        tried.runs(all_overlapping.__name__, LINES, SECONDS, FULL_MEGABYTES)
        for make in REFUSED:
            tried.explained(make)
        for name in hard.OLD_SNAPSHOTS:
            tried.old(name)
        for name in hard.KINDS:
            tried.hard(name, size)
    print(f"{tried.passed} passed, {tried.failed} failed")
    return 1 if tried.failed else 0


if __name__ == "__main__":
    sys.exit(main(sys.argv[1:]))
