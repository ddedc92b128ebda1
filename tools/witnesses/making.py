"""Trying one edit on its inputs."""

from __future__ import annotations

from collections.abc import Iterator
from functools import lru_cache
from itertools import groupby
from threading import Lock

from witnesses.answers import Answer, Copy, of_call, of_program, of_tests, of_texts
from witnesses.edits import Edit
from witnesses.fault import Fault
from witnesses.inputs import Call, Input, Nothing, Test, Text, hash_of
from witnesses.ledger import Entry

OTHERWISE = "the code answers otherwise than the ledger has it"
# Whoever has it compiles the code as it is, so that no two do so for the same inputs.
AS_IT_IS = Lock()


def alike(given: Input) -> tuple[object, ...]:
    """What is the same of inputs that one copy of the repository serves."""
    if isinstance(given, Text):
        return Text, given.options
    if isinstance(given, Test):
        return Test, given.crate, given.options
    return type(given), given


def groups(inputs: list[Input]) -> Iterator[tuple[Input, ...]]:
    """The inputs in turn, as many at a time as one copy serves."""
    return (tuple(group) for _, group in groupby(inputs, alike))


def tried(edit: Edit | None, crate: str, group: tuple[Input, ...]) -> list[Answer]:
    """What `rt try` answers to inputs that are alike, of the code with the edit, or without one."""
    with Copy(edit) as room:
        if isinstance(group[0], Text):
            return of_texts(room, [it for it in group if isinstance(it, Text)])
        if isinstance(group[0], Test):
            return of_tests(room, crate, [it for it in group if isinstance(it, Test)])
        return [of_call(room, crate, it) for it in group if isinstance(it, Call)]


@lru_cache(maxsize=None)
def tried_as_it_is(crate: str, group: tuple[Input, ...]) -> list[Answer]:
    return tried(None, crate, group)


def asks_program(given: Input) -> bool:
    """Whether the program at hand tells what the code answers: it reads a text, and no option of `rt try` is given."""
    return alike(given) == (Text, ())


def fault_of_program(program: str, entry: Entry, inputs: list[Input]) -> str:
    """Tells that the program answers otherwise than the entry has it, or answers an empty text."""
    texts = [it for it in inputs if isinstance(it, Text) and asks_program(it)]
    return "" if all(of_program(program, it) == entry.real for it in texts) else OTHERWISE


def of_code(program: str, crate: str, group: tuple[Input, ...]) -> list[Answer]:
    """What the code answers as it is: the program at hand, where that can tell."""
    if asks_program(group[0]):
        return [of_program(program, it) for it in group if isinstance(it, Text)]
    with AS_IT_IS:
        return tried_as_it_is(crate, group)


def entry_of(program: str, edit: Edit, inputs: list[Input]) -> Entry:
    """The entry of an edit: with the first of its inputs to which the edited code answers otherwise."""
    first = inputs[0]
    if isinstance(first, Nothing):
        return Entry(edit.hash, edit.source_hash(), hash_of(first), [], [], first.reason)
    for group in groups(inputs):
        edited = tried(edit, edit.crate, group)
        for given, one, other in zip(group, of_code(program, edit.crate, group), edited, strict=True):
            if one != other:
                return Entry(edit.hash, edit.source_hash(), hash_of(given), one, other)
    raise Fault("the edited code answers the same to each of its inputs")
