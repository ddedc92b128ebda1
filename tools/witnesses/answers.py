"""What code answers to an input: by the program that is at hand, or by `rt try`, which proves nothing and needs no proof."""

from __future__ import annotations

import os
import re
import subprocess
import tempfile
from collections.abc import Sequence
from pathlib import Path

from witnesses.edits import Edit, copy_into
from witnesses.fault import Fault
from witnesses.inputs import Call, Test, Text, spelled_out

PROGRAM_CRATE = "si_audit"
CALLING = "witness"
SECONDS = 1800
CASE = re.compile(r"(?m)^case=(\d+) run=(\S+)(?: status=(\d+))?.*$")
WHERE = re.compile(r" at=\S+?(?=:? |:?$)")
# An answer is one line that says how it ended, and below it what was written.
Answer = list[str]


def lines_of(head: str, output: str) -> Answer:
    return [head, *output.splitlines()]


def of_program(program: str, given: Text) -> Answer:
    """What the program at hand answers to a text."""
    ran = subprocess.run(
        [program, *given.arguments], input=spelled_out(given.text).encode(), capture_output=True, timeout=SECONDS
    )
    return lines_of(f"status {ran.returncode}", ran.stdout.decode(errors="replace"))


def rt_try(crate: Path, words: Sequence[str]) -> tuple[int, str, str]:
    """Runs `rt try` in the folder of a crate. Returns its status and what it wrote."""
    try:
        ran = subprocess.run(
            ["rt", "try", *words], cwd=crate, stdin=subprocess.DEVNULL, capture_output=True, timeout=SECONDS
        )
    except subprocess.TimeoutExpired:
        raise Fault(f"rt try had not ended after {SECONDS} seconds") from None
    except FileNotFoundError:
        raise Fault("there is no command rt on the PATH") from None
    return ran.returncode, ran.stdout.decode(errors="replace"), ran.stderr.decode(errors="replace")


def refusal(said: str) -> Fault:
    """What `rt try` said, where it ran nothing."""
    lines = [it for it in said.splitlines() if it.strip()]
    return Fault("rt try ran nothing: " + (" | ".join(lines[-3:]) or "it says nothing"))


def fault_in(said: str) -> str:
    """The line in which `rt try` tells of a fault, without the path of the file."""
    found = re.findall(r"(?m)^checked: (.*)$", said)
    return WHERE.sub("", str(found[-1])).split(", called from ")[0] if found else "a fault"


def ended(how: str, status: str, said: str) -> str:
    """How a run ended, in words."""
    if how == "ended":
        return f"status {status}"
    return fault_in(said) if how == "fault" else f"run={how}"


def of_texts(room: Path, given: Sequence[Text]) -> list[Answer]:
    """What the program that is made of the copy in the room answers to texts, all with the same options."""
    with tempfile.TemporaryDirectory() as folder:
        for number, it in enumerate(given):
            Path(folder, str(number)).write_text(spelled_out(it.text))
            Path(folder, f"{number}.args").write_text("".join(f"{word}\n" for word in it.arguments))
        words = [*given[0].options, "--cases", folder]
        _, out, said = rt_try(room / "crates" / PROGRAM_CRATE, words)
    parts = re.split(r"(?m)^== (\d+)\n", out)
    outputs = dict(zip(parts[1::2], parts[2::2]))
    answers: dict[str, Answer] = {}
    begin = 0
    for case in CASE.finditer(said):
        name, how, status = case.groups()
        answers[name] = lines_of(ended(how, status, said[begin : case.start()]), outputs.get(name, ""))
        begin = case.end()
    if len(answers) != len(given):
        raise refusal(said)
    return [answers[str(number)] for number in range(len(given))]


def of_tests(room: Path, crate: str, given: Sequence[Test]) -> list[Answer]:
    """What comes of tests in the room, all of this crate, or of another one that they name, and with the same options."""
    crate = given[0].crate or crate
    if not (room / "crates" / crate).is_dir():
        raise Fault(f"there is no crate {crate}")
    _, out, said = rt_try(room / "crates" / crate, ["--test", *given[0].options])
    answers = []
    for it in given:
        found = re.search(rf"(?m)^test {re.escape(it.path)} \.\.\. (\S+)\n((?:    .*\n)*)", out + said)
        if not found:
            raise refusal(said)
        answers.append(lines_of(f"test {found[1]}", WHERE.sub("", found[2])))
    return answers


def of_call(room: Path, crate: str, given: Call) -> Answer:
    """What a program prints that calls the crate in the room."""
    folder = room / "crates" / CALLING / "src"
    folder.mkdir(parents=True)
    (folder / "main.rt").write_text(given.code)
    with (room / "crates.txt").open("a") as it:
        it.write(f"{CALLING}: {' '.join(crates_in(given.code, room)) or crate}\n")
    _, out, said = rt_try(folder.parent, given.options)
    last = re.search(r"(?m)^(?:call=\S+ )?run=(\S+)(?: status=(\d+))?.*\Z", said.strip())
    if not last or last[1] == "none":
        raise refusal(said)
    return lines_of(ended(last[1], last[2], said), out)


def crates_in(code: str, room: Path) -> list[str]:
    """The crates of the repository that the code names."""
    return [it for it in sorted(os.listdir(room / "crates")) if re.search(rf"\b{it}::", code)]


class Copy:
    """A copy of the repository, with an edit applied where one is given, that is there for the time of a `with`."""

    def __init__(self, edit: Edit | None = None) -> None:
        self.edit = edit
        self.folder = tempfile.TemporaryDirectory(prefix="witness-")

    def __enter__(self) -> Path:
        room = Path(self.folder.__enter__())
        copy_into(room)
        if self.edit:
            self.edit.apply(room)
        return room

    def __exit__(self, *_: object) -> None:
        self.folder.cleanup()
