"""The command completion: scripts by which a shell completes this command's words, and the words themselves."""

from __future__ import annotations

import argparse
from collections.abc import Callable, Iterable, Sequence
from importlib.resources import files

from si_history.files import write_output

WORDS = "words"
SHELLS = ("bash", "zsh")

EPILOG = """\
examples:
  bash:  source <(si-history completion bash)        in ~/.bashrc
  zsh:   source <(si-history completion zsh)         in ~/.zshrc, behind compinit

make install puts both where the shells look for them."""


def register(commands: argparse._SubParsersAction[argparse.ArgumentParser], whole: Callable[[], argparse.ArgumentParser]) -> None:
    """Adds the command. `whole` makes the parser whose words are completed."""
    parser = commands.add_parser(
        "completion", help="what a shell needs to complete the words of this command",
        description="Writes a script by which bash or zsh completes the words of si-history.", epilog=EPILOG,
        formatter_class=argparse.RawDescriptionHelpFormatter,
    )
    parser.add_argument("shell", choices=(*SHELLS, WORDS), metavar="SHELL", help="bash or zsh")
    parser.add_argument("typed", nargs=argparse.REMAINDER, help=argparse.SUPPRESS)
    parser.set_defaults(run=lambda arguments: run(arguments, whole()), writes_history=False)


def run(arguments: argparse.Namespace, whole: argparse.ArgumentParser) -> int:
    """Writes the script, or where the script asks, what may stand in the place of the last word that is typed."""
    if arguments.shell == WORDS:
        write_output("".join(f"{word}\n" for word in candidates(whole, arguments.typed)))
    else:
        write_output(files("si_history").joinpath(f"completion.{arguments.shell}").read_text("utf-8"))
    return 0


def candidates(parser: argparse.ArgumentParser, typed: Sequence[str]) -> list[str]:
    """What may stand in the place of the last word: options, commands or choices. It is empty where file names may."""
    if not typed:
        return []
    *before, last = typed
    waiting: argparse.Action | None = None
    for word in before:
        if waiting is not None:
            waiting = None
        elif word.startswith("-"):
            waiting = _option(parser, word)
        else:
            parser = _commands(parser).get(word, parser)
    if waiting is not None:
        return _fitting(map(str, waiting.choices or ()), last)
    if last.startswith("-"):
        return _fitting((option for action in parser._actions for option in action.option_strings), last)
    return _fitting(_commands(parser), last)


def _option(parser: argparse.ArgumentParser, word: str) -> argparse.Action | None:
    """The option that a word is, if it takes a value."""
    found = parser._option_string_actions.get(word)
    return found if found is not None and found.nargs != 0 else None


def _commands(parser: argparse.ArgumentParser) -> dict[str, argparse.ArgumentParser]:
    """The commands below a parser."""
    for action in parser._actions:
        if isinstance(action, argparse._SubParsersAction):
            return dict(action.choices)
    return {}


def _fitting(words: Iterable[str], front: str) -> list[str]:
    return [word for word in words if word.startswith(front)]
