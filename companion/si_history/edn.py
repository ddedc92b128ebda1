"""EDN, Clojure's notation for data, read strictly and in time that grows with the text.

What is read: nil, booleans, strings, characters, whole numbers, decimals, ratios, keywords, symbols, lists, vectors, maps,
sets, tagged forms, and forms that `#_` leaves out. No form stands deeper than MAX_DEPTH.
"""

from __future__ import annotations

import re
from collections.abc import Iterator
from dataclasses import dataclass, field
from decimal import Decimal
from fractions import Fraction
from typing import NoReturn

from si_history.errors import BadInput, quoted

MAX_DEPTH = 100

# Lists and vectors are lists, maps dicts, sets frozensets; characters are strings of one.
Form = object


class Keyword(str):
    """A keyword, with its colon."""

    __slots__ = ()


class Symbol(str):
    """A symbol, such as the name of a class."""

    __slots__ = ()


@dataclass(frozen=True, slots=True)
class Tagged:
    """A form with a tag, such as a record of Clojure."""

    tag: str
    form: Form


# What may stand in a word: all but white space, commas, and the signs that begin or end something else.
_IN_WORD = r'[^ \t\r\n\f,;"()\[\]{}\\^`~@]'
# What a history has most of is read at once: runs of plain words, and vectors of them.
_PLAIN = rf"(?:0|-?[1-9][0-9]*+|nil|:[a-z-]++)(?!{_IN_WORD})"
# Before Python 3.11.5 a repeated group that ends with `*+` may match more than it should.
_RUN = rf"{_PLAIN}(?>(?:[\ ,\n]++{_PLAIN})*)"
_TOKEN = re.compile(
    rf"""(?:[ \t\r\n\f,]++|;[^\n]*+)*+(?:
    ({_RUN})
    |\[((?:{_RUN})?)\]
    |([(\[{{])
    |([)\]}}])
    |"((?>(?:[^"\\]++|\\.)*))"
    |([+-]?(?:0|[1-9][0-9]*+)(?!{_IN_WORD})|:{_IN_WORD}++)
    |\#(_|\{{|\#-?[A-Za-z]++|:?[A-Za-z]{_IN_WORD}*+)
    |\\([a-z]++(?:[0-9a-fA-F]{{4}})?|[^ \t\r\n\f])
    |({_IN_WORD}++)
    )""",
    re.VERBOSE | re.DOTALL,
)
_WORDS, _VECTOR, _OPEN, _CLOSE, _STRING, _WORD, _DISPATCH, _CHARACTER, _OTHER = range(1, 10)
_BLANK = re.compile(r"(?:[ \t\r\n\f,]++|;[^\n]*+)*+")

_CLOSES = {"(": ")", "[": "]", "{": "}", "#{": "}"}
_CONSTANTS: dict[str, Form] = {"nil": None, "true": True, "false": False}
_ESCAPES = {"t": "\t", "r": "\r", "n": "\n", "b": "\b", "f": "\f", "\\": "\\", '"': '"'}
_CHARACTERS = {"newline": "\n", "return": "\r", "space": " ", "tab": "\t", "backspace": "\b", "formfeed": "\f"}
_ESCAPE = re.compile(r"\\(u[0-9a-fA-F]{4}|.)", re.DOTALL)
_INTEGER = re.compile(r"[+-]?(?:0|[1-9][0-9]*)N?")
_HEXADECIMAL = re.compile(r"0[xX][0-9a-fA-F]+")
_DECIMAL = re.compile(r"[+-]?(?:0|[1-9][0-9]*)(?:\.[0-9]*)?(?:[eE][+-]?[0-9]+)?M?")
_RATIO = re.compile(r"[+-]?[0-9]+/[0-9]*[1-9][0-9]*")
_SYMBOL = re.compile(r"[A-Za-z.*+!_?$%&=<>/'|-][^ ]*")
_SYMBOLIC = {"#Inf", "#-Inf", "#NaN"}
_LEFT_OUT = "_"


class _Bad(ValueError):
    """What is no EDN at the place that is being read. Its text is the reason."""


class _Words(dict[str, Form]):
    """Whole numbers, keywords and nil by how they are written, each made when it first comes."""

    def __missing__(self, word: str) -> Form:
        self[word] = Keyword(word) if word.startswith(":") else _CONSTANTS[word] if word in _CONSTANTS else _whole(word)
        return self[word]


@dataclass(slots=True)
class _Frame:
    """A form that is being read: how it began, where, its items so far, and the tags and `#_` that wait for the next one."""

    opened: str
    at: int
    items: list[Form] = field(default_factory=list)
    waiting: list[str] = field(default_factory=list)

    def add(self, form: Form) -> None:
        """Adds an item, with its tags, unless it is left out."""
        while self.waiting:
            tag = self.waiting.pop()
            if tag == _LEFT_OUT:
                return
            form = _tagged(tag, form)
        self.items.append(form)


def forms(text: str) -> Iterator[tuple[int, Form]]:
    """The forms of a text with their lines. A vector or a list that is the whole text gives its items.

    Raises BadInput where it is no EDN.
    """
    return _Reader(text).forms()


class _Reader:
    """Reads a text form by form.

    `_base` is how many frames are open where a form is to be given, and `_first` where one began that isn't ended.
    """

    def __init__(self, text: str) -> None:
        self._text = text
        self._counted, self._line = 0, 1
        self._first = -1
        self._frames = [_Frame("", 0)]
        self._words = _Words()
        self._begin = _end_of_blank(text, 0)
        self._base = 2 if text.startswith(("[", "("), self._begin) else 1

    def forms(self) -> Iterator[tuple[int, Form]]:
        """As the function of this name."""
        text, frames, base, words = self._text, self._frames, self._base, self._words
        end = 0
        while match := _TOKEN.match(text, end):
            kind, end = match.lastindex or 0, match.end()
            try:
                if kind <= _VECTOR and len(frames) > base and not frames[-1].waiting:
                    made = [words[word] for word in match[kind].replace(",", " ").split()]
                    frames[-1].items += made if kind == _WORDS else [made]
                    continue
                at = match.start(kind)
                if kind == _WORDS:
                    yield from self._take_words(match[kind], at)
                    continue
                if kind == _VECTOR:
                    at, end = at - 1, at
                    self._put(_OPEN, "[", at)
                else:
                    self._put(kind, match[kind], at)
            except _Bad as fault:
                self._refuse(str(fault), match.start(kind))
            if len(frames) == base and not frames[-1].waiting:
                yield from self._given(at)
            elif self._first < 0:
                self._first = at
        self._check_end(_end_of_blank(text, end))

    def _take_words(self, words: str, at: int) -> Iterator[tuple[int, Form]]:
        """Takes words one by one, as they stand from a place on."""
        for word in words.replace(",", " ").split():
            at = self._text.index(word, at)
            self._put(_WORD, word, at)
            if len(self._frames) == self._base and not self._frames[-1].waiting:
                yield from self._given(at)
            at += len(word)

    def _given(self, at: int) -> Iterator[tuple[int, Form]]:
        """The form that has ended by the token at a place, if it isn't left out, with the line where it began."""
        if self._frames[-1].items:
            yield self._line_of(at if self._first < 0 else self._first), self._frames[-1].items.pop()
        self._first = -1

    def _check_end(self, end: int) -> None:
        """Refuses a text that ends too early, or goes on with what is nothing."""
        if end < len(self._text):
            sign = self._text[end]
            self._refuse("a string doesn't end" if sign == '"' else f"{quoted(sign)} is not expected here", end)
        frame = self._frames[-1]
        if frame.waiting:
            self._refuse(f"nothing stands behind #{frame.waiting[-1]}", end)
        if frame.opened:
            self._refuse(f"what begins here with {frame.opened} doesn't end", frame.at)

    def _put(self, kind: int, word: str, at: int) -> None:
        """Puts one token where it belongs."""
        frame = self._frames[-1]
        if self._base == 2 and not frame.opened and at > self._begin:
            raise _Bad("something stands behind the end of the list that holds all forms")
        if kind == _CLOSE:
            self._close(word)
        elif kind == _OPEN or kind == _DISPATCH and word == "{":
            if len(self._frames) > MAX_DEPTH:
                raise _Bad(f"a form stands deeper than {MAX_DEPTH}")
            self._frames.append(_Frame(word if kind == _OPEN else "#{", at))
        elif kind == _WORD:
            frame.add(self._words[word])
        elif kind == _STRING:
            frame.add(_unescaped(word) if "\\" in word else word)
        elif kind == _CHARACTER:
            frame.add(_character(word))
        elif kind == _OTHER:
            frame.add(_other(word))
        elif word.startswith("#"):
            frame.add(_symbolic(word))
        else:
            frame.waiting.append(word)

    def _close(self, word: str) -> None:
        """Ends a form."""
        frame = self._frames[-1]
        if not frame.opened:
            raise _Bad(f"{word} ends nothing")
        if _CLOSES[frame.opened] != word:
            raise _Bad(f"{word} can't end what begins with {frame.opened}")
        if frame.waiting:
            raise _Bad(f"nothing stands behind #{frame.waiting[-1]}")
        self._frames.pop()
        if len(self._frames) >= self._base:
            self._frames[-1].add(_closed(frame))

    def _line_of(self, at: int) -> int:
        """The line of a place."""
        if at < self._counted:
            self._counted, self._line = 0, 1
        self._line += self._text.count("\n", self._counted, at)
        self._counted = at
        return self._line

    def _refuse(self, reason: str, at: int) -> NoReturn:
        raise BadInput(f"not EDN: {reason}", line=self._line_of(at))


def _end_of_blank(text: str, at: int) -> int:
    """Where white space, commas and comments end that begin at a place."""
    match = _BLANK.match(text, at)
    return match.end() if match else at


def _closed(frame: _Frame) -> Form:
    """What a form is whose end has come."""
    if frame.opened == "{":
        return _map_of(frame.items)
    if frame.opened == "#{":
        made = frozenset(map(_hashable, frame.items))
        if len(made) < len(frame.items):
            raise _Bad("an item stands twice in a set")
        return made
    return frame.items


def _map_of(items: list[Form]) -> dict[Form, Form]:
    """A map of keys and values that come in turn."""
    if len(items) % 2:
        raise _Bad("a map has a key without a value")
    keys = items[::2]
    try:
        made = dict(zip(keys, items[1::2]))
    except TypeError:
        made = dict(zip(map(_hashable, keys), items[1::2]))
    if 2 * len(made) < len(items):
        raise _Bad("a key stands twice in a map")
    return made


def _hashable(form: Form) -> Form:
    """A form as it can be a key of a map or an item of a set."""
    if isinstance(form, list):
        return tuple(map(_hashable, form))
    if isinstance(form, dict):
        return frozenset((key, _hashable(value)) for key, value in form.items())
    return Tagged(form.tag, _hashable(form.form)) if isinstance(form, Tagged) else form


def _tagged(tag: str, form: Form) -> Form:
    """A form with its tag. A namespace that stands before a map is that of its keys."""
    if not tag.startswith(":"):
        return Tagged(tag, form)
    if not isinstance(form, dict):
        raise _Bad(f"#{tag} stands before something else than a map")
    return {
        Keyword(f"{tag}/{key[1:]}") if isinstance(key, Keyword) and "/" not in key else key: value
        for key, value in form.items()
    }


def _unescaped(body: str) -> str:
    """A string in which something is escaped."""
    def meant(match: re.Match[str]) -> str:
        word = match[1]
        if len(word) > 1:
            return chr(int(word[1:], 16))
        if word not in _ESCAPES:
            raise _Bad(f"there is no escape \\{word}")
        return _ESCAPES[word]

    return _whole_characters(_ESCAPE.sub(meant, body))


def _character(word: str) -> str:
    """A character by its name."""
    if len(word) == 1:
        return word
    if word[0] == "u" and len(word) == 5:
        return _whole_characters(chr(int(word[1:], 16)))
    if word not in _CHARACTERS:
        raise _Bad(f"there is no character \\{word}")
    return _CHARACTERS[word]


def _whole_characters(text: str) -> str:
    """A text in which two halves of a character that were escaped stand as one."""
    try:
        return text.encode("utf-16", "surrogatepass").decode("utf-16")
    except UnicodeDecodeError:
        raise _Bad("half a character (an unpaired surrogate)") from None


def _whole(word: str) -> int:
    try:
        return int(word)
    except ValueError:
        raise _Bad("a number has too many digits") from None


def _symbolic(word: str) -> float:
    if word not in _SYMBOLIC:
        raise _Bad(f"there is no #{word}")
    return float(word[1:])


def _other(word: str) -> Form:
    """A constant, a number that isn't written as digits alone, or a symbol."""
    if word in _CONSTANTS:
        return _CONSTANTS[word]
    if _INTEGER.fullmatch(word):
        return _whole(word.removesuffix("N"))
    if _DECIMAL.fullmatch(word):
        return Decimal(word[:-1]) if word.endswith("M") else float(word)
    if _HEXADECIMAL.fullmatch(word):
        return int(word, 16)
    if _RATIO.fullmatch(word):
        over, under = word.split("/")
        return Fraction(_whole(over), _whole(under))
    if not _SYMBOL.fullmatch(word):
        raise _Bad(f"{quoted(word)} is no form")
    return Symbol(word)
