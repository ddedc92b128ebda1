"""Texts with some of their bytes changed, as nobody means them: what the fuzzers give to programs."""

from __future__ import annotations

from collections.abc import Callable
from random import Random

# Bytes and numbers at which something ends: of characters, of separators, of numbers that a history or Python can hold.
BYTES = (0, 9, 10, 13, 32, 34, 43, 45, 48, 57, 58, 59, 91, 92, 93, 123, 125, 126, 127, 128, 0xC3, 0xED, 0xFF)
NUMBERS = tuple(str(edge + by).encode() for edge in (0, 2**31, 2**32, 2**53, 2**63, 2**64) for by in (-1, 0, 1)) + (
    b"00", b"01", b"+1", b"1e9", b"0.5", b"9" * 40, b"1" * 5000)
MOST_BYTES = 20_000
Change = Callable[[bytearray, bytes, Random], None]


def span(text: bytes | bytearray, rng: Random) -> slice:
    """A piece of a text: mostly a short one."""
    start = rng.randrange(len(text) + 1)
    return slice(start, start + rng.choice((1, 2, 4, 8, 64, len(text))))


def flip(text: bytearray, _: bytes, rng: Random) -> None:
    if text:
        text[rng.randrange(len(text))] ^= 1 << rng.randrange(8)


def put(text: bytearray, _: bytes, rng: Random) -> None:
    place = rng.randrange(len(text) + 1)
    text[place:place + rng.randrange(2)] = bytes([rng.choice(BYTES)]) * rng.choice((1, 1, 1, 2, 100))


def scatter(text: bytearray, _: bytes, rng: Random) -> None:
    place = rng.randrange(len(text) + 1)
    text[place:place] = rng.randbytes(rng.randint(1, 8))


def leave_out(text: bytearray, _: bytes, rng: Random) -> None:
    del text[span(text, rng)]


def repeat(text: bytearray, _: bytes, rng: Random) -> None:
    piece = text[span(text, rng)]
    place = rng.randrange(len(text) + 1)
    text[place:place] = piece * rng.choice((1, 1, 2, 50))


def move(text: bytearray, _: bytes, rng: Random) -> None:
    place = span(text, rng)
    piece = bytes(text[place])
    del text[place]
    to = rng.randrange(len(text) + 1)
    text[to:to] = piece


def splice(text: bytearray, other: bytes, rng: Random) -> None:
    place = rng.randrange(len(text) + 1)
    text[place:place] = other[span(other, rng)]


def renumber(text: bytearray, _: bytes, rng: Random) -> None:
    """Another number in the place of one."""
    places = [place for place, byte in enumerate(text) if 48 <= byte <= 57]
    if places:
        start = end = rng.choice(places)
        while end < len(text) and 48 <= text[end] <= 57:
            end += 1
        text[start:end] = rng.choice(NUMBERS) if rng.random() < 0.5 else str(rng.randrange(10)).encode()


def cut(text: bytearray, _: bytes, rng: Random) -> None:
    del text[rng.randrange(len(text) + 1):]


CHANGES: tuple[Change, ...] = (flip, put, scatter, leave_out, repeat, move, splice, renumber, renumber, cut)


def mutated(text: bytes, other: bytes, rng: Random) -> bytes:
    """A text after one change or some. Pieces of the other text may come into it."""
    changed = bytearray(text)
    for _ in range(rng.choice((1, 1, 1, 2, 3, 8))):
        rng.choice(CHANGES)(changed, other, rng)
    return bytes(changed[:MOST_BYTES])
