"""How the tokens of a random text stand in it, and tokens that are no events or can't be one anywhere."""

from random import Random

from oracle.events import MAX_KEY, MAX_TXN

FAULTY = ("x", "r1[9..3]", "r01[1:0]", "w0[1]", "b4294967296", "r1[0..5;]", "c", "r1[1:0", "r1[0..9;5:0,4:0]", "b1@4294967296")
SEPARATORS = " \t\r\n"
# Every byte but the separators, as the character of its number.
BYTES = "".join(chr(it) for it in range(256) if chr(it) not in SEPARATORS)
STRANGE = "\\\\\\\x00\x0b\x1f!~\x7f\x80\xe9\xffw1["


def faulty(rng: Random) -> str:
    """A token that no history has. Its characters stand for the bytes of their numbers."""
    way = rng.randrange(5)
    if way == 0:
        # At and around the length to which a report shows a token.
        return "".join(rng.choices(STRANGE, k=rng.choice((1, 2, 59, 60, 61, 62))))
    if way == 1:
        return "".join(rng.choices(BYTES, k=rng.randint(1, 100)))
    if way == 2:
        # Long tokens that have the form of an event.
        pairs = ",".join(f"{key}:{rng.randint(0, MAX_TXN)}" for key in range(rng.randint(4, 12)))
        return rng.choice((f"r1[{MAX_KEY}..0;{pairs}]", f"r{MAX_TXN}[0..{MAX_KEY};{pairs},0:0]", f"b1@{'9' * 80}"))
    return rng.choice(FAULTY)


def text_of(rng: Random, tokens: list[str]) -> bytes:
    """The text of the tokens: with one separator between them, or with any in any number, before and behind them too."""
    if rng.random() < 0.7:
        return rng.choice((" ", "\n", " \t", "\r\n")).join(tokens).encode("latin-1")
    gaps = ["".join(rng.choices(SEPARATORS, (8, 1, 1, 2), k=rng.randint(1, 3))) for _ in range(len(tokens) + 1)]
    ends = [rng.choice(("", gaps[0])), *gaps[1:-1], rng.choice(("", gaps[-1]))]
    text = "".join(gap + token for gap, token in zip(ends, tokens)) + (ends[-1] if tokens else "")
    return text.encode("latin-1")
