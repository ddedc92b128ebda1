"""Small random texts: of a store that mostly reads what is due, perhaps from another start, and of nobody in particular."""

from random import Random

from oracle import spelling
from oracle.events import MAX_KEY, MAX_TXN, Form, event_of
from oracle.reading import Reader
from oracle.trying import History

KEYS = ([1, 2], [1, 2, 3], [0, 5, 6, MAX_KEY], [10, 11, 12, 20])
IDS = (range(1, 7), [3, 70, 1_048_576, 1_048_577, 2**31, MAX_TXN])


class Maker:
    """A text in the making. Of the tokens that can't come next only a few are kept, and what follows them is judged as
    if they weren't there."""

    def __init__(self, rng: Random) -> None:
        self.rng, self.reader = rng, Reader()
        self.tokens: list[str] = []
        self.keys = rng.choice(KEYS)
        self.ids = rng.sample(rng.choice(IDS), rng.randint(1, 5))
        # By how many events the snapshots are taken later than it is recorded, or earlier.
        self.late = rng.choice((0, 0, 0, 0, 0, 0, -4, 8))

    def add(self, token: str) -> None:
        event = event_of(token.encode())
        reason = self.reader.reason(event)
        if reason is None and event is not None:
            self.reader.add(event)
        elif self.rng.random() < 0.97:
            return
        self.tokens.append(token)

    def version(self, txn: int, key: int, honest: bool) -> int:
        """A version of the key for a read to see."""
        events = self.reader.events
        writers = [it.txn for it in events if it.form is Form.WRITE and it.key == key]
        if not honest:
            others = [self.rng.choice(self.ids)] if self.rng.random() < 0.05 else []
            return self.rng.choice([0, *writers, *others])
        if txn in writers:
            return txn
        history = History(events)
        start = history.start(txn) if txn in history.txns else len(events)
        return history.due(txn, len(events) + 1, key, max(0, start + self.late))

    def range_read(self, txn: int, honest: bool) -> str:
        lo, hi = sorted(self.rng.choice([*self.keys, 0, 7, 15]) for _ in range(2))
        listed = [(key, self.version(txn, key, honest)) for key in self.keys if lo <= key <= hi]
        pairs = [f"{key}:{version}" for key, version in listed if version or self.rng.random() < 0.2]
        return f"r{txn}[{lo}..{hi}{';' + ','.join(pairs) if pairs else ''}]"

    def token(self, honest: bool) -> str:
        """A token of some transaction."""
        rng = self.rng
        txn, key, share = rng.choice(self.ids), rng.choice(self.keys), rng.random()
        is_due = honest or rng.random() < 0.6
        if share < 0.28:
            return f"r{txn}[{key}:{self.version(txn, key, is_due)}]"
        if share < 0.45:
            return self.range_read(txn, is_due)
        if share < 0.75:
            return f"w{txn}[{key}]"
        if share < 0.80:
            return f"b{txn}"
        if share < 0.84:
            return f"b{txn}@{rng.randint(0, len(self.reader.events) + rng.randint(0, 1))}"
        return f"c{txn}" if share < 0.96 else f"a{txn}"

    def add_past(self) -> None:
        """Adds some transactions that mostly wrote and committed before all others start, one after another."""
        for txn in self.ids[:-1][: self.rng.randint(1, 3)]:
            for key in self.rng.sample(self.keys, self.rng.randint(1, 2)):
                self.add(f"w{txn}[{key}]")
            if self.rng.random() < 0.9:
                self.add(f"{self.rng.choice('ccccca')}{txn}")

    def text(self) -> bytes:
        """The text, of up to 24 tokens, perhaps begins and a past before them, and some commits."""
        honest = self.rng.random() < 0.5
        if self.late > 0:
            for txn in self.ids:
                self.add(f"b{txn}")
        if self.late > 0 or self.rng.random() < 0.4:
            self.add_past()
        for _ in range(self.rng.randint(0, 24)):
            self.add(self.token(honest))
        if self.rng.random() < 0.5:
            for txn in self.ids:
                self.add(f"c{txn}")
        if self.rng.random() < 0.03:
            self.tokens.insert(self.rng.randint(0, len(self.tokens)), spelling.faulty(self.rng))
        return spelling.text_of(self.rng, self.tokens)


def text_of(rng: Random) -> bytes:
    """A small text."""
    return Maker(rng).text()
