"""Cuts a long history into parts whose findings are together those of the whole.

Each transaction is *judged* in one part, the one in which it ends (one that never ends: in which its last event is). A part
behind a cut C has all events of the transactions that it judges, those from before C first, each in its own order; and of
others the versions that these need, as writes and ends under the others' own names:

- those that ended up to C are loaded in front of all, the writes of each right before its end, in the order of their commits;
- those that end behind the part are written right before the first read that saw them, and end with the part.

*Why bad reads are the same.* Others have no reads. A judged read saw what it saw; its version is in the part, since it is
needed. What was due to it is its own version, if it wrote the key before, which its own order tells; or else the last one
committed up to its start. That one is needed too. Commits stand in the part in the order of the whole, and each judged start
stands behind the same ones: one behind C keeps its place among the part's events, and all others are named. What ends with the
part is committed behind all starts. So of the versions that the part has the same one is due.

*Why unexplained reads are the same.* They depend on what was seen, on the reader's own writes before, on whether the reader
committed and on whether the writer ever does; each other one ends here as it does in the whole, wherever that is.

*Why bad writes are the same*, in the part that judges the later committer T. The earlier one, U, committed since T's start: so
it is judged here or needed and loaded, and in the part as in the whole U commits after T starts and before T commits. Of others
none is the later one: of a loaded one nothing stands between its first write and its commit. One that ends with the part
would be where a writer of the same key commits behind its write. A cut that would bring this about isn't made: the cut moves
back before that commit.

*What isn't the same.* A part has edges of the whole alone, between transactions that overlap in the whole if they do in the
part, and their commits are in the same order, as far as it decides. So its cycles, and its pivots with their `first`, are of the
whole. But cycles and dangerous structures of transactions that are judged in several parts are in none. Where no committed
transaction judged behind a cut started before it (`over` is 0), overlapping ones are judged together, and if isolation was kept
each edge between parts leads forward: then the whole passes `ssi`, and is serializable, exactly where each part does and is.

*Which snapshots would fit* a transaction isn't the same either. One that fits it in the whole has its like in the part, with
those of its commits that the part has: the versions that were seen are there, and no later one that the whole hasn't. So where a
part falls short of gsi the whole does. But a version between one that was seen and its successor in the part can be missing.
"""

from __future__ import annotations

from collections import defaultdict
from collections.abc import Iterable, Iterator

from si_history.endings import Ending, Endings
from si_history.errors import BadInput
from si_history.long_history import LongHistory, Transaction, Version
from si_history.part_room import PartRoom
from si_history.part_text import PartText, PartWriter, unended_versions
from si_history.progress import Progress

EVENTS_BETWEEN_STEPS = 10_000


def parts_of(tokens: Iterable[str], endings: Endings, most_events: int, progress: Progress | None = None) -> Iterator[PartText]:
    """The parts of a history, of at most so many events each. Raises BadInput where it is none, or can't be cut so."""
    splitter = _Splitter(endings, most_events)
    place = 0
    for place, token in enumerate(tokens, 1):
        if place % EVENTS_BETWEEN_STEPS == 0 and progress is not None:
            progress.step(place, endings.events)
        ended = splitter.history.take(token, place)
        if ended is not None:
            yield from splitter.end(ended)
    if place != endings.events or splitter.history.open:
        raise BadInput("it changed while it was read")
    if place == 0:
        raise BadInput("there is no event in it")
    yield splitter.last(place)


class _Splitter:
    """The parts so far: where the last one was cut, and who ended since."""

    def __init__(self, endings: Endings, most_events: int) -> None:
        self.history = LongHistory(endings)
        self._most_events = most_events
        self._after = 0
        self._ended: list[Transaction] = []
        self._counted = 0
        self._quiet = 0
        self._room = PartRoom(0)

    def end(self, transaction: Transaction) -> Iterator[PartText]:
        """Takes the next transaction that ended, and answers the parts that are full."""
        self._ended.append(transaction)
        while self._counted < len(self._ended):
            self._room.add(self._ended[self._counted])
            if self._room.is_over(self._most_events):
                yield self._cut(self._ended[self._counted].end - 1)
            else:
                self._counted += 1
        if not self.history.open:
            self._quiet = transaction.end

    def last(self, place: int) -> PartText:
        """The last part."""
        return self._part(self._ended, place)

    def _cut(self, latest: int) -> PartText:
        """The part up to the latest place or, if there is one in its second half, up to one where no transaction was open."""
        cut = self._quiet if self._after + latest < 2 * self._quiet <= 2 * latest else latest
        while True:
            judged = [each for each in self._ended if each.end <= cut]
            if not judged:
                raise BadInput(_no_room(self._ended[0], self._after, self._most_events))
            earlier = _cut_before(self.history, judged, cut)
            if earlier is None:
                return self._part(judged, cut)
            cut = earlier

    def _part(self, judged: list[Transaction], cut: int) -> PartText:
        """The part up to a place. What ended behind it is counted anew."""
        part = PartWriter(self.history, judged, self._after, cut).part()
        self._after = cut
        del self._ended[: len(judged)]
        self._counted = 0
        self._room = PartRoom(cut)
        return part


def _no_room(first: Transaction, after: int, most_events: int) -> str:
    """Why no part could be made behind a place."""
    room = PartRoom(after)
    room.add(first)
    if room.is_over(most_events):
        return (
            f"transaction {first.number}, which ends at token {first.end}, has no room in a part of {most_events:,} events, "
            "with all that the findings about it need"
        )
    return (
        f"it can't be cut behind token {after} into parts of {most_events:,} events: versions were read before they were "
        "committed, and overwritten too, wherever a cut could be"
    )


def _cut_before(history: LongHistory, judged: list[Transaction], cut: int) -> int | None:
    """An earlier cut, where at this one a version that is committed later would come out as a second bad write."""
    first_read: dict[int, int] = {}
    readers: defaultdict[Version, list[int]] = defaultdict(list)
    unended = unended_versions(history, judged, cut)
    for each in judged if unended else ():
        for place, version in each.unended_seen:
            writer = version[1]
            if version in unended.get(place, ()) and history.endings.of(writer) is Ending.COMMIT:
                first_read[writer] = min(place, first_read.get(writer, place))
                readers[version].append(each.end)
    writers: defaultdict[int, list[int]] = defaultdict(list)
    for key, writer in readers:
        writers[key].append(writer)
    commits = [
        each.end
        for each in judged
        if each.ending is Ending.COMMIT and any(first_read[it] < each.end for key in each.written for it in writers.get(key, ()))
    ]
    for key, several in writers.items():
        if len(several) > 1:
            commits.append(sorted(min(readers[key, writer]) for writer in several)[1])
    return min(commits) - 1 if commits else None
