"""Judges a journal by the table of legal entries alone (docs/meaning/RULES.md, The table of legal entries), knowing nothing of the circuit.
Whether a point is needed, and whether a cell is the one of forward simulation, is not judged. Nor is a query's own budget, which no
journal tells: a refusal has at most as many claims as the greatest budget of a line."""
from __future__ import annotations

from bisect import bisect_left, bisect_right, insort
from collections import OrderedDict
from collections.abc import Iterable

from ..errors import FormatError, type_of_path
from ..formats.journal import Claim, Drop, Entry, Event, Evict, Fill, Head, SectionBegin, SectionEnd, ShardBegin, Spent, Told
from ..limits import HELD_CELLS, MOST_BUDGET


class NotLegal(FormatError):
    """An entry that is not legal. The status of a command that meets it is 1: the file is a journal."""

    status = 1


class _Cause(Exception):
    """Why an entry is not legal."""


class _Shard:
    """The stored cells of one shard, the least recent first, and the claims."""

    def __init__(self, number: int, shards: int, capacity: int) -> None:
        self.number, self.shards, self.capacity = number, shards, capacity
        self.cells: OrderedDict[tuple[int, int], tuple[int, str]] = OrderedDict()  # of signal and start, the end and value
        self.starts: dict[int, list[int]] = {}  # of each signal, its starts in order
        self.claims: dict[tuple[int, int], int] = {}
        self.place_made = False

    def take(self, entry: Entry) -> None:
        """What the entry changes, where it has what it needs."""
        if self.place_made and not isinstance(entry, Fill):
            raise _Cause("a place was just made, and this entry does not fill it")
        if isinstance(entry, Told):
            self.told(entry)
        elif isinstance(entry, Claim):
            self.is_free(entry.signal, entry.time)
            self.claims[entry.signal, entry.time] = entry.query
        elif isinstance(entry, Fill):
            self.fill(entry)
        elif isinstance(entry, Evict):
            if len(self.cells) != self.capacity:
                raise _Cause("the shard has room")
            self.remove_last(entry)
            self.place_made = True
        elif isinstance(entry, Drop):
            self.is_held(entry)
            del self.claims[entry.signal, entry.time]
        elif isinstance(entry, Spent):
            self.is_free(entry.signal, entry.time)
            if entry.held > MOST_BUDGET:
                raise _Cause(f"{entry.held} claims are more than any budget")

    def is_own(self, signal: int) -> None:
        if signal % self.shards != self.number:
            raise _Cause("the signal is one of another shard")

    def is_free(self, signal: int, time: int) -> None:
        self.is_own(signal)
        starts = self.starts.get(signal, [])
        place = bisect_right(starts, time)
        if place and time < self.cells[signal, starts[place - 1]][0]:
            raise _Cause("a stored cell covers the point")
        if (signal, time) in self.claims:
            raise _Cause("the point is claimed")

    def is_held(self, entry: Fill | Drop) -> None:
        if self.claims.get((entry.signal, entry.time)) != entry.query:
            raise _Cause("the query has not claimed the point")

    def told(self, entry: Told) -> None:
        self.is_own(entry.signal)
        if self.cells.get((entry.signal, entry.start)) != (entry.end, entry.value):
            raise _Cause("the cell is not stored")
        if not entry.start <= entry.time < entry.end:
            raise _Cause("the cell does not cover the point")
        self.cells.move_to_end((entry.signal, entry.start))

    def fill(self, entry: Fill) -> None:
        self.is_held(entry)
        key, cell = (entry.signal, entry.start), (entry.end, entry.value)
        is_stored = self.cells.get(key) == cell
        if self.place_made and is_stored:
            raise _Cause("a place was made for a cell that is stored")
        if not is_stored:
            if len(self.cells) >= self.capacity:
                raise _Cause("there is no room for the cell")
            if key in self.cells:
                raise _Cause("another cell of the signal is stored with this start")
            self.cells[key] = cell
            insort(self.starts.setdefault(entry.signal, []), entry.start)
        self.cells.move_to_end(key)
        del self.claims[entry.signal, entry.time]
        self.place_made = False

    def remove_last(self, entry: Evict) -> None:
        if not self.cells or next(iter(self.cells)) != (entry.signal, entry.start):
            raise _Cause("the cell is not the least recent one")
        del self.cells[entry.signal, entry.start]
        starts = self.starts[entry.signal]
        del starts[bisect_left(starts, entry.start)]

    def end(self) -> None:
        if self.place_made:
            raise _Cause("a place was just made, and nothing fills it")
        if self.claims:
            raise _Cause("claims are left")


class _Judge:
    """The memos of a session, over the events of its journal."""

    def __init__(self) -> None:
        self.own: list[_Shard] = []
        self.shards: list[_Shard] = []
        self.kind = ""
        self.shard = 0
        self.entries = self.sections = 0

    def take(self, event: Event) -> None:
        if isinstance(event, Head):
            self.own = [_Shard(place, event.shards, event.cells) for place in range(event.shards)]
        elif isinstance(event, SectionBegin):
            self.kind = event.kind
            self.shards = [_Shard(0, 1, HELD_CELLS)] if event.kind == "held" else self.own
        elif isinstance(event, ShardBegin):
            self.shard = event.number
        elif isinstance(event, SectionEnd):
            for shard in self.shards:
                shard.end()
            self.sections += 1
        else:
            self.take_entry(event)

    def take_entry(self, entry: Entry) -> None:
        if isinstance(entry, (Told, Fill)) and entry.value == "z":
            raise _Cause("z is the value of no cell of a gate or flip-flop")
        if self.kind == "trim":
            if not isinstance(entry, Evict):
                raise _Cause("a trim only evicts")
            self.shards[self.shard].remove_last(entry)
        else:
            self.shards[self.shard].take(entry)
        self.entries += 1


def judge(events: Iterable[tuple[int, Event]], path: type_of_path) -> tuple[int, int]:
    """The counts of the entries and of the sections of a legal journal. NotLegal at the first line that is not legal; the events,
    those of `formats.journal.read_events`, raise FormatError where it is no journal."""
    judged = _Judge()
    for number, event in events:
        try:
            judged.take(event)
        except _Cause as cause:
            raise NotLegal(path, number, str(cause)) from None
    return judged.entries, judged.sections
