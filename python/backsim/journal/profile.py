"""The profile of a journal: which questions and signals its evaluations were for, when cells were evicted, which budgets were needed,
and which memo would hold every cell (docs/meaning/RULES.md, The memo and its journal).

A claim is an evaluation that a question was charged for, and a fill is one that was done. The order of the entries of one shard is
known, and that of the entries of two shards is not; so where a section is divided into parts, each part has the same share of the
entries of each shard."""
from __future__ import annotations

from collections import Counter, defaultdict
from collections.abc import Iterable, Iterator
from dataclasses import field

from ..errors import type_of_path
from ..formats.journal import Claim, Drop, Entry, Event, Evict, Fill, Head, SectionBegin, ShardBegin, Spent, Told, read_events
from ..limits import MOST_CELLS
from ..records import dataclass

BLOCK = 64
MOST_STRETCHES = 60
# the numbers of shards that are told of
_SHARDS = (1, 2, 4, 8, 16, 32, 64)


@dataclass(slots=True)
class Question:
    """What the question of a line of the script did. `claims` is what it was charged: as a budget it would have sufficed in this
    session, with what others left in the memo. `told` counts the points that the memo knew, `drops` the claims that were given up.
    `refused_at` is None, or the number of points that it had evaluated or begun when it was refused one: it needs more. `points`
    are the points that it asked for in the session's own memo, where they are kept."""

    line: int
    claims: int = 0
    fills: int = 0
    told: int = 0
    drops: int = 0
    refused_at: int | None = None
    is_stuck: bool = False
    points: set[tuple[int, int]] = field(default_factory=set, repr=False)


@dataclass(frozen=True, slots=True)
class Stretch:
    """What happened between two places of the journal: from the section `first` to the section `last`, or in a part of one."""

    first: int
    last: int
    fills: int
    again: int
    evictions: int


@dataclass(frozen=True, slots=True)
class Room:
    """With so many shards, the number of cells that the fullest shard would hold if nothing were evicted."""

    shards: int
    cells: int

    @property
    def fits(self) -> bool:
        """Whether the program can be asked for so many cells."""
        return self.cells <= MOST_CELLS


@dataclass(slots=True)
class Profile:
    """The profile of a journal. `fills`, `again` (evaluations of a point that was evaluated before), `evictions` and `trimmed` (cells
    that trims evicted) are of the session's own memo; `held_fills` and `held_evictions` are of the memos of `stuck` lines, and
    `held_cells` is the number of cells of the fullest of those. `signals` and `cells_of` count the evaluations and the different
    cells of a signal's number, in the session's own memo. `cells` has the value of each cell by signal, start and end."""

    shards: int = 0
    capacity: int = 0
    sections: Counter[str] = field(default_factory=Counter)
    fills: int = 0
    again: int = 0
    evictions: int = 0
    trimmed: int = 0
    held_fills: int = 0
    held_evictions: int = 0
    held_cells: int = 0
    questions: dict[int, Question] = field(default_factory=dict)
    signals: Counter[int] = field(default_factory=Counter)
    cells: dict[tuple[int, int, int], str] = field(default_factory=dict, repr=False)
    stretches: list[Stretch] = field(default_factory=list)

    def cells_of(self) -> Counter[int]:
        """The number of different cells of each signal."""
        return Counter(signal for signal, _, _ in self.cells)

    def rooms(self) -> list[Room]:
        """What each number of shards would need; that of the session is among them."""
        counts = self.cells_of()
        rooms = []
        for shards in sorted({*_SHARDS, self.shards}):
            held = [0] * shards
            for signal, count in counts.items():
                held[signal % shards] += count
            rooms.append(Room(shards, max(1, *held)))
        return rooms

    def refused(self) -> list[Question]:
        """The questions that were refused a point for their budget, in the order of their lines."""
        return sorted((question for question in self.questions.values() if question.refused_at is not None),
                      key=lambda question: question.line)


def profile_of(path: type_of_path, keeps_points: bool = False) -> Profile:
    """The profile of a journal; with `keeps_points` each question has the points that it asked for, which takes much memory.
    FormatError where the file is no journal, or breaks off. That it is legal is not judged."""
    return profile_of_events((event for _, event in read_events(path)), keeps_points)


def profile_of_events(events: Iterable[Event], keeps_points: bool = False) -> Profile:
    """The profile of the lines of a journal."""
    counting = _Counting(keeps_points)
    for event in events:
        counting.take(event)
    return counting.finish()


@dataclass(slots=True)
class _Block:
    """Some entries of one shard that follow one another."""

    entries: int = 0
    fills: int = 0
    again: int = 0
    evictions: int = 0


class _Counting:
    """Counts one journal."""

    def __init__(self, keeps_points: bool) -> None:
        self.keeps_points = keeps_points
        self.profile = Profile()
        self.kind = ""
        self.number = 0
        self.filled: set[tuple[int, int]] = set()
        self.held: set[tuple[int, int]] = set()
        # of the section that is open, the blocks of each shard; and of all closed ones the parts, each with its section's number
        self.blocks: list[list[_Block]] = []
        self.parts: list[tuple[int, _Block]] = []

    def take(self, event: Event) -> None:
        if isinstance(event, Head):
            self.profile.shards, self.profile.capacity = event.shards, event.cells
        elif isinstance(event, SectionBegin):
            self.close()
            self.kind, self.number = event.kind, event.number
            self.profile.sections[event.kind] += 1
            self.held.clear()
        elif isinstance(event, ShardBegin):
            self.blocks.append([_Block()])
        elif isinstance(event, (Told, Claim, Fill, Evict, Drop, Spent)):
            if self.kind == "held":
                self.take_held(event)
            else:
                self.take_own(event)

    def question(self, line: int) -> Question:
        return self.profile.questions.setdefault(line, Question(line))

    def take_own(self, entry: Entry) -> None:
        block = self.block()
        if isinstance(entry, Fill):
            point = entry.signal, entry.time
            self.profile.fills += 1
            block.fills += 1
            if point in self.filled:
                self.profile.again += 1
                block.again += 1
            self.filled.add(point)
            self.profile.signals[entry.signal] += 1
            self.profile.cells[entry.signal, entry.start, entry.end] = entry.value
        elif isinstance(entry, Evict):
            block.evictions += 1
            if self.kind == "trim":
                self.profile.trimmed += 1
            else:
                self.profile.evictions += 1
        elif isinstance(entry, (Told, Claim)) and self.keeps_points:
            self.question(entry.query).points.add((entry.signal, entry.time))
        self.count(entry)

    def take_held(self, entry: Entry) -> None:
        if isinstance(entry, Fill):
            self.profile.held_fills += 1
            self.held.add((entry.signal, entry.start))
            self.profile.held_cells = max(self.profile.held_cells, len(self.held))
        elif isinstance(entry, Evict):
            self.profile.held_evictions += 1
        self.count(entry)
        if not isinstance(entry, Evict):
            self.question(entry.query).is_stuck = True

    def count(self, entry: Entry) -> None:
        """Counts an entry for its question."""
        if isinstance(entry, Claim):
            self.question(entry.query).claims += 1
        elif isinstance(entry, Fill):
            self.question(entry.query).fills += 1
        elif isinstance(entry, Told):
            self.question(entry.query).told += 1
        elif isinstance(entry, Drop):
            self.question(entry.query).drops += 1
        elif isinstance(entry, Spent):
            question = self.question(entry.query)
            question.refused_at = question.fills + entry.held

    def block(self) -> _Block:
        """The block of the shard to which the next entry belongs."""
        own = self.blocks[-1]
        if own[-1].entries == BLOCK:
            own.append(_Block())
        own[-1].entries += 1
        return own[-1]

    def close(self) -> None:
        """Joins the blocks of the section's shards into parts."""
        if self.kind in ("batch", "trim"):
            parts = [_Block() for _ in range(max(map(len, self.blocks), default=1))]
            for own in self.blocks:
                for place, block in enumerate(own):
                    _add(parts[place * len(parts) // len(own)], block)
            self.parts += [(self.number, part) for part in parts]
        self.blocks = []

    def finish(self) -> Profile:
        self.close()
        step = -(-len(self.parts) // MOST_STRETCHES) or 1
        for begin in range(0, len(self.parts), step):
            own = self.parts[begin:begin + step]
            total = _Block()
            for _, part in own:
                _add(total, part)
            self.profile.stretches.append(Stretch(own[0][0], own[-1][0], total.fills, total.again, total.evictions))
        return self.profile


def _add(total: _Block, block: _Block) -> None:
    total.entries += block.entries
    total.fills += block.fills
    total.again += block.again
    total.evictions += block.evictions


def grouped(cells: Iterable[tuple[int, int, int]]) -> dict[int, list[tuple[int, int]]]:
    """The intervals of each signal, by ascending start."""
    found: defaultdict[int, list[tuple[int, int]]] = defaultdict(list)
    for signal, start, end in sorted(cells):
        found[signal].append((start, end))
    return found


def most_first(counts: Counter[int]) -> Iterator[tuple[int, int]]:
    """Numbers with their counts, the greatest count first, and of equal ones the least number."""
    return iter(sorted(counts.items(), key=lambda item: (-item[1], item[0])))
