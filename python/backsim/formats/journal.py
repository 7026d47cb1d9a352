"""The journal of a session, in its grammar (docs/use/FORMATS.md, The journal). Which journals are legal is told by `backsim.journal.legality`."""
from __future__ import annotations

from collections.abc import Callable, Iterable, Iterator
from dataclasses import field
from typing import Union

from ..errors import FormatError, type_of_path
from ..limits import MOST_END, MOST_SHARDS
from ..records import dataclass
from ..values import LOGIC
from .proof import plain_numbers
from .text import opened


@dataclass(frozen=True, slots=True)
class _OfPoint:
    """What became of a point, a signal at a time, for the query of a line."""

    query: int
    signal: int
    time: int


@dataclass(frozen=True, slots=True)
class _OfCell(_OfPoint):
    """With the cell that covers the point."""

    start: int
    end: int
    value: str


@dataclass(frozen=True, slots=True)
class Told(_OfCell):
    """A stored cell was told to the query."""


@dataclass(frozen=True, slots=True)
class Claim(_OfPoint):
    """The point was claimed for the query."""


@dataclass(frozen=True, slots=True)
class Fill(_OfCell):
    """The point was evaluated, with this cell."""


@dataclass(frozen=True, slots=True)
class Evict:
    """The cell of the signal that begins at `start` was evicted."""

    signal: int
    start: int


@dataclass(frozen=True, slots=True)
class Drop(_OfPoint):
    """The claim was given up."""


@dataclass(frozen=True, slots=True)
class Spent(_OfPoint):
    """The query was refused the point for its budget, when it held `held` claims."""

    held: int


Entry = Union[Told, Claim, Fill, Evict, Drop, Spent]
ENTRY_TYPES: dict[str, tuple[type, int]] = {
    "told": (Told, 6), "claim": (Claim, 3), "fill": (Fill, 6), "evict": (Evict, 2), "drop": (Drop, 3), "spent": (Spent, 4)}


@dataclass(frozen=True, slots=True)
class Head:
    """The first line: the count of shards and the capacity of each."""

    shards: int
    cells: int


@dataclass(frozen=True, slots=True)
class SectionBegin:
    """The line `batch K`, `trim K` or `held K`. Sections are counted from 1 over all kinds."""

    kind: str
    number: int


@dataclass(frozen=True, slots=True)
class ShardBegin:
    """The line `shard I`."""

    number: int


@dataclass(frozen=True, slots=True)
class SectionEnd:
    """The line `end`."""


Event = Union[Head, SectionBegin, ShardBegin, SectionEnd, Entry]


@dataclass(frozen=True, slots=True)
class Section(SectionBegin):
    """A section with the entries of each shard in order."""

    shards: list[list[Entry]] = field(default_factory=list)


@dataclass(frozen=True, slots=True)
class Journal(Head):
    """The whole: the head, and the sections in order."""

    sections: list[Section] = field(default_factory=list)


def entry_of(words: list[str]) -> Entry | None:
    """The entry of a line's words, or None where they are none."""
    kind, count = ENTRY_TYPES.get(words[0], (None, 0))
    if kind is None or len(words) != count + 1:
        return None
    is_cell = count == 6
    numbers = plain_numbers(words[1:-1] if is_cell else words[1:])
    if numbers is None:
        return None
    make: Callable[..., Entry] = kind
    if is_cell:
        _, _, _, start, end = numbers
        if words[-1] not in LOGIC or not start < end <= MOST_END:
            return None
        return make(*numbers, words[-1])
    return make(*numbers)


def read_events(path: type_of_path) -> Iterator[tuple[int, Event]]:
    """The lines of a journal one after another, each with its number, so that a journal of any length can be gone through.
    FormatError at the first line that is not of the grammar, and after the last where the journal breaks off."""
    with opened(path) as stream:
        yield from events_of(stream, path)


def events_of(lines: Iterable[bytes], path: type_of_path) -> Iterator[tuple[int, Event]]:
    """The lines of an open journal, as `read_events` has them."""
    grammar = _Grammar(path)
    for number, line in enumerate(lines, 1):
        grammar.number = number
        if not line.endswith(b"\n"):
            raise grammar.fault("the journal is cut in this line: it has no line feed")
        yield number, grammar.event(line[:-1].decode("latin-1"))
    grammar.number += 1
    if grammar.head is None:
        raise grammar.fault("the journal is empty: expected `journal shards S cells C`")
    if grammar.kind is not None:
        raise grammar.fault("the journal breaks off inside a section")


class _Grammar:
    """Which line may come next."""

    def __init__(self, path: type_of_path) -> None:
        self.path = path
        self.number = 0
        self.head: Head | None = None
        self.sections = 0
        self.kind: str | None = None
        self.before = ""
        self.shard = -1
        self.shards = 0

    def fault(self, cause: str) -> FormatError:
        return FormatError(self.path, self.number, cause)

    def event(self, text: str) -> Event:
        if self.head is None:
            return self.begin(text)
        if self.kind is None:
            return self.begin_section(text)
        if text == f"shard {self.shard + 1}" and self.shard + 1 < self.shards:
            self.shard += 1
            return ShardBegin(self.shard)
        if text == "end" and self.shard + 1 == self.shards:
            self.before, self.kind = self.kind, None
            return SectionEnd()
        if self.shard < 0:
            raise self.fault("expected `shard 0`")
        entry = entry_of(text.split(" "))
        if entry is None:
            raise self.fault(f"expected an entry, `shard {self.shard + 1}` or `end`, and found `{text[:60]}`")
        return entry

    def begin(self, text: str) -> Head:
        words = text.split(" ")
        numbers = plain_numbers(words[2::2])
        if len(words) != 5 or words[:2] != ["journal", "shards"] or words[3] != "cells" or numbers is None:
            raise self.fault("expected `journal shards S cells C`")
        shards, cells = numbers
        if not 1 <= shards <= MOST_SHARDS:
            raise self.fault(f"a journal has from 1 to {MOST_SHARDS} shards")
        self.head = Head(shards, cells)
        return self.head

    def begin_section(self, text: str) -> SectionBegin:
        words = text.split(" ")
        if len(words) != 2 or words[0] not in ("batch", "trim", "held") or words[1] != str(self.sections + 1):
            raise self.fault(f"expected a section with the number {self.sections + 1}, `batch`, `trim` or `held`")
        if words[0] == "held" and self.before != "batch":
            raise self.fault("a held section comes directly after a batch")
        self.sections += 1
        self.kind, self.shard = words[0], -1
        assert self.head is not None
        self.shards = 1 if self.kind == "held" else self.head.shards
        return SectionBegin(self.kind, self.sections)


def read_journal(path: type_of_path) -> Journal:
    """The whole journal of a file, by its grammar. FormatError where it is none, or breaks off."""
    return collect(read_events(path))


def collect(events: Iterable[tuple[int, Event]]) -> Journal:
    """The journal that the events make."""
    journal = Journal(0, 0)
    for _, event in events:
        if isinstance(event, Head):
            journal = Journal(event.shards, event.cells)
        elif isinstance(event, SectionBegin):
            journal.sections.append(Section(event.kind, event.number))
        elif isinstance(event, ShardBegin):
            journal.sections[-1].shards.append([])
        elif isinstance(event, SectionEnd):
            pass
        else:
            journal.sections[-1].shards[-1].append(event)
    return journal
