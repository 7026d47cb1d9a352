"""What an SDF file states of paths and wires, and what several entries for one come to (IEEE 1497-2001, 5.3, and how IEEE 1364-2005,
section 16, finds the paths of an entry).

Entries count in the order of the file. One below ABSOLUTE replaces what was stated before, one below INCREMENT is added to it, and `()` leaves
it. An entry without a condition, an edge or a driver is for all of them; one that has it, for that alone."""
from __future__ import annotations

import enum
from collections.abc import Iterable, Sequence
from fractions import Fraction
from typing import Optional, TypeVar

from ..records import dataclass

# the delays of a rise and of a fall, in seconds; None where none is stated
Numbers = tuple[Optional[Fraction], Optional[Fraction]]
ANY = "*"
_Number = TypeVar("_Number", int, Fraction)
_EDGES = ("posedge", "negedge")


class Corner(enum.Enum):
    """Which number of `min:typ:max` counts; where it is not stated, the greatest of the others. Of rise and fall, of edges and of
    conditions the greatest counts, and with MIN the least."""

    MIN = "min"
    TYP = "typ"
    MAX = "max"

    def of(self, numbers: Iterable[_Number]) -> _Number:
        """The one that counts of numbers for rise and fall, edges and conditions."""
        return min(numbers) if self is Corner.MIN else max(numbers)

    def of_triple(self, numbers: Sequence[Fraction | None]) -> Fraction | None:
        """The one that counts of a triple, or of a single number; None where there is none."""
        own = numbers[list(Corner).index(self)] if len(numbers) == 3 else None
        if own is not None:
            return own
        stated = [number for number in numbers if number is not None]
        return max(stated) if stated else None


@dataclass(frozen=True, slots=True, eq=False)
class Place:
    """Where an entry stands: its line, the type of its cell and the instance, `*` for every one of the type and empty for the design itself,
    and whether it stands below INCREMENT."""

    line: int
    cell_type: str
    instance: str
    is_increment: bool


@dataclass(frozen=True, slots=True, eq=False)
class Entry:
    """What is stated of a path or a wire. `only` says for what of it: the condition and the edge of a path, or the driver of a wire, each
    empty where for all. `word` is the keyword. Two entries are the same only where they are one form of the file."""

    place: Place
    word: str
    only: tuple[str, ...]
    numbers: Numbers

    @property
    def is_chosen(self) -> bool:
        """Whether rise and fall have different numbers, of which one counts."""
        return None not in self.numbers and self.numbers[0] != self.numbers[1]

    def after(self, before: Numbers) -> Numbers:
        """The numbers that stand after this entry."""
        def one(own: Fraction | None, old: Fraction | None) -> Fraction | None:
            if own is None or self.place.is_increment and old is None:
                return old
            return own + old if self.place.is_increment and old is not None else own

        return one(self.numbers[0], before[0]), one(self.numbers[1], before[1])


@dataclass(frozen=True, slots=True, eq=False)
class Path(Entry):
    """An IOPATH, from a port of a cell to another. A DEVICE is a path from every port, `*`, and without a port to every one."""

    source: str
    target: str

    @property
    def has_edge(self) -> bool:
        return self.only[1] != ""


@dataclass(frozen=True, slots=True, eq=False)
class Wire(Entry):
    """An INTERCONNECT or PORT: the port to which it leads, and the instance of that cell, empty for the design itself."""

    instance: str
    port: str


def delay_of(entries: Iterable[Entry], corner: Corner, taken: set[Entry]) -> Fraction | None:
    """The delay, in seconds, that the entries of one path or wire come to, in the order of the file; None where none is stated. Adds those
    to `taken` that had something to say: an INCREMENT has nothing where there is no delay before it."""
    stated: dict[tuple[str, ...], Numbers] = {}
    for entry in entries:
        if entry.only not in stated:
            stated[entry.only] = next((stated[own] for own in reversed(stated) if _covers(own, entry.only)), (None, None))
        for own in stated:
            if _covers(entry.only, own):
                stated[own] = entry.after(stated[own])
                if stated[own] != (None, None):
                    taken.add(entry)
    numbers = [number for own, both in stated.items() if not _is_replaced(own, stated) for number in both if number is not None]
    return corner.of(numbers) if numbers else None


def _covers(general: tuple[str, ...], own: tuple[str, ...]) -> bool:
    """Whether what is stated for the first counts for the second."""
    return all(part in ("", other) for part, other in zip(general, own))


def _is_replaced(own: tuple[str, ...], stated: Iterable[tuple[str, ...]]) -> bool:
    """Whether others say all that this one says: a path has entries for both edges, or a wire one for its driver, of which a net has one."""
    if len(own) == 1:
        return own == ("",) and any(other != own for other in stated)
    return not own[1] and all((own[0], edge) in stated for edge in _EDGES)
