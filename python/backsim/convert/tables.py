"""Functions of few bits as tables: what a lookup table computes, and its prime implicants."""
from __future__ import annotations

from collections.abc import Callable

from ..circuit.kinds import Join, Kind
from ..records import dataclass


@dataclass(frozen=True, slots=True)
class Function:
    """A function without the pins that do not matter: `places` are those that do, `bits` its table over them, bit k being its value
    where pin i is bit i of k; `kind` is the kind of gate that computes it, or None."""

    places: tuple[int, ...]
    bits: int
    kind: Kind | None


def ones_of(bits: int) -> int:
    """How many bits are 1; `int.bit_count` is of Python 3.10."""
    return bin(bits).count("1")


def _table(count: int, value: Callable[[int], bool]) -> int:
    return sum(1 << index for index in range(1 << count) if value(index))


def gate_table(kind: Kind, count: int) -> int:
    """The table of a gate of a kind with so many pins, over 0 and 1."""
    full = (1 << count) - 1
    plain: dict[Join, Callable[[int], bool]] = {
        Join.ALL: lambda index: index == full, Join.ANY: lambda index: index != 0,
        Join.ODD: lambda index: ones_of(index) % 2 == 1, Join.ONLY: lambda index: index == 1,
    }
    own = plain[kind.join]
    return _table(count, lambda index: own(index) != kind.inverts)


def function_of(bits: int, count: int) -> Function:
    """The function of a table over `count` pins."""
    places = tuple(place for place in range(count) if _matters(bits, count, place))
    bits = _table(len(places), lambda index: bits >> sum((index >> own & 1) << place for own, place in enumerate(places)) & 1 == 1)
    kinds = (Kind.BUFF, Kind.NOT) if len(places) == 1 else (Kind.AND, Kind.NAND, Kind.OR, Kind.NOR, Kind.XOR, Kind.XNOR)
    found = next((kind for kind in kinds if places and gate_table(kind, len(places)) == bits), None)
    return Function(places, bits, found)


def _matters(bits: int, count: int, place: int) -> bool:
    """Whether the value changes with the pin at this place for some setting of the others."""
    step = 1 << place
    return any((bits >> index ^ bits >> (index | step)) & 1 for index in range(1 << count) if not index & step)


def primes_of(bits: int, count: int) -> list[tuple[int, int]]:
    """All prime implicants, by the method of Quine and McCluskey, each as the pins that it looks at and the values that it wants of
    them. Their OR is 1 for pins of which some are x exactly where the function is 1 for all settings of these."""
    full = (1 << count) - 1
    cubes = {(full, index) for index in range(1 << count) if bits >> index & 1}
    primes: list[tuple[int, int]] = []
    while cubes:
        merged: set[tuple[int, int]] = set()
        used: set[tuple[int, int]] = set()
        for care, wanted in cubes:
            for place in range(count):
                step = 1 << place
                other = (care, wanted ^ step)
                if care & step and other in cubes:
                    used.update(((care, wanted), other))
                    merged.add((care & ~step, wanted & ~step))
        primes.extend(sorted(cubes - used))
        cubes = merged
    return primes
