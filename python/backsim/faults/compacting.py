"""A subset of patterns that shows the faults that all of them show."""
from __future__ import annotations

from collections.abc import Iterable, Sequence
from heapq import heapify, heappop, heapreplace

from .network import bits_of


def by_look(shown: Sequence[int], looks: int) -> list[int]:
    """For each look the classes that it shows, a bit for each, from the looks that show each class."""
    classes: list[list[int]] = [[] for _ in range(looks)]
    for place, mask in enumerate(shown):
        for look in bits_of(mask):
            classes[look].append(place)
    return [_mask(own) for own in classes]


def _mask(places: Sequence[int]) -> int:
    found = bytearray(max(places, default=0) // 8 + 1)
    for place in places:
        found[place >> 3] |= 1 << (place & 7)
    return int.from_bytes(found, "little")


def cover(shown: list[int]) -> list[int]:
    """Looks, ascending, that show together what all show: each time the one that shows most that is left, and at the end without those
    that the others make needless."""
    chosen: list[int] = []
    left = together(shown)
    # a look never shows more of what is left than it did before, so the best is known once its own count is taken anew
    heap = [(-_count(mask), look) for look, mask in enumerate(shown)]
    heapify(heap)
    while left:
        count, look = heap[0]
        new = -_count(shown[look] & left)
        if new > count:
            heapreplace(heap, (new, look))
        else:
            heappop(heap)
            chosen.append(look)
            left &= ~shown[look]
    return sorted(_without_needless(chosen, shown))


def _count(mask: int) -> int:
    return bin(mask).count("1")


def together(shown: Iterable[int]) -> int:
    """The classes that any of the looks shows."""
    every = 0
    for mask in shown:
        every |= mask
    return every


def _without_needless(chosen: list[int], shown: list[int]) -> list[int]:
    kept = list(chosen)
    for look in chosen:
        if not shown[look] & ~together(shown[other] for other in kept if other != look):
            kept.remove(look)
    return kept
