"""What was answered so far: for each row of the page the waves of windows that do not overlap, with every change."""
from __future__ import annotations

from array import array
from bisect import bisect_left, bisect_right
from collections import OrderedDict
from collections.abc import Iterator, Sequence
from math import ceil
from typing import NamedTuple, Union

from ..records import dataclass
from ..values import Wave

MOST_CHANGES = 4_000_000


class Busy(NamedTuple):
    """Changes that are too close to be shown apart, from the time `begin` on."""

    begin: int
    mark: str  # `#`
    changes: int


# an entry of what is shown: a run as (time, value), or changes
Shown = Union[tuple[int, str], Busy]


@dataclass(slots=True)
class Span:
    """A wave in a window: the times at which runs begin, the first at `start`, and their values."""

    start: int
    stop: int
    times: array[int]
    values: list[str]

    def value_at(self, time: int) -> str:
        """The value at a time of the window."""
        return self.values[bisect_right(self.times, time) - 1]

    def append(self, other: Span) -> None:
        """Adds the span that begins where this one stops."""
        skipped = 1 if self.values[-1] == other.values[0] else 0
        self.times.extend(other.times[skipped:])
        self.values.extend(other.values[skipped:])
        self.stop = other.stop

    def part(self, start: int, stop: int) -> Span:
        """The part of a window in it that is not empty."""
        first, last = bisect_right(self.times, start) - 1, bisect_left(self.times, stop)
        times = self.times[first:last]
        times[0] = start
        return Span(start, stop, times, self.values[first:last])

    def wave(self, name: str) -> Wave:
        """The span as a wave of this name."""
        return Wave(name, self.start, self.stop, tuple(zip(self.times, self.values)))


def span_of(wave: Wave) -> Span:
    """The span of a wave whose window is not empty."""
    return Span(wave.start, wave.stop, array("I", [time for time, _ in wave.changes]), [value for _, value in wave.changes])


class Known:
    """The spans that are known of one row, by ascending time."""

    def __init__(self) -> None:
        self.spans: list[Span] = []

    @property
    def size(self) -> int:
        """How many changes it holds."""
        return sum(len(span.times) for span in self.spans)

    def _starts(self) -> list[int]:
        """Where the spans begin; they are few, since neighbours are joined."""
        return [span.start for span in self.spans]

    def add(self, span: Span) -> None:
        """Adds a span that overlaps none, and joins it with its neighbours."""
        place = bisect_left(self._starts(), span.start)
        before = self.spans[place - 1] if place else None
        if before is not None and before.stop == span.start:
            before.append(span)
            place -= 1
        else:
            self.spans.insert(place, span)
        after = self.spans[place + 1] if place + 1 < len(self.spans) else None
        if after is not None and after.start == self.spans[place].stop:
            self.spans[place].append(after)
            del self.spans[place + 1]

    def within(self, start: int, stop: int) -> Iterator[Span]:
        """The parts of the window that are known."""
        place = max(0, bisect_right(self._starts(), start) - 1)
        for span in self.spans[place:]:
            if span.start >= stop:
                return
            first, last = max(start, span.start), min(stop, span.stop)
            if first < last:
                yield span.part(first, last)

    def gaps(self, start: int, stop: int) -> list[tuple[int, int]]:
        """The parts of the window that are not known."""
        found = []
        for span in self.within(start, stop):
            if span.start > start:
                found.append((start, span.start))
            start = span.stop
        if start < stop:
            found.append((start, stop))
        return found

    def span_at(self, time: int) -> Span | None:
        """The span that has the time, where one has."""
        place = bisect_right(self._starts(), time) - 1
        return self.spans[place] if place >= 0 and time < self.spans[place].stop else None


Key = tuple[str, ...]


class Store:
    """What is known of each row, at most `most` changes in all: those of the rows that were used longest ago go first."""

    def __init__(self, most: int = MOST_CHANGES) -> None:
        self._most = most
        self._rows: OrderedDict[Key, Known] = OrderedDict()
        self._size = 0

    def of(self, key: Key) -> Known:
        """What is known of the row with this key."""
        known = self._rows.setdefault(key, Known())
        self._rows.move_to_end(key)
        return known

    def add(self, key: Key, span: Span) -> None:
        """Adds a span to a row."""
        self.of(key).add(span)
        self._size += len(span.times)
        while self._size > self._most and len(self._rows) > 1:
            self._rows.popitem(last=False)
            self._size = sum(known.size for known in self._rows.values())


def shown(span: Span, step: float) -> list[Shown]:
    """The span as it is drawn where `step` times are one pixel. Where several changes are in one column of pixels, they are shown as such,
    from the first of them to the last. So each time that is shown with a value has it, and each change is shown or counted."""
    times, values = span.times, span.values
    if step <= 1:
        return list(zip(times, values))
    found: list[Shown] = [(times[0], values[0])]
    place, count = 1, len(times)
    while place < count:
        time = times[place]
        column = ceil((time // step + 1) * step)
        after = max(bisect_left(times, column, place), place + 1)
        if after == place + 1:
            found.append((time, values[place]))
        else:
            _add_busy(found, times, values, place, after, step)
        place = after
    return found


def _add_busy(found: list[Shown], times: Sequence[int], values: Sequence[str], place: int, after: int, step: float) -> None:
    """Adds the changes from `place` on and before `after` as one activity, joined with the one before where less than a pixel is
    between."""
    begin, changes = times[place], after - place
    before = found[-2] if len(found) >= 2 else None
    if isinstance(before, Busy) and begin - found[-1][0] <= step:
        del found[-2:]
        begin, changes = before.begin, before.changes + changes
    found.append(Busy(begin, "#", changes))
    found.append((times[after - 1], values[after - 1]))
