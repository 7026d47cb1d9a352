"""What a timing diagram draws of its rows: lines, areas and texts, over an axis of time and with y counting rows."""
from __future__ import annotations

from collections import defaultdict
from collections.abc import Sequence

from ..values import Wave
from .rows import Row, cut, word_text

Points = list[tuple[float, float]]
HALF = 0.32
_TIP, _GAP = 0.045, 0.08
# of a value that is longer than its room the beginning is written, where so many letters fit
_LEAST_LETTERS = 3
_LEAST_WIDTH, _LEAST_GAP, _LEAST_RUN = 0.06, 0.06, 0.006
_LEVELS = {"0": -HALF, "1": HALF}


class Shapes:
    """The shapes of rows in a window from `start` on and before `stop`. `unit` is how wide a unit of time is, and `letter` a letter of
    a value, both in inches; `radix` is that of buses.

    `lines` has lists of points by `line` (0 and 1), `z` and `unknown` (nothing was asked), `areas` by `high` (below a 1), `x`, `bus`,
    `part` (a bus of which some bits are unknown) and `busy` (changes that are too close to be seen apart). `texts` are values inside a
    bus, and `values` those at one time that have no room for a shape, each with its place; `dots` are values that have no room for
    their letters either."""

    def __init__(self, start: int, stop: int, radix: str, unit: float, letter: float) -> None:
        self.start, self.stop, self.radix, self.unit, self.letter = start, stop, radix, unit, letter
        self.lines: dict[str, list[Points]] = defaultdict(list)
        self.areas: dict[str, list[Points]] = defaultdict(list)
        self.texts: list[tuple[float, float, str]] = []
        self.values: list[tuple[float, float, str]] = []
        self.dots: Points = []
        # of each row the last time at which a value stands in letters
        self._lettered: dict[float, int] = {}

    def add_row(self, y: float, row: Row) -> None:
        """Adds a row at this height."""
        reached = self.start
        for wave in row.waves:
            begin, end = max(wave.start, self.start), min(wave.stop, self.stop)
            if begin >= end:
                continue
            self._unknown(y, reached, begin)
            self._wave(y, row, cut(wave, begin, end))
            reached = end
        self._unknown(y, reached, self.stop)

    def _wave(self, y: float, row: Row, wave: Wave) -> None:
        """A wave by its shapes; the value at one time alone, where the picture has no room for a shape, by its letters."""
        if len(wave.changes) > 1 or (wave.stop - wave.start) * self.unit >= _LEAST_WIDTH:
            (self._bus if row.is_bus else self._bit)(y, self._coarse(y, wave))
            return
        time, value = wave.changes[0]
        text = word_text(value, self.radix) if row.is_bus else value
        room = len(text) * self.letter + _LEAST_GAP
        if (time - self._lettered.get(y, self.start - room)) * self.unit >= room:
            self.values.append((time, y, text))
            self._lettered[y] = time
        else:
            self.dots.append((time, y))

    def _coarse(self, y: float, wave: Wave) -> list[tuple[int, int, str]]:
        """The runs of a wave, of which those that follow one another too closely to be seen are one area; it has no value."""
        runs: list[tuple[int, int, str]] = []
        for begin, end, value in wave:
            is_close = (end - begin) * self.unit < _LEAST_RUN
            if is_close and runs and runs[-1][2] == "" and runs[-1][1] == begin:
                runs[-1] = (runs[-1][0], end, "")
            else:
                runs.append((begin, end, "" if is_close else value))
        self.areas["busy"] += [_box(begin, end, y) for begin, end, value in runs if not value]
        return runs

    def _unknown(self, y: float, begin: int, end: int) -> None:
        if begin < end:
            self.lines["unknown"].append([(begin, y), (end, y)])

    def _bit(self, y: float, runs: Sequence[tuple[int, int, str]]) -> None:
        line: Points = []
        for begin, end, value in runs:
            if value in ("0", "1"):
                line += [(begin, y + _LEVELS[value]), (end, y + _LEVELS[value])]
                if value == "1":
                    self.areas["high"].append(_box(begin, end, y))
                continue
            if line:
                self.lines["line"].append(line)
                line = []
            self._x_or_z(y, begin, end, value)
        if line:
            self.lines["line"].append(line)

    def _x_or_z(self, y: float, begin: int, end: int, value: str) -> None:
        if not value:
            return
        if value == "x":
            self.areas["x"].append(_box(begin, end, y))
        else:
            self.lines["z"].append([(begin, y), (end, y)])

    def _bus(self, y: float, runs: Sequence[tuple[int, int, str]]) -> None:
        for begin, end, word in runs:
            if not word:
                continue
            if not word.strip("z"):
                self.lines["z"].append([(begin, y), (end, y)])
                continue
            tip = min(_TIP / self.unit, (end - begin) / 2)
            shape = [(begin, y), (begin + tip, y + HALF), (end - tip, y + HALF), (end, y), (end - tip, y - HALF), (begin + tip, y - HALF)]
            is_unknown = not word.strip("x")
            self.areas["x" if is_unknown else "part" if word.strip("01") else "bus"].append(shape)
            text = "" if is_unknown else self._fitting(word_text(word, self.radix), (end - begin) * self.unit - _GAP)
            if text:
                self.texts.append(((begin + end) / 2, y, text))

    def _fitting(self, text: str, width: float) -> str:
        """What of a text has room in a width in inches: the whole, or its beginning, or nothing."""
        room = int(width / self.letter + 1e-9)
        if len(text) <= room:
            return text
        return f"{text[:room - 1]}…" if room >= _LEAST_LETTERS else ""


def _box(begin: float, end: float, y: float) -> Points:
    return [(begin, y - HALF), (begin, y + HALF), (end, y + HALF), (end, y - HALF)]
