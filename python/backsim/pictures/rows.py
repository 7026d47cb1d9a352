"""The rows of a timing diagram: waves by their names, bits joined to buses, and values as they are written in a bus."""
from __future__ import annotations

import re
from collections.abc import Collection, Iterable, Sequence

from ..circuit.buses import wave_of
from ..records import dataclass
from ..values import Wave

RADIXES = ("hex", "dec", "signed", "bin")
_BIT = re.compile(r"(.+)\[([0-9]{1,6})\]")


@dataclass(frozen=True, slots=True)
class Row:
    """A row: its label, and what is known of it, as waves whose windows ascend and do not overlap."""

    label: str
    waves: tuple[Wave, ...]

    @property
    def is_bus(self) -> bool:
        """Whether its values are words of several letters."""
        return any(len(value) > 1 for wave in self.waves for _, value in wave.changes)


def row_of(label: str, waves: Iterable[Wave]) -> Row:
    """A row of waves that may overlap: of a time that two say the first one counts, by their order in time."""
    pieces: list[Wave] = []
    for wave in sorted(waves, key=lambda wave: (wave.start, -wave.stop)):
        start = max(wave.start, pieces[-1].stop) if pieces else wave.start
        if start < wave.stop:
            pieces.append(cut(wave, start, wave.stop))
    return Row(label, tuple(pieces))


def cut(wave: Wave, start: int, stop: int) -> Wave:
    """The part of a wave in a window that lies in its own. A window that is empty has no change."""
    if start >= stop:
        return Wave(wave.name, start, start, ())
    return Wave(wave.name, start, stop, tuple((max(begin, start), value) for begin, end, value in wave if end > start and begin < stop))


def bus_row(label: str, bits: Sequence[Row]) -> Row:
    """The row of a bus, of the rows of its bits, the leftmost first: where one bit is not known there is nothing."""
    waves = []
    for start, stop in _common([[(wave.start, wave.stop) for wave in bit.waves] for bit in bits]):
        parts = [next(cut(wave, start, stop) for wave in bit.waves if wave.start <= start and stop <= wave.stop) for bit in bits]
        waves.append(wave_of(label, parts))
    return Row(label, tuple(waves))


def _common(windows: Sequence[Sequence[tuple[int, int]]]) -> list[tuple[int, int]]:
    """The windows that lie in one of each list, each list having ascending windows that do not overlap."""
    found = list(windows[0])
    for others in windows[1:]:
        found = [(max(start, begin), min(stop, end)) for start, stop in found for begin, end in others
                 if max(start, begin) < min(stop, end)]
    return found


def with_buses(rows: Sequence[Row], ascending: Collection[str] = ()) -> list[Row]:
    """The rows, with those of the bits `count[7]` to `count[0]` as one row `count[7:0]`, and of a bus that is `ascending` as `count[0:7]`,
    at the place of the first. Bits are joined where at least two are there, their numbers follow one another, and all are known at the same
    times."""
    groups: dict[str, dict[int, Row]] = {}
    for row in rows:
        parts = _BIT.fullmatch(row.label)
        if parts and not row.is_bus:
            groups.setdefault(parts[1], {})[int(parts[2])] = row
    joined: list[Row] = []
    done: set[str] = set()
    for row in rows:
        parts = _BIT.fullmatch(row.label)
        bits = groups.get(parts[1], {}) if parts else {}
        windows = {tuple((wave.start, wave.stop) for wave in bit.waves) for bit in bits.values()}
        if parts is None or len(bits) < 2 or max(bits) - min(bits) != len(bits) - 1 or len(windows) != 1:
            joined.append(row)
        elif parts[1] not in done:
            done.add(parts[1])
            places = sorted(bits, reverse=parts[1] not in ascending)
            joined.append(bus_row(f"{parts[1]}[{places[0]}:{places[-1]}]", [bits[place] for place in places]))
    return joined


def word_text(word: str, radix: str) -> str:
    """A word as it is written in a bus. Of a number in hexadecimal a digit is `x` or `z` where its bits are all so, and `X` where some
    are unknown; a decimal number, `signed` in two's complement, is `x` where a bit is unknown."""
    if radix == "bin":
        return word
    if radix in ("dec", "signed"):
        if word.strip("01"):
            return "x" if word.strip("z") else "z"
        return str(int(word, 2) - (1 << len(word) if radix == "signed" and word[0] == "1" else 0))
    padded = word.rjust(-(-len(word) // 4) * 4, word[0] if word[0] in "xz" else "0")
    return "".join(_digit(padded[place:place + 4]) for place in range(0, len(padded), 4))


def _digit(bits: str) -> str:
    if not bits.strip("01"):
        return f"{int(bits, 2):x}"
    return bits[0] if bits in ("xxxx", "zzzz") else "X"
