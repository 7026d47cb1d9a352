"""The stimulus file: the horizon and the settings of inputs (docs/use/FORMATS.md, The stimulus file)."""
from __future__ import annotations

from bisect import bisect_right
from dataclasses import field
from itertools import chain
from typing import TextIO

from ..errors import FormatError, type_of_path
from ..limits import MOST_TIME
from ..records import dataclass
from ..values import AFTER_VALUES
from . import causes
from .netlist import Netlist
from .text import Row, is_name, logic_of, number_of, read_bytes, read_for, rows_of
from .units import Unit, comment_of, unit_in


@dataclass(slots=True)
class Stimulus:
    """The horizon, 0 to 1,000,000, is the last time of the simulation. `settings` has for each input the (time, value) of its
    settings by ascending time. `unit` says what a unit of time is, where a comment of the file does. `lines` has the line of each setting, by name and time, where the stimulus was read from a file."""

    horizon: int
    settings: dict[str, list[tuple[int, str]]] = field(default_factory=dict)
    unit: Unit | None = None
    lines: dict[tuple[str, int], int] = field(default_factory=dict, repr=False, compare=False)

    def value_at(self, name: str, time: int) -> str:
        """The value of an input at a time: that of its last setting at or before it, and x before its first setting."""
        settings = self.settings.get(name, [])
        place = bisect_right(settings, (time, AFTER_VALUES))
        return settings[place - 1][1] if place else "x"

    def changes(self, name: str) -> list[tuple[int, str]]:
        """The settings of an input that change its value, which is x before its first one. A circuit has no others: a setting that repeats
        the value ends no cell."""
        settings = self.settings.get(name, [])
        return [setting for setting, before in zip(settings, chain("x", (value for _, value in settings))) if setting[1] != before]

    def times(self) -> list[int]:
        """The times at which something is set, ascending."""
        return sorted({time for settings in self.settings.values() for time, _ in settings})


def read_stimulus(path: type_of_path, netlist: Netlist | None = None) -> Stimulus:
    """The stimulus of a file. FormatError where the program refuses the file, or, with a netlist, a row of it for that netlist."""
    return read_for(netlist, path, parse_stimulus, check_stimulus)


def read_horizon(path: type_of_path) -> int:
    """The horizon that a file states in its first line that isn't blank; the other lines are not looked at. FormatError where it is none."""
    for row in rows_of(read_bytes(path)):
        return _horizon_of(row, str(path))
    raise FormatError(path, None, f"{causes.STIMULUS[2]}: the file has no such line")


def parse_stimulus(data: bytes, path: str) -> Stimulus:
    """The stimulus of a file's bytes; `path` is what errors name."""
    stimulus = None
    for row in rows_of(data):
        if row.words[0] == "horizon":
            horizon = _horizon_of(row, path)
            if stimulus is not None:
                raise FormatError(path, row.number, f"{causes.STIMULUS[4]}: horizon")
            stimulus = Stimulus(horizon, unit=unit_in(data))
        else:
            _take(stimulus, row, path)
    if stimulus is None:
        raise FormatError(path, None, f"{causes.STIMULUS[2]}: the file has no such line")
    for settings in stimulus.settings.values():
        settings.sort()
    return stimulus


def _horizon_of(row: Row, path: str) -> int:
    horizon = number_of(row.words[1]) if len(row.words) == 2 else None
    if horizon is None:
        raise FormatError(path, row.number, causes.STIMULUS[1])
    if horizon > MOST_TIME:
        raise FormatError(path, row.number, causes.STIMULUS[3])
    return horizon


def _take(stimulus: Stimulus | None, row: Row, path: str) -> None:
    if len(row.words) != 4 or row.words[0] != "set" or not is_name(row.words[1]):
        raise FormatError(path, row.number, causes.STIMULUS[1])
    name, time, value = row.words[1], number_of(row.words[2]), logic_of(row.words[3])
    if time is None or value is None:
        raise FormatError(path, row.number, causes.STIMULUS[1])
    if stimulus is None:
        raise FormatError(path, row.number, causes.STIMULUS[2])
    if time > MOST_TIME:
        raise FormatError(path, row.number, causes.STIMULUS[3])
    if (name, time) in stimulus.lines:
        raise FormatError(path, row.number, f"{causes.STIMULUS[4]}: line {stimulus.lines[name, time]}")
    stimulus.lines[name, time] = row.number
    stimulus.settings.setdefault(name, []).append((time, value))


def check_stimulus(stimulus: Stimulus, netlist: Netlist, path: str) -> None:
    """FormatError at the first row of a read stimulus file that does not fit the netlist."""
    inputs = set(netlist.inputs)
    for (name, time), line in stimulus.lines.items():
        cause = 11 if name not in netlist else 13 if name not in inputs else 15 if time > stimulus.horizon else None
        if cause:
            raise FormatError(path, line, f"{causes.JOIN[cause]}: {name}")


def write_stimulus(stimulus: Stimulus, stream: TextIO) -> None:
    """Writes the horizon and a line for each setting, by time and then in the order of the inputs in `settings`."""
    stream.write(f"{comment_of(stimulus.unit)}horizon {stimulus.horizon}\n")
    order = {name: place for place, name in enumerate(stimulus.settings)}
    rows = [(time, order[name], name, value) for name, settings in stimulus.settings.items() for time, value in settings]
    stream.writelines(f"set {name} {time} {value}\n" for time, _, name, value in sorted(rows))
