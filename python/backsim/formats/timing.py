"""The timing file: delays, clocks and initial values (docs/use/FORMATS.md, The timing file)."""
from __future__ import annotations

import re
from dataclasses import field
from typing import Any, TextIO, Union

from ..circuit.kinds import Kind, kind_of
from ..errors import FormatError, type_of_path
from ..limits import MOST_PINS_OF_A_GATE, MOST_TIME
from ..records import dataclass
from . import causes
from .netlist import Gate, Netlist
from .text import is_name, number_of, read_for, rows_of
from .units import Unit, comment_of, unit_in

INITIALS = ("0", "1", "x")
Key = tuple[Union[str, int], ...]
# the name of a clock that from-sdf makes of another
_SHIFTED = re.compile(r"(.+)([+-][0-9]{1,7})")


@dataclass(frozen=True, slots=True)
class Clock:
    """Edges at `first`, `first + period` and so on; `first` is 0 to 1,000,000, `period` 1 to 1,000,000."""

    first: int
    period: int

    def edges(self, horizon: int) -> range:
        """The edges up to the horizon."""
        return range(self.first, horizon + 1, self.period)


@dataclass(frozen=True, slots=True)
class Edges:
    """When a flip-flop takes its pin: `shift` after the edges of the clock, whose name is empty where it has none."""

    name: str
    clock: Clock
    shift: int


@dataclass(slots=True)
class Timing:
    """What a timing file states. Delays are 1 to 1,000,000. `clock` is the clock without a name; `clocks` are those with one, and
    `clocked` has the clock's name of a flip-flop. `unit` says what a unit of time is, where a comment of the file does. `lines` has the line of each statement, by its form and what it is about, where
    the timing was read from a file."""

    default: int | None = None
    kind_delays: dict[Kind, int] = field(default_factory=dict)
    delays: dict[str, int] = field(default_factory=dict)
    pin_delays: dict[tuple[str, int], int] = field(default_factory=dict)
    clock: Clock | None = None
    clocks: dict[str, Clock] = field(default_factory=dict)
    clocked: dict[str, str] = field(default_factory=dict)
    initials: dict[str, str] = field(default_factory=dict)
    unit: Unit | None = None
    lines: dict[Key, int] = field(default_factory=dict, repr=False, compare=False)

    def delay(self, gate: Gate, pin: int = 0) -> int:
        """The delay of a pin of the gate, counted from 0; of a flip-flop there is the one of pin 0."""
        stated = (self.pin_delays.get((gate.name, pin)), self.delays.get(gate.name), self.kind_delays.get(gate.kind), self.default)
        return next((delay for delay in stated if delay is not None), 1)

    def clock_of(self, flop: str) -> Clock | None:
        """The clock of the flip-flop, or None where it has none and keeps its initial value."""
        name = self.clocked.get(flop)
        return self.clock if name is None else self.clocks[name]

    def edges_of(self, flop: str) -> Edges | None:
        """When the flip-flop takes its pin, None where it has no clock. A clock `clk+3` with the edges of `clk`, 3 later, is that clock
        here: from-sdf makes such of what gates and wires before a pin take."""
        own = self.clock_of(flop)
        if own is None:
            return None
        name = self.clocked.get(flop, "")
        parts = _SHIFTED.fullmatch(name)
        if parts:
            shift = int(parts[2])
            for origin, clock in ((parts[1], self.clocks.get(parts[1])), ("", self.clock if parts[1] == "clock" else None)):
                if clock is not None and (clock.first + shift, clock.period) == (own.first, own.period):
                    return Edges(origin, clock, shift)
        return Edges(name, own, 0)

    def initial(self, flop: str) -> str:
        """The initial value of the flip-flop: `0`, `1` or `x`."""
        return self.initials.get(flop, "x")


def read_timing(path: type_of_path, netlist: Netlist | None = None) -> Timing:
    """The timing of a file. FormatError where the program refuses the file, or, with a netlist, a row of it for that netlist."""
    return read_for(netlist, path, parse_timing, check_timing)


def parse_timing(data: bytes, path: str) -> Timing:
    """The timing of a file's bytes; `path` is what errors name."""
    timing = Timing(unit=unit_in(data))
    is_second = False
    for place, row in enumerate(rows_of(data)):
        if place == 0 and row.words == ("version", "2"):
            is_second = True
            continue
        try:
            key, value = _statement(row.words, is_second)
        except _Cause as cause:
            raise FormatError(path, row.number, causes.TIMING[cause.number]) from None
        if key in timing.lines:
            raise FormatError(path, row.number, f"{causes.TIMING[3]}: line {timing.lines[key]}")
        timing.lines[key] = row.number
        _store(timing, key, value)
    return timing


class _Cause(Exception):
    """A line has none of the forms (1), or a number is out of its range (2)."""

    def __init__(self, number: int) -> None:
        super().__init__()
        self.number = number


def _statement(words: tuple[str, ...], is_second: bool) -> tuple[Key, Any]:
    """What a line states, as its form with what it is about, and the value."""
    word, stated = words[0], words[1:]
    if word == "clock" and (len(stated) == 2 or len(stated) == 3 and is_second and is_name(stated[0])):
        first, period = stated[-2:]
        return ("clock", *stated[:-2]), Clock(*_numbers((first, 0, MOST_TIME), (period, 1, MOST_TIME)))
    if word == "default" and len(stated) == 1:
        return ("default",), _numbers((stated[0], 1, MOST_TIME))[0]
    if len(stated) == 2:
        name, value = stated
        if word == "default" and (kind := kind_of(name)):
            return ("default", kind.value), _numbers((value, 1, MOST_TIME))[0]
        if word == "delay" and is_name(name):
            return ("delay", name), _numbers((value, 1, MOST_TIME))[0]
        if word == "init" and is_name(name) and value.lower() in INITIALS:
            return ("init", name), value.lower()
        if word == "clocked" and is_second and is_name(name) and is_name(value):
            return ("clocked", name), value
    if word == "pin" and len(stated) == 3 and is_second and is_name(stated[0]):
        numbers = _numbers((stated[1], 0, MOST_PINS_OF_A_GATE - 1), (stated[2], 1, MOST_TIME))
        return ("pin", stated[0], numbers[0]), numbers[1]
    raise _Cause(1)


def _numbers(*parts: tuple[str, int, int]) -> tuple[int, ...]:
    """The numbers of words with their ranges."""
    numbers = tuple(number for number in (number_of(word) for word, _, _ in parts) if number is not None)
    if len(numbers) != len(parts):
        raise _Cause(1)
    if not all(least <= number <= most for number, (_, least, most) in zip(numbers, parts)):
        raise _Cause(2)
    return numbers


def _store(timing: Timing, key: Key, value: Any) -> None:
    form, about = key[0], key[1:]
    if not about:
        setattr(timing, str(form), value)
        return
    name = str(about[0])
    if form == "clock":
        timing.clocks[name] = value
    elif form == "default":
        timing.kind_delays[Kind(name)] = value
    elif form == "delay":
        timing.delays[name] = value
    elif form == "init":
        timing.initials[name] = value
    elif form == "pin":
        timing.pin_delays[name, int(about[1])] = value
    elif form == "clocked":
        timing.clocked[name] = value


def check_timing(timing: Timing, netlist: Netlist, path: str) -> None:
    """FormatError at the first row of a read timing file that does not fit the netlist."""
    for key, line in timing.lines.items():
        cause = _join_cause(key, timing, netlist)
        if cause:
            raise FormatError(path, line, f"{causes.JOIN[cause]}: {' '.join(map(str, key[1:]))}")


def _join_cause(key: Key, timing: Timing, netlist: Netlist) -> int | None:
    form = key[0]
    if form in ("clock", "default"):
        return None
    name = str(key[1])
    gate = netlist.gates.get(name)
    if name not in netlist:
        return 11
    if form == "delay" and gate is None:
        return 12
    if form in ("init", "clocked") and (gate is None or gate.kind is not Kind.DFF):
        return 14
    if form == "pin" and (gate is None or gate.kind is Kind.DFF or int(key[2]) >= len(gate.pins)):
        return 18
    if form == "clocked" and timing.clocked[name] not in timing.clocks:
        return 19
    return None


def write_timing(timing: Timing, stream: TextIO) -> None:
    """Writes a timing file, with a comment for the unit, and then `version 2`, where a form needs it, first."""
    stream.write(comment_of(timing.unit))
    if timing.pin_delays or timing.clocks or timing.clocked:
        stream.write("version 2\n")
    if timing.clock:
        stream.write(f"clock {timing.clock.first} {timing.clock.period}\n")
    stream.writelines(f"clock {name} {clock.first} {clock.period}\n" for name, clock in timing.clocks.items())
    if timing.default is not None:
        stream.write(f"default {timing.default}\n")
    stream.writelines(f"default {kind.value} {delay}\n" for kind, delay in timing.kind_delays.items())
    stream.writelines(f"delay {name} {delay}\n" for name, delay in timing.delays.items())
    stream.writelines(f"pin {name} {place} {delay}\n" for (name, place), delay in timing.pin_delays.items())
    stream.writelines(f"clocked {flop} {clock}\n" for flop, clock in timing.clocked.items())
    stream.writelines(f"init {flop} {value}\n" for flop, value in timing.initials.items())
