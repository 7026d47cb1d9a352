"""What a unit of time is: `10 ps` in a comment `# unit 10 ps` at the head of a timing file or a stimulus, which the program passes over,
and times that are said in seconds, as `15ns`."""
from __future__ import annotations

import os
import re
from fractions import Fraction
from typing import Union

from ..errors import FormatError, UsageError, type_of_path
from ..records import dataclass

# a time in units, or such as `15ns`
Moment = Union[int, str]
_HEAD = 4096
SECONDS = {"s": 0, "ms": 3, "us": 6, "ns": 9, "ps": 12, "fs": 15}
_TIME = re.compile(r"([0-9]{1,18}(?:\.[0-9]{1,18})?)\s*(s|ms|us|ns|ps|fs)")
_COMMENT = re.compile(rb"[ \t]*#[ \t]*unit[ \t]+([0-9]{1,18})[ \t]*(s|ms|us|ns|ps|fs)[ \t\r]*")


@dataclass(frozen=True, slots=True)
class Unit:
    """A unit of time: so many of `s`, `ms`, `us`, `ns`, `ps` or `fs`, at least one."""

    count: int
    word: str

    @property
    def seconds(self) -> Fraction:
        return Fraction(self.count, 10 ** SECONDS[self.word])

    def __str__(self) -> str:
        return f"{self.count} {self.word}"

    def times(self, count: int) -> Unit:
        """So many of it, in words of at most 999."""
        whole, words = self.count * count, list(SECONDS)
        place = words.index(self.word)
        while whole % 1000 == 0 and place > 0:
            whole, place = whole // 1000, place - 1
        return Unit(whole, words[place])


@dataclass(frozen=True, slots=True)
class Scale:
    """The ticks of a dump in units of time: `ticks` of them are `units` units, and one of the two numbers is 1. Ticks and units count from
    one beginning."""

    unit: Unit
    ticks: int = 1
    units: int = 1

    def is_whole(self, tick: int) -> bool:
        """Whether a unit begins at the tick."""
        return tick * self.units % self.ticks == 0

    def unit_at(self, tick: int) -> int:
        """The last unit that begins at the tick or before it."""
        return tick * self.units // self.ticks

    def unit_from(self, tick: int) -> int:
        """The first unit that begins at the tick or after it."""
        return -(-tick * self.units // self.ticks)

    def tick_at(self, unit: int) -> int:
        """The last tick at the beginning of the unit or before it."""
        return unit * self.ticks // self.units

    def tick_from(self, unit: int) -> int:
        """The first tick at the beginning of the unit or after it."""
        return -(-unit * self.ticks // self.units)


def scale_of(tick: Unit, unit: Unit) -> Scale:
    """The scale of a dump whose tick this is. UsageError where the unit is neither a multiple of the tick nor a divisor of it."""
    ticks = unit.seconds / tick.seconds
    if 1 not in (ticks.numerator, ticks.denominator):
        common = Unit(int(tick.seconds / ticks.denominator * 10 ** SECONDS["fs"]), "fs").times(1)
        raise UsageError(f"a tick of it is {tick}, and {unit} is neither a multiple nor a divisor of that: {common} is a divisor of both")
    return Scale(unit, ticks.numerator, ticks.denominator)


def is_time(text: str) -> bool:
    """Whether the text is a time such as `15ns`."""
    return _TIME.fullmatch(text.strip()) is not None


def unit_of(text: str) -> Unit | None:
    """The unit that a text like `10ps` or `10 ps` states; None where it is none."""
    parts = _TIME.fullmatch(text.strip())
    return Unit(int(parts[1]), parts[2]).times(1) if parts and parts[1].isdigit() and int(parts[1]) else None


def unit_in(data: bytes) -> Unit | None:
    """The unit that a comment above the first line of a file that isn't blank states; None where none does."""
    begin = 0
    while begin < len(data):
        end = data.find(b"\n", begin)
        line = data[begin:end if end >= 0 else len(data)]
        parts = _COMMENT.fullmatch(line)
        if parts and int(parts[1]):
            return Unit(int(parts[1]), parts[2].decode()).times(1)
        if line.partition(b"#")[0].strip() or end < 0:
            return None
        begin = end + 1
    return None


def unit_of_file(path: type_of_path) -> Unit | None:
    """The unit that a file states at its head; None where none is stated, it can't be read, or it is a pipe."""
    try:
        if not os.path.isfile(path):
            return None
        with open(path, "rb") as file:
            return unit_in(file.read(_HEAD))
    except (OSError, ValueError):
        return None


def comment_of(unit: Unit | None) -> str:
    """The line that states the unit; nothing where it is not known."""
    return f"# unit {unit}\n" if unit else ""


def check_units(first: Unit | None, second: Unit | None, path: type_of_path) -> None:
    """FormatError, of the second's file, where both units are known and differ."""
    if first and second and first.seconds != second.seconds:
        raise FormatError(path, None, f"its unit of time is {second}, and that of the timing file is {first}")


def units_of(time: Moment, unit: Unit | None) -> int:
    """A time in units: a number as it is, a text like `15ns` by the unit. UsageError where it is no time, the unit is not known, or the
    time is between two units."""
    if not isinstance(time, str):
        return time
    if re.fullmatch("[0-9]{1,18}", time):
        return int(time)
    parts = _TIME.fullmatch(time.strip())
    if parts is None:
        raise UsageError(f"`{time}` is no time: a number of units is wanted, or one of s, ms, us, ns, ps or fs, as 15ns")
    if unit is None:
        raise UsageError(f"what {time} is in units is not known: the files have no line `# unit ..`")
    units = Fraction(parts[1]) / 10 ** SECONDS[parts[2]] / unit.seconds
    if units.denominator != 1:
        raise UsageError(f"{time} is between two units of {unit}")
    return int(units)


def units_until(time: Moment, unit: Unit | None, last: int, what: str = "the horizon", beyond: int = 0) -> int:
    """A time in units, as of `units_of`. UsageError, in the words of the user, also where a text like `15ns` is after the time `last`, which
    is `what`, by more than `beyond`; who asks for a number tells of that."""
    units = units_of(time, unit)
    if isinstance(time, str) and units > last + beyond:
        raise UsageError(f"{time} is {units:,} units of {unit}, after {what}, {last:,}")
    return units
