"""From a dump of another simulator: the stimulus of a netlist, the edges of clocks, and replies to compare with.

A unit of time is so many ticks of the dump, or a tick is so many units. A change between two units counts at the later one; where an input
or a clock has such a change, it is refused."""
from __future__ import annotations

from collections.abc import Iterable, Iterator, Sequence
from contextlib import nullcontext

from ..command_line.bars import Bar
from ..errors import FormatError, UsageError, type_of_path
from ..formats.dump_files import MEGABYTE, megabytes_of
from ..formats.netlist import Netlist
from ..formats.script import AtLine, FirstLine, Go, Line, WaveLine
from ..formats.stimulus import Stimulus
from ..formats.timing import Clock
from ..formats.units import Scale, Unit, scale_of, units_of
from ..formats.vcd import Changes, Selection, Vcd, read_vcd, value_at
from ..limits import MOST_TIME
from ..records import dataclass
from .build import constant_value


@dataclass(frozen=True, slots=True)
class Dump:
    """The signals of a scope of a dump, with times in units. `scope` has dots between its parts, as `bench.dut`. Times count from `start`,
    in units from the beginning of the file, and `stop` is the last one that was asked for, None where that is the dump's end."""

    vcd: Vcd
    scope: str
    scale: Scale
    start: int = 0
    stop: int | None = None

    @property
    def unit(self) -> Unit:
        """What a unit of time is."""
        return self.scale.unit

    @property
    def last(self) -> int:
        """The last whole unit that the dump reaches."""
        last = self._base + self.scale.unit_at(self.vcd.last)
        return last if self.stop is None else min(last, self.stop - self.start)

    @property
    def _base(self) -> int:
        """Where the first tick that is kept begins, in units from the start: less than a tick before it."""
        return self.scale.unit_at(self.scale.tick_at(self.start)) - self.start

    def bits(self, names: Iterable[str]) -> dict[str, Changes]:
        """The changes of the bits of these names that are dumped. A single bit is also found as bit 0 of a vector of one bit."""
        names = list(names)
        found = self.vcd.bits(self.scope, {*names, *(f"{name}[0]" for name in names)})
        single = {name: found.get(name, found.get(f"{name}[0]")) for name in names}
        return {name: changes for name, changes in single.items() if changes is not None}

    def in_units(self, changes: Changes) -> list[tuple[int, str]]:
        """The changes at whole units, of those within one unit the last; neighbours differ."""
        units: dict[int, str] = {}
        for tick, value in changes:
            units[max(0, self._base + self.scale.unit_from(tick))] = value
        before = ""
        found = []
        for time, value in units.items():
            if value != before and time <= self.last:
                found.append((time, value))
                before = value
        return found

    def exact(self, name: str, changes: Changes) -> list[tuple[int, str]]:
        """The changes of a signal. FormatError where one is not at a whole unit."""
        between = next((tick for tick, _ in changes if not self.scale.is_whole(tick)), None)
        if between is not None:
            raise FormatError(self.vcd.path, None, f"{self.scope}.{name} changes at {between} ticks, between two units of {self.scale.ticks}: "
                              "give a unit fewer ticks")
        return self.in_units(changes)


@dataclass(frozen=True, slots=True)
class Span:
    """Which part of a dump is read, and what a unit of it is: so many ticks, or so long. `start` and `stop` are times in units, or such as
    `3ms`; `stop` is None where the dump is read to its end."""

    ticks: int = 1
    unit: Unit | None = None
    start: int | str = 0
    stop: int | str | None = None

    def scale(self, vcd: Vcd) -> Scale:
        """The ticks of the dump in units. FormatError where the unit is neither a multiple of the dump's tick nor a divisor of it."""
        tick = Unit(vcd.ticks, vcd.unit)
        try:
            return scale_of(tick, self.unit or tick.times(self.ticks))
        except UsageError as error:
            raise FormatError(vcd.path, None, str(error)) from None

    def units(self, unit: Unit) -> tuple[int, int | None]:
        """The times in units."""
        return units_of(self.start, unit), None if self.stop is None else units_of(self.stop, unit)


def read_dump(path: type_of_path, scope: str, span: Span = Span(), names: Iterable[str] | None = None) -> Dump:
    """A dump, of which the bits of these names are kept, or all. FormatError as of `read_vcd`, where there is no such scope, and where the
    window ends before it begins."""
    wanted = None if names is None else {name for own in names for name in (own, f"{own}[0]")}

    def select(vcd: Vcd) -> Selection:
        scale = span.scale(vcd)
        start, stop = span.units(scale.unit)
        if stop is not None and stop < start:
            raise FormatError(path, None, f"the window ends at {span.stop}, before its beginning at {span.start}")
        vcd.in_scope(scope)
        return Selection(None if wanted is None else vcd.codes(scope, wanted), scale.tick_at(start), None if stop is None else scale.tick_from(stop))

    total = megabytes_of(path)
    bar = Bar(total, "MB", has_lines=True) if total else None
    with bar or nullcontext():
        done = 0

        def progress(count: int) -> None:
            nonlocal done
            done += count
            if bar is not None:
                bar.add((done // MEGABYTE) - (done - count) // MEGABYTE)

        vcd = read_vcd(path, select, progress)
    scale = span.scale(vcd)
    dump = Dump(vcd, scope, scale, *span.units(scale.unit))
    if dump.last < 0:
        raise FormatError(path, None, f"the dump ends at {dump.start + dump.last}, before {dump.start}, where the window begins")
    return dump


def warning_of(dump: Dump) -> list[str]:
    """A line where the dump ends inside a line."""
    vcd = dump.vcd
    return [] if vcd.cut is None else [f"{vcd.path}:{vcd.cut}: the dump ends in the middle: it is taken up to {dump.last + dump.start}"]


def stimulus_of(netlist: Netlist, dump: Dump) -> Stimulus:
    """The stimulus that sets each input as it changes in the dump; the horizon is the last time of it. An input that stands for a
    constant (`vdd`, `gnd`) and is not dumped is set at the time 0. FormatError where another is not dumped, changes between two
    units, or has a value other than 0, 1, x and z, and where the horizon is above 1,000,000."""
    if dump.last > MOST_TIME:
        raise FormatError(dump.vcd.path, None, f"its last time is {dump.last} units, above {MOST_TIME}: take a window of it (--from, "
                          "--to), or a greater unit")
    bits = dump.bits(netlist.inputs)
    stimulus = Stimulus(dump.last, unit=dump.unit)
    for name in netlist.inputs:
        value = constant_value(name)
        if name in bits:
            changes = dump.exact(name, bits[name])
            # an input that is not set is x
            stimulus.settings[name] = changes[1:] if changes[:1] == [(0, "x")] else changes
        elif value is not None:
            stimulus.settings[name] = [(0, value)]
        else:
            raise FormatError(dump.vcd.path, None, f"the input {name} is not dumped in the scope {dump.scope}")
    return stimulus


def clock_of(dump: Dump, name: str, is_falling: bool, may_be_given: bool = True) -> Clock:
    """The clock whose edges are the rises (or falls) of a signal. FormatError where it is not dumped, or its edges are not FIRST,
    FIRST + PERIOD and so on up to the end of the dump, or its first value may be an edge; of such a one the option that states its edges is
    told where it `may_be_given`."""
    bits = dump.bits((name,))
    value, word = ("0", "falls") if is_falling else ("1", "rises")
    if name not in bits:
        raise _fault(dump, f"the clock {name} is not dumped in the scope {dump.scope}")
    changes = dump.exact(name, bits[name])
    edges = [time for time, own in changes if own == value and time <= dump.last]
    if changes[:1] == [(0, value)]:
        later = f"{name}{'_falls' * is_falling}={edges[1]},{edges[2] - edges[1]}" if len(edges) > 2 else "NAME=FIRST,PERIOD"
        raise _fault(dump, f"the clock {name} begins with {value}, and Verilog leaves open whether that is an edge: let it begin with the other value"
                     + f", or state its edges without this one: `from-json --clock {later}`" * may_be_given)
    if len(edges) > 2 and edges[0] == changes[0][0] and edges[1] - edges[0] != edges[2] - edges[1]:
        # a dump that begins later tells the value there, which is no edge
        del edges[0]
    if len(edges) < 2:
        raise _fault(dump, f"the clock {name} has {len(edges)} {word}, too few for a period")
    first, period = edges[0], edges[1] - edges[0]
    wrong = next((edge for place, edge in enumerate(edges) if edge != first + place * period), None)
    if wrong is None and edges[-1] + period <= dump.last:
        wrong = edges[-1] + period
    if wrong is not None:
        raise _fault(dump, f"the clock {name} is not regular: it {word} at {first}, {first + period} and so on, but not so at {wrong}")
    if max(first, period) > MOST_TIME:
        raise _fault(dump, f"the clock {name} has a time above {MOST_TIME}: take a greater unit")
    return Clock(first, period)


def _fault(dump: Dump, cause: str) -> FormatError:
    return FormatError(dump.vcd.path, None, cause)


def replies_of(lines: Sequence[Line], path: type_of_path, dump: Dump) -> Iterator[str]:
    """The replies of the dump to the `wave`, `at` and `first` lines of a script. FormatError at a line of another form, of a signal
    that is not dumped, or of a time after the end of the dump."""
    asked = [line for line in lines if isinstance(line, (WaveLine, AtLine, FirstLine))]
    other = next((line for line in lines if not isinstance(line, (WaveLine, AtLine, FirstLine, Go))), None)
    if other is not None:
        raise FormatError(path, other.number, f"a dump answers `wave`, `at` and `first` lines alone: `{other.text.strip()[:60]}`")
    bits = dump.bits({line.name for line in asked})
    for line in asked:
        if line.name not in bits:
            raise FormatError(path, line.number, f"{line.name} is not dumped in the scope {dump.scope} of {dump.vcd.path}")
        if (line.time + 1 if isinstance(line, AtLine) else line.stop) > dump.last + 1:
            raise FormatError(path, line.number, f"{dump.vcd.path} ends before, at {dump.last}")
    known = {name: dump.in_units(changes) for name, changes in bits.items()}
    for line in asked:
        yield from _reply(line, known[line.name])


def _reply(line: WaveLine | AtLine | FirstLine, changes: list[tuple[int, str]]) -> Iterator[str]:
    if isinstance(line, AtLine):
        yield f"at {line.name} {line.time} {value_at(changes, line.time)}"
        return
    runs = [(line.start, value_at(changes, line.start))] if line.start < line.stop else []
    runs += [change for change in changes if line.start < change[0] < line.stop]
    if isinstance(line, WaveLine):
        yield f"wave {line.name} {line.start} {line.stop}"
        yield from (f"{time} {value}" for time, value in runs)
        yield "end"
    else:
        found = next((str(time) for time, value in runs if value == line.value), "none")
        yield f"first {line.name} {line.value} {line.start} {line.stop} {found}"
