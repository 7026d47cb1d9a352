"""A window of a long dump: the clocks shifted to its beginning, and the flip-flops with the values that they have there.

Gates need the longest path's time until what they show comes from the window alone. So the edges up to then are left out: the clocks begin
with the first edge after a pause, and the flip-flops with the values of the dump directly before it."""
from __future__ import annotations

from collections.abc import Iterable
from dataclasses import field, replace

from ..circuit.kinds import Kind
from ..circuit.settling import arrivals
from ..errors import FormatError, type_of_path
from ..formats.netlist import Gate, Netlist, in_order
from ..formats.timing import Clock, Timing
from ..formats.vcd import value_at
from ..limits import MOST_TIME
from ..records import dataclass
from .dump import Dump

_DEPTH = 3
_SHOWN = 5


@dataclass(frozen=True, slots=True)
class Begin:
    """How a window begins: the time from which on the flip-flops are those of the dump, in units from the dump's beginning, and the
    clocks from the window's."""

    time: int
    clock: Clock | None
    clocks: dict[str, Clock]


@dataclass(slots=True)
class Window:
    """The timing of a window, the flip-flops that begin with x since the dump does not have them, and what is to be told."""

    timing: Timing
    lost: list[str] = field(default_factory=list)
    notes: list[str] = field(default_factory=list)


def longest_path(netlist: Netlist, timing: Timing, path: type_of_path) -> int:
    """The longest time from a change of an input, or an edge, to any signal. FormatError where gates make a cycle."""
    sources = dict.fromkeys(netlist.inputs, 0) | {flop.name: timing.delay(flop) for flop in netlist.flops()}
    try:
        return max(arrivals(timing, in_order(netlist), sources).values(), default=0)
    except ValueError as cycle:
        raise FormatError(path, netlist.gates[str(cycle)].line, f"the gates of {cycle} make a cycle, so no window of a dump begins settled") from None


def begin_of(timing: Timing, start: int, longest: int) -> Begin:
    """The beginning of a window at the time `start`: the clocks' first edges after the longest pause that begins once the longest path's
    time has passed."""
    used = [clock for clock in (timing.clock, *timing.clocks.values()) if clock is not None]
    settled = start + longest
    time = settled
    if used:
        shortest = min(clock.period for clock in used)
        edges = sorted({edge for clock in used for edge in _edges(clock, settled, settled + 2 * shortest)})
        pauses = [(after - before, -before, after) for before, after in zip(edges, edges[1:])]
        time = max(pauses)[2] if pauses else max(edges, default=settled)

    def shifted(clock: Clock) -> Clock:
        return Clock(_first(clock, time) - start, clock.period)

    return Begin(time, timing.clock and shifted(timing.clock), {name: shifted(clock) for name, clock in timing.clocks.items()})


def _first(clock: Clock, time: int) -> int:
    """The first edge at the time or after it."""
    return clock.first + max(0, -(-(time - clock.first) // clock.period)) * clock.period


def _edges(clock: Clock, start: int, stop: int) -> Iterable[int]:
    first = _first(clock, start)
    return range(first, max(stop, first) + 1, clock.period)


def names_for(netlist: Netlist) -> set[str]:
    """The names of which a dump may tell the values of the flip-flops: themselves, and gates that show them."""
    fanout = netlist.fanout()
    found = {flop.name for flop in netlist.flops()}
    last = set(found)
    for _ in range(_DEPTH):
        last = {reader for name in last for reader in fanout[name] if _shows(netlist.gates[reader], name)} - found
        found |= last
    return found


def _shows(gate: Gate, name: str) -> bool:
    """Whether a gate shows a signal, or its negation: it has one pin, or is the gate of a set or reset behind a flip-flop."""
    return gate.kind is not Kind.DFF and gate.pins[0] == name and (len(gate.pins) == 1 or len(gate.pins) == 2 and gate.kind in (Kind.AND, Kind.OR))


def window_of(netlist: Netlist, timing: Timing, dump: Dump, begin: Begin) -> Window:
    """The timing of a window. FormatError where a clock's first edge is more than 1,000,000 units after its beginning."""
    clocks = [("clock", begin.clock), *begin.clocks.items()]
    for name, clock in clocks:
        if clock is not None and clock.first > MOST_TIME:
            raise FormatError(dump.vcd.path, None, f"the first edge of {name} is {clock.first} units after the window's beginning, above {MOST_TIME}: "
                              "let it begin later, or take a greater unit")
    bits = dump.bits(names_for(netlist))
    fanout = netlist.fanout()
    known = {name: value_at(dump.in_units(changes), begin.time - 1 - dump.start) for name, changes in bits.items()}
    initials: dict[str, str] = {}
    states: dict[tuple[str, str | None], str] = {}
    for flop in netlist.flops():
        value = _value_of(flop.name, netlist, known, fanout, _DEPTH)
        if value in ("0", "1"):
            initials[flop.name] = value
            states[flop.pins[0], timing.clocked.get(flop.name)] = value
    lost = []
    for flop in netlist.flops():
        # flip-flops of one pin and clock have one state
        value = initials.get(flop.name) or states.get((flop.pins[0], timing.clocked.get(flop.name)))
        if value:
            initials[flop.name] = value
        elif _value_of(flop.name, netlist, known, fanout, _DEPTH) is None:
            lost.append(flop.name)
    made = Window(replace(timing, clock=begin.clock, clocks=begin.clocks, initials=initials, lines={}), lost)
    made.notes.append(f"the flip-flops are those of the dump from {begin.time} on, {begin.time - dump.start} in the window; gates before it may be x")
    if lost:
        made.notes.append(f"{len(lost)} flip-flops are not dumped, and begin with x: {', '.join(lost[:_SHOWN])}{' ...' * (len(lost) > _SHOWN)}")
    return made


def _value_of(name: str, netlist: Netlist, known: dict[str, str], fanout: dict[str, tuple[str, ...]], depth: int) -> str | None:
    """The value of a signal by the dump, or by a gate that shows it; None where neither is dumped."""
    if name in known:
        return known[name]
    for reader in fanout[name] if depth else ():
        gate = netlist.gates[reader]
        if _shows(gate, name):
            value = _value_of(reader, netlist, known, fanout, depth - 1)
            if value is not None:
                return {"0": "1", "1": "0"}.get(value, value) if gate.kind.inverts else value
    return None
