"""Whether gates have settled before each clock edge, so that flip-flops take what they would if gates took no time."""
from __future__ import annotations

from bisect import bisect_left, bisect_right
from collections.abc import Callable, Iterable, Mapping, Sequence
from operator import itemgetter

from ..formats.netlist import Gate, Netlist, in_order
from ..formats.stimulus import Stimulus
from ..formats.timing import Timing
from ..records import dataclass
from .kinds import Kind

INPUTS = "inputs"


@dataclass(frozen=True, slots=True)
class Pair:
    """The paths from a source, the inputs or a clock's flip-flops, to the pins of a clock's flip-flops: the longest, with the flip-flop
    to which it leads, and the shortest; and the shortest time from a change of the source to the next edge. A path counts from and to the
    edges of the clocks; where flip-flops take their pins later or earlier than these, it is shorter or longer by so much. `is_late` says
    that the longest path is longer than the time, or that an input that a flip-flop's gates look at changes at an edge itself: the time is
    0 then, `at_edge` the first such edge, and `movers` the inputs. `is_early` says that by the shortest path a flip-flop takes at an edge
    what changes at that edge or after it."""

    source: str
    clock: str
    path: int
    flop: str
    shortest: int
    time: int
    is_early: bool
    at_edge: int | None = None
    movers: tuple[str, ...] = ()

    @property
    def is_late(self) -> bool:
        return self.path > self.time or self.time == 0


@dataclass(frozen=True, slots=True)
class Settling:
    """What was found: the pairs of a source and a clock; the longest path to any signal, so that so long after the last change of an
    input and the last edge each signal has its settled value; whether an input that a gate or flip-flop reads changes after time 0 at
    all; and the flip-flops that have no clock."""

    pairs: tuple[Pair, ...]
    longest: int
    has_changes: bool
    unclocked: tuple[str, ...]


def arrivals(timing: Timing, gates: Iterable[Gate], sources: Mapping[str, int], chosen: Callable[[Iterable[int]], int] = max) -> dict[str, int]:
    """The longest time from a change at the sources to each signal that they reach, or with `min` the shortest; `gates` come after those
    that they read."""
    found = dict(sources)
    for gate in gates:
        seen = [found[pin] + timing.delay(gate, place) for place, pin in enumerate(gate.pins) if pin in found]
        if seen:
            found[gate.name] = chosen(seen)
    return found


def settle(netlist: Netlist, timing: Timing, stimulus: Stimulus) -> Settling:
    """Compares paths and times. ValueError, with the name of a signal on it, where gates make a cycle."""
    gates = tuple(in_order(netlist))
    flops: dict[str, list[Gate]] = {}
    edges: dict[str, range] = {}
    shifts: dict[str, int] = {}
    unclocked: list[str] = []
    for flop in netlist.flops():
        taken = timing.edges_of(flop.name)
        if taken is None:
            unclocked.append(flop.name)
            continue
        name = f"clock {taken.name}".strip()
        flops.setdefault(name, []).append(flop)
        edges[name] = taken.clock.edges(stimulus.horizon)
        shifts[flop.name] = taken.shift
    read = {pin for gate in netlist.gates.values() for pin in gate.pins}
    changes = {name: {time for time, _ in stimulus.changes(name) if time > 0} for name in netlist.inputs if name in read}
    seen_by = {name: [own for own in _inputs_of(netlist, own_flops) if own in changes] for name, own_flops in flops.items()}
    starts: dict[str, dict[str, int]] = {INPUTS: dict.fromkeys(netlist.inputs, 0)}
    starts |= {name: {flop.name: timing.delay(flop) + shifts[flop.name] for flop in own} for name, own in flops.items()}
    pairs: list[Pair] = []
    longest = 0
    for source, sources in starts.items():
        latest = arrivals(timing, gates, sources)
        longest = max(longest, *latest.values(), 0)
        earliest = arrivals(timing, gates, sources, min) if any(shifts.values()) else latest
        for clock, own in flops.items():
            seen = seen_by[clock] if source == INPUTS else []
            times = sorted(set().union(*(changes[name] for name in seen))) if source == INPUTS else edges[source]
            paths = [(latest[pin] - shifts[flop.name], flop.name) for flop in own if (pin := flop.pins[0]) in latest]
            gaps, waits = _gaps(source, times, edges[clock])
            if paths and gaps:
                shortest = min(earliest[pin] - shifts[flop.name] for flop in own if (pin := flop.pins[0]) in earliest)
                path, name = max(paths, key=itemgetter(0))
                at_edge = next((time for time in times if time in edges[clock]), None) if source == INPUTS else None
                movers = tuple(name for name in seen if at_edge in changes[name])
                pairs.append(Pair(source, clock, path, name, shortest, min(gaps), bool(waits) and shortest + min(waits) <= 0, at_edge, movers))
    return Settling(tuple(pairs), longest, any(changes.values()), tuple(unclocked))


def _inputs_of(netlist: Netlist, flops: Iterable[Gate]) -> list[str]:
    """The inputs from which ways through gates lead to the pins of flip-flops, in the order of the netlist."""
    found: set[str] = set()
    left = [pin for flop in flops for pin in flop.pins]
    while left:
        name = left.pop()
        if name not in found:
            found.add(name)
            gate = netlist.gates.get(name)
            if gate is not None and gate.kind is not Kind.DFF:
                left.extend(gate.pins)
    return [name for name in netlist.inputs if name in found]


def _gaps(source: str, times: Sequence[int], edges: Iterable[int]) -> tuple[list[int], list[int]]:
    """The times from a change of the source to each edge after it, and from each edge to the change that comes then."""
    # a flip-flop that changes at an edge shows it later
    last = bisect_right if source == INPUTS else bisect_left
    places = [(edge, last(times, edge)) for edge in edges]
    return [edge - times[place - 1] for edge, place in places if place], [times[place] - edge for edge, place in places if place < len(times)]
