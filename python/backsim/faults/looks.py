"""What happens over time, as a simulation of settled values takes it: settings of inputs, edges of clocks, and looks of the tester.

Delays are at least 1. So at its own time a setting or an edge changes no gate yet: a look sees the gates, and an edge the gates at a
flip-flop's pin, as they settled before. An input that is an output, or at a flip-flop's pin, is seen with the setting itself."""
from __future__ import annotations

from bisect import bisect_left, bisect_right
from collections.abc import Callable, Iterable, Iterator, Sequence
from dataclasses import field

from ..circuit.settling import Pair, arrivals, settle
from ..formats.circuit import Circuit
from ..formats.netlist import in_order
from ..formats.timing import Clock
from ..records import dataclass
from .combinational import Block
from .network import Network, Rails


@dataclass(slots=True)
class Moment:
    """A time at which something happens: settings, each an input's number and its value; the flip-flops, by their places among all, that
    have an edge; and the number of the look, -1 where the tester does not look."""

    settings: list[tuple[int, str]] = field(default_factory=list)
    edges: list[int] = field(default_factory=list)
    look: int = -1


def moments(network: Network, circuit: Circuit, times: Sequence[int], start: int = 0) -> list[Moment]:
    """All times from `start` to the last look at which something happens, ascending."""
    last = times[-1]
    found: dict[int, Moment] = {time: Moment(look=look) for look, time in enumerate(times)}
    for name, settings in circuit.stimulus.settings.items():
        for time, value in settings:
            if start <= time <= last:
                found.setdefault(time, Moment()).settings.append((network.number[name], value))
    for place, (number, _) in enumerate(network.flops):
        taken = circuit.timing.edges_of(network.names[number])
        for time in _edges(taken.clock, start, last) if taken else ():
            found.setdefault(time, Moment()).edges.append(place)
    return [found[time] for time in sorted(found)]


def _edges(clock: Clock, start: int, last: int) -> range:
    skipped = max(0, -(-(start - clock.first) // clock.period))
    return clock.edges(last)[skipped:]


class Patterns:
    """What the looks of a tester see of the inputs of a circuit without flip-flops, a bit for each look."""

    def __init__(self, network: Network, circuit: Circuit, times: Sequence[int]) -> None:
        self.count = len(times)
        settings = [circuit.stimulus.settings.get(name, []) for name in network.names[:network.inputs]]
        self._sources = [_rails(own, times, bisect_left) for own in settings]
        self._direct = {number: _rails(settings[number], times, bisect_right) for number in network.outputs if number < network.inputs}

    def block(self, start: int, stop: int) -> Block:
        """The looks from `start` up to, and not with, `stop`; before them stands the last look of the block before, where there is one."""
        fresh = (1 << stop - start) - 1 << (start > 0)
        start -= start > 0
        every = (1 << stop - start) - 1

        def part(rails: Rails) -> Rails:
            return rails[0] >> start & every, rails[1] >> start & every

        return Block(start, every, fresh, [part(rails) for rails in self._sources], {number: part(rails) for number, rails in self._direct.items()})


def _rails(settings: Sequence[tuple[int, str]], times: Iterable[int], place_of: Callable[[Sequence[int], int], int]) -> Rails:
    """The value at each look: that of the last setting before it, or with `bisect_right` of the last that is not after it."""
    set_at = [time for time, _ in settings]
    values = ["x", *(value for _, value in settings)]
    seen = [values[place_of(set_at, time)] for time in times]
    seen.reverse()
    return _bits(seen, "1"), _bits(seen, "0")


def _bits(seen: Iterable[str], value: str) -> int:
    return int("".join("1" if own == value else "0" for own in seen), 2)


def warnings(circuit: Circuit, times: Sequence[int]) -> list[str]:
    """What may make the program's answers differ from a simulation of settled values, a line each: outputs that have not settled when
    the tester looks, and flip-flops that take what has not. ValueError, with the name of a signal on it, where gates make a cycle."""
    pairs = settle(circuit.netlist, circuit.timing, circuit.stimulus).pairs
    return [*_late_looks(circuit, times), *_wrong_edges(pairs)]


def _late_looks(circuit: Circuit, times: Sequence[int]) -> Iterator[str]:
    gates = tuple(in_order(circuit.netlist))
    late: set[int] = set()
    longest = shortest = 0
    for sources, changes in _sources(circuit):
        latest = arrivals(circuit.timing, gates, sources)
        path = max((latest[name] for name in circuit.netlist.outputs if name in latest), default=0)
        for time in times:
            place = bisect_left(changes, time)
            if place and time - changes[place - 1] < path:
                late.add(time)
                if path > longest:
                    longest, shortest = path, time - changes[place - 1]
                elif path == longest:
                    shortest = min(shortest, time - changes[place - 1])
    if late:
        yield (f"outputs may not have settled at {len(late)} of {len(times)} looks: the longest path to them is {longest}, and a look comes "
               f"{shortest} after a change")


def _sources(circuit: Circuit) -> Iterator[tuple[dict[str, int], Sequence[int]]]:
    """What starts changes, with what it takes to show them, and when: the inputs, and the flip-flops of each clock."""
    inputs = circuit.netlist.inputs
    yield dict.fromkeys(inputs, 0), sorted({time for name in inputs for time, _ in circuit.stimulus.changes(name)})
    flops: dict[Clock, dict[str, int]] = {}
    for flop in circuit.netlist.flops():
        taken = circuit.timing.edges_of(flop.name)
        if taken is not None:
            flops.setdefault(taken.clock, {})[flop.name] = circuit.timing.delay(flop) + taken.shift
    for clock, sources in flops.items():
        yield sources, clock.edges(circuit.stimulus.horizon)


def _wrong_edges(pairs: Sequence[Pair]) -> Iterator[str]:
    late = [pair for pair in pairs if pair.is_late]
    if late:
        worst = max(late, key=lambda pair: pair.path - pair.time)
        yield (f"flip-flops may take what has not settled: from {worst.source} to {worst.clock} the longest path is {worst.path}, the "
               f"shortest time {worst.time} (`backsim-tools settled` says it of all clocks)")
    early = [pair for pair in pairs if pair.is_early]
    if early:
        worst = min(early, key=lambda pair: pair.shortest)
        yield (f"flip-flops may take at an edge what changes at that edge or after it: from {worst.source} to {worst.clock} the shortest path "
               f"is {worst.shortest} (`backsim-tools settled` says it of all clocks)")
