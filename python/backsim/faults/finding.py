"""Finds which looks show which faults, by simulation of settled values. Nobody has to trust it: what it finds is confirmed by the program
(`confirming`)."""
from __future__ import annotations

import time
from collections.abc import Callable, Iterator, Sequence

from ..formats.circuit import Circuit
from ..records import dataclass
from .collapse import FaultClass
from .combinational import Lanes, Line, Observed, Reached, Region, Values, stems_of
from .looks import Patterns, moments
from .network import Network
from .processes import Processes
from .sequential import Detection, Simulation

# looks of a block; the first is short, since most faults are shown by its looks, and need no more
_FIRST_BLOCK, _BLOCK = 256, 2048
_STEMS_AT_ONCE = 128
# the faults of a simulation; with more, most of the time goes into holding lines of other faults
_MOST_FAULTS = 4096
# evaluations of gates from which on several processes are faster than one
_MANY = 2_000_000
_SECONDS = 0.2
Take = Callable[[Detection], None]
Told = Callable[[int], None]


def finder_of(circuit: Circuit, classes: Sequence[FaultClass], times: Sequence[int], drop: int = 1, jobs: int = 1) -> Finder:
    """What finds which of the times, ascending, show which of the classes. A class is followed until `drop` times have shown it, or through
    all where that is 0. ValueError, with the name of a signal on it, where gates make a cycle."""
    network = Network(circuit.netlist)
    kind = SequentialFinder if network.flops else CombinationalFinder
    return kind(network, circuit, classes, times, drop, jobs)


class Finder:
    """`run` gives `take` each detection, those of a class by ascending looks, and tells how much more of `total` is done."""

    total: int
    # how many flip-flops are x at the end, without a fault
    unknown_flops = 0

    def run(self, take: Take, told: Told = lambda count: None) -> None:
        raise NotImplementedError


class CombinationalFinder(Finder):
    """Of a circuit without flip-flops."""

    def __init__(self, network: Network, circuit: Circuit, classes: Sequence[FaultClass], times: Sequence[int], drop: int, jobs: int) -> None:
        self._region = Region(network)
        self._classes = classes
        self._drop = drop
        self._lines = [Line(self._region, own.asked.site) for own in classes]
        self._flips = _Flips(self._region, Patterns(network, circuit, times))
        self._blocks = list(_blocks(len(times)))
        self._stems = len(stems_of(self._region, self._lines))
        self._jobs = jobs if self._stems * len(network.gates) * len(self._blocks) > _MANY else 1
        self.total = self._stems * len(self._blocks)

    def run(self, take: Take, told: Told = lambda count: None) -> None:
        counts = [0] * len(self._classes)
        for observed, left in self._observed(counts, told):
            first = observed.values.block.first_look
            for place in left:
                effect = self._lines[place].effect(observed, self._classes[place].asked)
                for pattern, outputs in effect.first(self._drop - counts[place] if self._drop else 0):
                    counts[place] += 1
                    take(Detection(place, first + pattern, outputs))

    def shown(self, told: Told = lambda count: None) -> list[int]:
        """For each class the looks that show it, a bit for each; with a `drop` of 0 these are all."""
        shown = [0] * len(self._classes)
        for observed, left in self._observed([0] * len(self._classes), told):
            for place in left:
                effect = self._lines[place].effect(observed, self._classes[place].asked)
                shown[place] |= effect.patterns << observed.values.block.first_look
        return shown

    def _observed(self, counts: Sequence[int], told: Told) -> Iterator[tuple[Observed, list[int]]]:
        """For each block what is observable with it, and the classes that are still followed."""
        with Processes(self._flips.of, self._jobs) as processes:
            for start, stop in self._blocks:
                left = [place for place, count in enumerate(counts) if not self._drop or count < self._drop]
                stems = stems_of(self._region, (self._lines[place] for place in left))
                told(self._stems - len(stems))
                reached: dict[int, Reached] = {}
                for part in processes.results(_parts(stems, start, stop)):
                    reached.update(part)
                    told(len(part))
                yield Observed(self._flips.values(start, stop), reached), left


def _blocks(count: int) -> Iterator[tuple[int, int]]:
    start, length = 0, _FIRST_BLOCK
    while start < count:
        yield start, min(count, start + length)
        start, length = start + length, _BLOCK


def _parts(stems: Sequence[int], start: int, stop: int) -> list[tuple[int, int, Sequence[int]]]:
    return [(start, stop, stems[place:place + _STEMS_AT_ONCE]) for place in range(0, len(stems), _STEMS_AT_ONCE)]


class _Flips:
    """Simulates flips with the patterns of a block, whose values it keeps."""

    def __init__(self, region: Region, patterns: Patterns) -> None:
        self._region, self._patterns = region, patterns
        self._block = (0, 0)
        self._values: Values | None = None
        self._lanes: Lanes | None = None

    def values(self, start: int, stop: int) -> Values:
        """The values of all signals with the looks from `start` up to, and not with, `stop`."""
        if self._values is None or self._block != (start, stop):
            self._block, self._values = (start, stop), Values(self._region, self._patterns.block(start, stop))
            self._lanes = None
        return self._values

    def of(self, task: tuple[int, int, Sequence[int]]) -> Iterator[dict[int, Reached]]:
        """What becomes of the flips of some signals with the looks of a block."""
        start, stop, stems = task
        values = self.values(start, stop)
        if self._lanes is None:
            self._lanes = Lanes(values)
        lanes = self._lanes
        for first in range(0, len(stems), lanes.count):
            some = stems[first:first + lanes.count]
            yield dict(zip(some, lanes.flips(some)))


@dataclass(frozen=True, slots=True)
class _Part:
    """What a simulation of some faults found in some more looks; `unknown_flops` is known at its end."""

    looks: int
    detections: list[Detection]
    unknown_flops: int = 0


class SequentialFinder(Finder):
    """Of a circuit with flip-flops."""

    def __init__(self, network: Network, circuit: Circuit, classes: Sequence[FaultClass], times: Sequence[int], drop: int, jobs: int) -> None:
        self._network = network
        self._classes = classes
        self._looks = len(times)
        self._drop = drop
        self._moments = moments(network, circuit, times)
        self._initials = [circuit.timing.initial(network.names[number]) for number, _ in network.flops]
        self._groups = _groups(len(classes), jobs)
        # a gate takes longer with more faults
        is_much = len(network.gates) * len(self._moments) * len(classes) > 100 * _MANY
        self._jobs = min(jobs, len(self._groups)) if is_much else 1
        self.total = self._looks * len(self._groups)

    def run(self, take: Take, told: Told = lambda count: None) -> None:
        with Processes(self._simulate, self._jobs) as processes:
            for part in processes.results(self._groups):
                for detection in part.detections:
                    take(detection)
                self.unknown_flops = max(self.unknown_flops, part.unknown_flops)
                told(part.looks)

    def _simulate(self, group: range) -> Iterator[_Part]:
        simulation = Simulation(self._network, self._initials, [self._classes[place].asked for place in group], self._drop)
        came: list[Detection] = []
        begun, said = time.monotonic(), 0
        for looks, look in enumerate(simulation.run(self._moments), 1):
            came += (Detection(group.start + one.fault, one.look, one.outputs) for one in look)
            if time.monotonic() - begun > _SECONDS:
                yield _Part(looks - said, came)
                came, begun, said = [], time.monotonic(), looks
        yield _Part(self._looks - said, came, simulation.unknown_flops())


def _groups(count: int, jobs: int) -> list[range]:
    """Faults in groups of nearly one size, as many as there are processes or a multiple of that."""
    number = max(1, min(count, jobs * -(-count // (_MOST_FAULTS * jobs))))
    ends = [count * place // number for place in range(number + 1)]
    return [range(start, stop) for start, stop in zip(ends, ends[1:])]
