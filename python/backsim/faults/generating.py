"""Random patterns, kept where they show something new."""
from __future__ import annotations

import random
from collections.abc import Callable, Sequence
from dataclasses import field

from ..convert.patterns import Patterns, stimulus_of
from ..formats.circuit import Circuit
from ..limits import MOST_TIME
from ..records import dataclass
from .collapse import FaultClass
from .finding import finder_of
from .looks import moments
from .network import Network
from .request import usual_times
from .sequential import Detection, Simulation

_AT_ONCE = 256
# of a circuit with flip-flops a part of a sequence is kept or not as a whole
_PART = 32


@dataclass(slots=True)
class Search:
    """What is looked for, and what was found: patterns until `wanted` of the classes are shown, `idle` patterns in turn show nothing new,
    or `most` were tried. `kept` are those that show something new (with flip-flops also those before them in their part of the
    sequence), `shown` is how many classes they show."""

    classes: Sequence[FaultClass]
    inputs: tuple[str, ...]
    draw: random.Random
    wanted: int
    idle: int
    most: int
    kept: list[str] = field(default_factory=list)
    shown: int = 0
    tried: int = 0
    _since: int = 0

    def goes_on(self) -> bool:
        """Whether more is to be tried."""
        return self.shown < self.wanted and self._since < self.idle and self.tried < self.most

    def words(self, count: int) -> list[str]:
        """Random patterns, at most so many."""
        count = min(count, self.most - self.tried)
        return ["".join(self.draw.choice("01") for _ in self.inputs) for _ in range(count)]

    def take(self, words: Sequence[str], shown: Sequence[int], tried: int) -> None:
        """Takes patterns that are kept, of so many that were tried, with how many classes each shows that none before does."""
        self.kept += words
        self.shown += sum(shown)
        self.tried += tried
        self._since = 0 if any(shown) else self._since + tried


def search_combinational(search: Search, circuit: Circuit, jobs: int, told: Callable[[], None]) -> None:
    """Looks for patterns of a circuit without flip-flops. ValueError where gates make a cycle."""
    left = list(search.classes)
    while search.goes_on():
        words = search.words(_AT_ONCE)
        # how long patterns last is nothing to a simulation of settled values
        own = Circuit(circuit.netlist, circuit.timing, stimulus_of(Patterns("", search.inputs, tuple(words)), circuit.netlist, 2))
        first: dict[int, list[int]] = {}

        def take(detection: Detection) -> None:
            first.setdefault(detection.look, []).append(detection.fault)

        finder_of(own, left, usual_times(len(words), 2, 0), 1, jobs).run(take)
        gone: set[int] = set()
        tried = 0
        for tried, word in enumerate(words, 1):
            new = first.get(tried - 1, [])
            search.take([word] if new else [], [len(new)], 1)
            gone.update(new)
            if not search.goes_on():
                break
        left = [own_class for place, own_class in enumerate(left) if place not in gone]
        told()


def search_sequential(search: Search, circuit: Circuit, period: int, first: int, told: Callable[[], None]) -> None:
    """Looks for a sequence of patterns of a circuit with flip-flops, the first at the time `first`, as long as one ends by the last time
    that there is. A part of the sequence that shows nothing new is taken back, and what follows the last pattern of a part that does.
    ValueError where gates make a cycle."""
    network = Network(circuit.netlist)
    initials = [circuit.timing.initial(network.names[number]) for number, _ in network.flops]
    simulation = Simulation(network, initials, [own.asked for own in search.classes], 1)
    begun = 0
    while search.goes_on() and (room := room_for(first, period)):
        words = search.words(min(_PART, room))
        tried = simulation.copied()
        shown = _shown(tried, network, circuit, search.inputs, words, period, first, begun)
        useful = max((number for number, count in enumerate(shown, 1) if count), default=0)
        search.take(words[:useful], shown[:useful], len(words))
        if useful == len(words):
            simulation = tried
        elif useful:
            _shown(simulation, network, circuit, search.inputs, words[:useful], period, first, begun)
        if useful:
            first += useful * period
            begun = first
        told()


def room_for(first: int, period: int) -> int:
    """How many patterns end by the last time that there is."""
    return (MOST_TIME + 1 - first) // period


def _shown(simulation: Simulation, network: Network, circuit: Circuit, inputs: tuple[str, ...], words: Sequence[str], period: int, first: int,
           begun: int) -> list[int]:
    """How many classes each of the patterns shows that none before does; the simulation goes on from the time `begun`."""
    stimulus = stimulus_of(Patterns("", inputs, tuple(words)), circuit.netlist, period, first)
    times = usual_times(len(words), period, first)
    shown = [len(look) for look in simulation.run(moments(network, Circuit(circuit.netlist, circuit.timing, stimulus), times, begun))]
    return shown + [0] * (len(words) - len(shown))
