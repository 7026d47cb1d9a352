"""Finds faults of circuits with flip-flops by simulation of all faults beside one another, a bit for each, one pass over the times.

Bit 0 of each signal is the circuit without a fault, bit k the one with the k-th fault of this simulation. A fault's line is held where it
is driven or, of a branch, where it is read. A fault that needs no more looks is dropped: once half of them are, the rest gets fewer
bits."""
from __future__ import annotations

import copy
from collections.abc import Iterator, Sequence

from ..records import dataclass
from .looks import Moment
from .model import OUTPUT, Fault, Site
from .network import Kernel, Network, Rails, bits_of

_LEAST_DROPPED = 64


@dataclass(frozen=True, slots=True)
class Hold:
    """The faults that hold a line, as masks: what is kept of its ones and of its zeros, and what is set."""

    keep_ones: int
    set_ones: int
    keep_zeros: int
    set_zeros: int

    def of(self, one: int, zero: int) -> Rails:
        """The line's value with the faults."""
        return one & self.keep_ones | self.set_ones, zero & self.keep_zeros | self.set_zeros


@dataclass(frozen=True, slots=True)
class Step:
    """A signal, or a branch, that is worked out in its turn."""

    number: int
    kernel: Kernel
    site: Site


@dataclass(frozen=True, slots=True)
class Detection:
    """A fault, by its place in the list, shown at a look by outputs, by their places."""

    fault: int
    look: int
    outputs: tuple[int, ...]


class Simulation:
    """The faults of a list. Each is followed until `drop` looks have shown it, or to the end where `drop` is 0; `initials` are the values
    with which flip-flops begin."""

    def __init__(self, network: Network, initials: Sequence[str], faults: Sequence[Fault], drop: int) -> None:
        self._network = network
        self._initials = initials
        self._drop = drop
        # the faults that are followed, the k-th with bit k + 1
        self._left = list(range(len(faults)))
        self._faults = faults
        self._counts = [0] * len(faults)
        self._done = 0
        self._ones: list[int] = []
        self._zeros: list[int] = []
        self._hold_all()
        self._begin()

    def _steps(self) -> list[Step]:
        """The gates, and the branches to them of the faults that are followed, each after what it reads."""
        network = self._network
        branches: dict[int, list[Site]] = {}
        for site in dict.fromkeys(self._faults[place].site for place in self._left):
            if site.reader is not None and not site.is_output and network.number[site.reader] >= network.first_gate:
                branches.setdefault(network.number[site.reader], []).append(site)
        steps: list[Step] = []
        extra = len(network.names)
        for number in range(network.first_gate, len(network.names)):
            pins = list(network.pins[number])
            for site in branches.get(number, ()):
                steps.append(Step(extra, _copied(pins[site.place]), site))
                pins[site.place] = extra
                extra += 1
            steps.append(Step(number, network.kernel(number, pins), Site(network.names[number])))
        return steps

    def _hold_all(self) -> None:
        """Gives each fault that is followed its bit."""
        self._every = (1 << len(self._left) + 1) - 1
        # with no fault but those that are followed
        self._followed = self._every - 1
        masks: dict[Site, list[int]] = {}
        for bit, place in enumerate(self._left, 1):
            fault = self._faults[place]
            masks.setdefault(fault.site, [0, 0])[int(fault.held)] |= 1 << bit
        self._holds = {site: Hold(self._every ^ zeros, ones, self._every ^ ones, zeros) for site, (zeros, ones) in masks.items()}
        self._program = [(step.number, step.kernel, self._holds.get(step.site)) for step in self._steps()]
        network = self._network
        self._stems = [self._holds.get(Site(name)) for name in network.names[:network.first_gate]]
        self._pins = [self._holds.get(Site(network.names[pin], network.names[flop], 0)) for flop, pin in network.flops]
        self._looks = [(number, self._holds.get(Site(network.names[number], OUTPUT))) for number in network.outputs]

    def _begin(self) -> None:
        network = self._network
        # a branch has its place behind all signals
        places = len(network.names) + len(self._faults)
        self._ones, self._zeros = [0] * places, [0] * places
        for number in range(network.inputs):
            self._set(number, "x")
        for (number, _), value in zip(network.flops, self._initials):
            self._set(number, value)
        self._is_settled = False

    def _set(self, number: int, value: str) -> bool:
        return self._put(number, self._every if value == "1" else 0, self._every if value == "0" else 0)

    def _put(self, number: int, one: int, zero: int) -> bool:
        """Sets an input or a flip-flop; whether that changes it."""
        hold = self._stems[number]
        if hold is not None:
            one, zero = hold.of(one, zero)
        if one == self._ones[number] and zero == self._zeros[number]:
            return False
        self._ones[number], self._zeros[number] = one, zero
        return True

    def _settle(self) -> None:
        if self._is_settled:
            return
        ones, zeros = self._ones, self._zeros
        for number, kernel, hold in self._program:
            if hold is None:
                ones[number], zeros[number] = kernel(ones, zeros)
            else:
                one, zero = kernel(ones, zeros)
                ones[number] = one & hold.keep_ones | hold.set_ones
                zeros[number] = zero & hold.keep_zeros | hold.set_zeros
        self._is_settled = True

    def run(self, moments: Sequence[Moment]) -> Iterator[list[Detection]]:
        """The detections of each look, as the moments pass; a look without one gives an empty list."""
        for moment in moments:
            yield from self._pass(moment)
            if self._drop and not self._left:
                return

    def _pass(self, moment: Moment) -> Iterator[list[Detection]]:
        network = self._network
        if moment.look >= 0 or moment.edges:
            self._settle()
        # inputs have their new values at once, gates and flip-flops later
        changed = [self._set(number, value) for number, value in moment.settings]
        found = self._look(moment.look) if moment.look >= 0 else None
        taken = []
        for place in moment.edges:
            number, pin = network.flops[place]
            hold = self._pins[place]
            one, zero = self._ones[pin], self._zeros[pin]
            taken.append((number, *(hold.of(one, zero) if hold else (one, zero))))
        changed += [self._put(number, one, zero) for number, one, zero in taken]
        if any(changed):
            self._is_settled = False
        if found is not None:
            if self._drop and self._done > max(_LEAST_DROPPED, len(self._left) // 2):
                self._narrow()
            yield found

    def copied(self) -> Simulation:
        """Another simulation that stands where this one does."""
        other = copy.copy(self)
        other._ones, other._zeros = list(self._ones), list(self._zeros)
        other._left, other._counts = list(self._left), list(self._counts)
        return other

    def _look(self, look: int) -> list[Detection]:
        """The faults that this look shows."""
        by_output: list[tuple[int, int]] = []
        every = 0
        for place, (number, hold) in enumerate(self._looks):
            one, zero = self._ones[number], self._zeros[number]
            if hold is not None:
                one, zero = hold.of(one, zero)
            shown = (zero if one & 1 else one if zero & 1 else 0) & self._followed
            if shown:
                by_output.append((place, shown))
                every |= shown
        found = []
        for bit in bits_of(every):
            fault = self._left[bit - 1]
            found.append(Detection(fault, look, tuple(place for place, shown in by_output if shown >> bit & 1)))
            self._counts[fault] += 1
            if self._counts[fault] == self._drop:
                self._followed ^= 1 << bit
                self._done += 1
        return found

    def _narrow(self) -> None:
        """Gives the faults that are still followed new bits."""
        kept = [0, *bits_of(self._followed)]
        self._left = [self._left[bit - 1] for bit in kept[1:]]
        self._done = 0
        self._hold_all()
        for number in range(self._network.first_gate):
            self._ones[number] = _taken(self._ones[number], kept)
            self._zeros[number] = _taken(self._zeros[number], kept)
        self._is_settled = False

    def unknown_flops(self) -> int:
        """How many flip-flops are x now, without a fault."""
        return sum(not (self._ones[number] | self._zeros[number]) & 1 for number, _ in self._network.flops)


def _copied(source: int) -> Kernel:
    return lambda ones, zeros: (ones[source], zeros[source])


def _taken(mask: int, kept: Sequence[int]) -> int:
    """The bits at these places, as the bits from 0 on."""
    text = bin(mask)[:1:-1].ljust(kept[-1] + 1, "0")
    return int("".join([text[place] for place in reversed(kept)]), 2)
