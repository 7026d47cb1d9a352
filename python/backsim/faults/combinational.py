"""Finds faults of circuits without flip-flops by simulation of all patterns of a block beside one another, a bit for each.

Only flips count: that a fault makes a signal's known value its other one. What a fault makes x, or what it makes known where it was x,
shows at no output, since the tables hand on no more than they are told. So a fault of a line shows with those patterns with which
the line has the other value and is observable, and a signal is observable where its flip is one of an output:

- The flip of a signal that is read in one place passes a gate where the gate's other pins let it.
- The flip of a signal that is read in several places is simulated, up to the gate through which all ways to the outputs lead (the
  dominator), or up to the outputs. Only these simulations cost; there is one for each such signal, not one for each fault.

This is parallel-pattern single-fault propagation (Waicukauski and others, 1985) over stem regions (Maamari and Rajski, 1990)."""
from __future__ import annotations

from array import array
from collections.abc import Iterable, Iterator, Mapping, Sequence
from dataclasses import field
from itertools import islice

from ..records import dataclass
from .model import Fault, Site
from .network import Kernel, Network, Rails, bits_of

# the outputs at which a signal's flip shows, each by its place among the outputs, and with which patterns
Shown = tuple[tuple[int, int], ...]
# bits of a word of the simulation of flips, and of all its words
_BITS_OF_A_WORD, _MOST_BITS = 1 << 14, 1 << 28
# signals whose outputs are kept as they are used
_MOST_UNPACKED = 512


@dataclass(frozen=True, slots=True)
class Reached:
    """Where the flip of a signal gets: the patterns with which it flips the dominator, or each output where there is none. The outputs' places
    stand in ascending order, and their patterns behind one another, each as the same number of bytes: most of the memory of a simulation
    goes into these."""

    dominator: int
    places: array[int]
    patterns: bytes

    def outputs(self) -> Shown:
        """The outputs that it gets to."""
        size = len(self.patterns) // max(1, len(self.places))
        return tuple((place, int.from_bytes(self.patterns[number * size:(number + 1) * size], "little")) for number, place in enumerate(self.places))


class Region:
    """The ways of flips through a network: for each signal its readers, and the signal through which all ways to the outputs lead."""

    def __init__(self, network: Network) -> None:
        self.network = network
        count = len(network.names)
        self.end = count
        self.place_of_output = {number: place for place, number in enumerate(network.outputs)}
        # an input that is an output has no gate on the way; the tester looks at it itself
        self.ends = {number for number in network.outputs if number >= network.inputs}
        self.readers: list[tuple[int, ...]] = [()] * count
        self.places: list[tuple[tuple[int, int], ...]] = [()] * count
        # the immediate dominators (Cooper, Harvey and Kennedy, 2001), of -1 where no way leads to an output
        self.dominator = [-1] * count
        self._find_ways()
        self.kernels: list[Kernel | None] = [None if gate is None else network.kernel(number) for number, gate in enumerate(network.gates)]

    def _find_ways(self) -> None:
        places: list[list[tuple[int, int]]] = [[] for _ in self.network.names]
        for reader, pins in enumerate(self.network.pins):
            for place, pin in enumerate(pins):
                places[pin].append((reader, place))
        for number in reversed(range(self.end)):
            self.places[number] = tuple(place for place in places[number] if self.dominator[place[0]] >= 0)
            self.readers[number] = tuple(sorted({reader for reader, _ in self.places[number]}))
            after = -1
            for reader in (*self.readers[number], *([self.end] if number in self.ends else [])):
                after = reader if after < 0 else self._meet(after, reader)
            self.dominator[number] = after

    def _meet(self, one: int, two: int) -> int:
        while one != two:
            if one < two:
                one = self.dominator[one]
            else:
                two = self.dominator[two]
        return one

    def is_stem(self, number: int) -> bool:
        """Whether the signal is read in several places, an output being one, from each of which a way leads to an output."""
        return len(self.places[number]) + (number in self.ends) > 1

    def chain(self, number: int) -> Iterator[int]:
        """The signal, its dominator, the dominator of that, and so on, up to the last before the outputs."""
        while 0 <= number < self.end:
            yield number
            number = self.dominator[number]


@dataclass(slots=True)
class Block:
    """The patterns of a block, the first being that of the look `first_look`: `every` has a bit for each, and `fresh` one for each that no
    block before had; `sources` are the inputs' values that gates see, `direct` has the values of those inputs that are outputs, as the
    tester sees them, by their numbers."""

    first_look: int
    every: int
    fresh: int
    sources: Sequence[Rails]
    direct: Mapping[int, Rails]


class Values:
    """The values of all signals with the patterns of a block."""

    def __init__(self, region: Region, block: Block) -> None:
        self.region = region
        self.block = block
        self.ones = [ones for ones, _ in block.sources]
        self.zeros = [zeros for _, zeros in block.sources]
        for kernel in region.kernels:
            if kernel is not None:
                one, zero = kernel(self.ones, self.zeros)
                self.ones.append(one)
                self.zeros.append(zero)


class Lanes:
    """The values of a block so many times beside one another, each time in a lane of its own: `count` flips are simulated at once, each in
    its lane. Of a short block most of the time would go into the steps of the simulation, and not into its words."""

    def __init__(self, values: Values) -> None:
        self._region = values.region
        self._bytes = (values.block.every.bit_length() + 7) // 8
        self.count = max(1, min(_BITS_OF_A_WORD, _MOST_BITS // (2 * values.region.end)) // (8 * self._bytes))
        self._masks = [values.block.every << 8 * self._bytes * place for place in range(self.count)]
        self._ones = [self._spread(one) for one in values.ones]
        self._zeros = [self._spread(zero) for zero in values.zeros]
        # the signals that are to be worked out
        self._left = bytearray(values.region.end)

    def _spread(self, patterns: int) -> int:
        return int.from_bytes(patterns.to_bytes(self._bytes, "little") * self.count, "little")

    def _parts(self, lanes: int) -> list[bytes]:
        """What each lane has."""
        size, data = self._bytes, lanes.to_bytes(self._bytes * self.count, "little")
        return [data[start:start + size] for start in range(0, len(data), size)]

    def flips(self, stems: Sequence[int]) -> list[Reached]:
        """What becomes of the flips of signals that are read in several places, at most `count`."""
        region, dominator = self._region, self._region.dominator
        lanes = dict(zip(stems, self._masks))
        stops: dict[int, int] = {}
        for stem, lane in lanes.items():
            stops[dominator[stem]] = stops.get(dominator[stem], 0) | lane
        stopped, shown = self._simulate(lanes, stops)
        parts = {number: self._parts(found) for number, found in stopped.items()}
        none = bytes(self._bytes)
        places: list[array[int]] = [array("I") for _ in stems]
        outputs: list[list[bytes]] = [[] for _ in stems]
        for place, found in sorted((region.place_of_output[number], found) for number, found in shown.items()):
            for own, own_outputs, patterns in zip(places, outputs, self._parts(found)):
                if patterns != none:
                    own.append(place)
                    own_outputs.append(patterns)
        nowhere = [none] * self.count
        return [Reached(int.from_bytes(parts.get(dominator[stem], nowhere)[lane], "little"), places[lane], b"".join(outputs[lane]))
                for lane, stem in enumerate(stems)]

    def _simulate(self, lanes: Mapping[int, int], stops: Mapping[int, int]) -> tuple[dict[int, int], dict[int, int]]:
        """Flips each signal of `lanes` in its lane, follows what changes, in lanes of `stops` up to the signal there, and takes all back.
        Gives what flipped of these signals, and of outputs."""
        ones, zeros, left, kernels, readers = self._ones, self._zeros, self._left, self._region.kernels, self._region.readers
        ends = self._region.ends
        changed: list[tuple[int, int, int]] = []
        stopped: dict[int, int] = {}
        shown: dict[int, int] = {}
        for stem in lanes:
            left[stem] = 1
        number = left.find(1)
        while number >= 0:
            left[number] = 0
            own_one, own_zero = ones[number], zeros[number]
            kernel = kernels[number]
            one, zero = (own_one, own_zero) if kernel is None else kernel(ones, zeros)
            if number in lanes:
                flipped = (one | zero) & lanes[number]
                one, zero = one ^ flipped, zero ^ flipped
            if number in stops:
                lane = stops[number]
                stopped[number] = (one & own_zero | zero & own_one) & lane
                one, zero = one ^ (one ^ own_one) & lane, zero ^ (zero ^ own_zero) & lane
            if one != own_one or zero != own_zero:
                changed.append((number, own_one, own_zero))
                ones[number], zeros[number] = one, zero
                if number in ends:
                    shown[number] = one & own_zero | zero & own_one
                for reader in readers[number]:
                    left[reader] = 1
            number = left.find(1, number)
        for number, one, zero in changed:
            ones[number], zeros[number] = one, zero
        return stopped, shown


@dataclass(slots=True)
class Observed:
    """With which patterns the flip of a signal shows at an output, for those signals that were asked for."""

    values: Values
    reached: Mapping[int, Reached]
    _known: dict[int, int] = field(default_factory=dict)
    _unpacked: dict[int, Shown] = field(default_factory=dict)

    def of_signal(self, number: int) -> int:
        """The patterns with which the signal's flip shows, but for an input that the tester sees itself."""
        region, known = self.values.region, self._known
        for own in reversed([own for own in region.chain(number) if own not in known]):
            after = region.dominator[own]
            known[own] = self._step(own) & (known[after] if after < region.end else -1)
        return known.get(number, 0)

    def _step(self, number: int) -> int:
        """The patterns with which the signal's flip is one of its dominator, or of an output where there is none."""
        region, values = self.values.region, self.values
        if region.is_stem(number):
            found = self.reached[number].dominator
            for _, patterns in self.reached[number].outputs():
                found |= patterns
            return found
        if not region.places[number]:
            return values.block.every
        (reader, place), = region.places[number]
        return region.network.sensitised(reader, place, values.ones, values.zeros, values.block.every)

    def of_pin(self, reader: int, place: int) -> int:
        """The patterns with which a flip of what a pin sees shows."""
        values = self.values
        return (values.region.network.sensitised(reader, place, values.ones, values.zeros, values.block.every)
                & self.of_signal(reader))

    def outputs(self, number: int) -> Shown:
        """The outputs at which a flip of the signal may show, and with which patterns where it flips the last dominator."""
        *_, last = self.values.region.chain(number)
        if self.values.region.is_stem(last):
            if last not in self._unpacked:
                if len(self._unpacked) == _MOST_UNPACKED:
                    self._unpacked.clear()
                self._unpacked[last] = self.reached[last].outputs()
            return self._unpacked[last]
        return ((self.values.region.place_of_output[last], self.values.block.every),)


@dataclass(frozen=True, slots=True)
class Effect:
    """The patterns that show a fault, and of each output those that may do so: a pattern shows it there if it is in both."""

    patterns: int
    outputs: Shown

    def first(self, most: int) -> Iterator[tuple[int, tuple[int, ...]]]:
        """The first patterns that show the fault, at most so many, all where that is 0, each with the places of the outputs that do."""
        if not self.patterns:
            return
        if most == 1:
            bit = self.patterns & -self.patterns
            yield bit.bit_length() - 1, tuple(place for place, patterns in self.outputs if patterns & bit)
            return
        found: dict[int, list[int]] = {pattern: [] for pattern in islice(bits_of(self.patterns), most or None)}
        within = (2 << max(found)) - 1
        for place, patterns in self.outputs:
            for pattern in bits_of(patterns & self.patterns & within):
                found[pattern].append(place)
        yield from ((pattern, tuple(places)) for pattern, places in found.items())


class Line:
    """A line of the network, and the signal whose chain of dominators a flip of it goes."""

    def __init__(self, region: Region, site: Site) -> None:
        network = region.network
        self.source = network.number[site.source]
        self.is_output = site.is_output
        self.reader = None if site.reader is None or site.is_output else network.number[site.reader]
        self.place = site.place
        self.is_seen_itself = (self.is_output or site.is_stem) and self.source in region.place_of_output and self.source < network.inputs
        self.target = self.source if self.reader is None else self.reader
        self.reaches = not self.is_output and region.dominator[self.target] >= 0

    def effect(self, observed: Observed, fault: Fault) -> Effect:
        """The patterns that show a fault of this line."""
        values, region = observed.values, observed.values.region
        excited = _excited((values.ones[self.source], values.zeros[self.source]), fault) & values.block.fresh
        if self.is_output and not self.is_seen_itself:
            return Effect(excited, ((region.place_of_output[self.source], excited),))
        patterns = 0
        outputs: Shown = ()
        if self.reaches:
            found = observed.of_signal(self.source) if self.reader is None else observed.of_pin(self.reader, self.place)
            patterns = excited & found
            outputs = observed.outputs(self.target) if patterns else ()
        if self.is_seen_itself:
            direct = _excited(values.block.direct[self.source], fault) & values.block.fresh
            # what gates see of an input is not always what the tester sees
            outputs = tuple(sorted((*((place, own & patterns) for place, own in outputs), (region.place_of_output[self.source], direct))))
            patterns |= direct
        return Effect(patterns, outputs)


def _excited(rails: Rails, fault: Fault) -> int:
    """The patterns with which the fault changes its line's value, that of these rails; of a line that is slow the pattern before has the
    value that is held."""
    ones, zeros = rails
    held, other = (ones, zeros) if fault.held == "1" else (zeros, ones)
    return other & held << 1 if fault.is_transition else other


def stems_of(region: Region, lines: Iterable[Line]) -> list[int]:
    """The signals whose flips are to be simulated for these lines, ascending."""
    met: set[int] = set()
    stems: set[int] = set()
    for line in lines:
        if line.reaches:
            for number in region.chain(line.target):
                if number in met:
                    break
                met.add(number)
                if region.is_stem(number):
                    stems.add(number)
    return sorted(stems)
