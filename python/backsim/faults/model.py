"""The lines of a circuit and their stuck-at and transition faults.

A signal that is read in one place has one line, its stem. A signal that is read in several places, being an output counting as one,
has a stem and a branch to each place. A fault holds a line at 0 or at 1, whatever drives it; of a branch only the one place sees it.
A transition fault is a line that is slow to rise (`str`) or to fall (`stf`): at a look that should find it risen it still holds 0."""
from __future__ import annotations

from collections.abc import Iterable, Iterator, Sequence

from ..circuit.kinds import Kind
from ..formats.netlist import Gate, Netlist, in_order
from ..records import dataclass

OUTPUT = "(output)"
VALUES = ("0", "1")
TRANSITIONS = ("str", "stf")
_EDGES = 3
_HELD = {"0": "0", "1": "1", "str": "0", "stf": "1"}


@dataclass(frozen=True, slots=True, order=True)
class Site:
    """A line. Of a stem `reader` is None. Of a branch it is the gate or flip-flop that reads the signal at the pin `place`, counted
    from 0; of the branch to an output it is `OUTPUT`, which no signal's name is."""

    source: str
    reader: str | None = None
    place: int = 0

    @property
    def is_stem(self) -> bool:
        return self.reader is None

    @property
    def is_output(self) -> bool:
        """Whether it is the branch to an output."""
        return self.reader == OUTPUT


@dataclass(frozen=True, slots=True, order=True)
class Fault:
    """A line that is stuck at `0` or `1`, or slow to rise (`str`) or to fall (`stf`)."""

    site: Site
    value: str

    @property
    def held(self) -> str:
        """The value at which the line is held: `0` or `1`."""
        return _HELD[self.value]

    @property
    def is_transition(self) -> bool:
        """Whether the line is held only where it should have changed since the look before."""
        return self.value in TRANSITIONS


class Lines:
    """The lines of a netlist."""

    def __init__(self, netlist: Netlist) -> None:
        self.netlist = netlist
        self.readers: dict[str, list[Site]] = {name: [] for name in netlist.names}
        for gate in netlist.gates.values():
            for place, pin in enumerate(gate.pins):
                self.readers[pin].append(Site(pin, gate.name, place))
        for name in netlist.outputs:
            self.readers[name].append(Site(name, OUTPUT))

    def branches(self, name: str) -> list[Site]:
        """The branches of a signal; none where it is read in one place or in none."""
        found = self.readers[name]
        return found if len(found) > 1 else []

    def feeding(self, reader: str, place: int) -> Site:
        """The line that ends at a pin."""
        source = self.netlist.gates[reader].pins[place]
        return Site(source, reader, place) if self.branches(source) else Site(source)

    def sites(self) -> Iterator[Site]:
        """All lines, the signals in the order of their numbers, each stem before its branches."""
        for name in self.netlist.names:
            yield Site(name)
            yield from self.branches(name)

    def faults(self, has_branches: bool = True, values: Sequence[str] = VALUES) -> list[Fault]:
        """All faults of these values, without collapsing; with `has_branches` false those of stems alone."""
        return [Fault(site, value) for site in self.sites() if has_branches or site.is_stem for value in values]

    def has_site(self, site: Site) -> bool:
        """Whether the netlist has this line."""
        if site.is_stem:
            return site.source in self.netlist
        return site in self.branches(site.source)


def cone_of(netlist: Netlist, names: Iterable[str]) -> set[str]:
    """The signals in the fan-in cones of these, through flip-flops too."""
    found = set(names)
    left = list(found)
    while left:
        gate = netlist.gates.get(left.pop())
        for pin in gate.pins if gate else ():
            if pin not in found:
                found.add(pin)
                left.append(pin)
    return found


def outputs_reached(netlist: Netlist) -> dict[str, tuple[str, ...]]:
    """For each signal the outputs in whose fan-in cone it is, through flip-flops too, in the order of the netlist."""
    masks = dict.fromkeys(netlist.names, 0)
    for place, name in enumerate(netlist.outputs):
        masks[name] |= 1 << place
    readers = _readers_first(netlist)
    is_changed = True
    while is_changed:
        is_changed = False
        for gate in readers:
            mask = masks[gate.name]
            for pin in gate.pins:
                if mask & ~masks[pin]:
                    masks[pin] |= mask
                    is_changed = True
    lists: dict[int, tuple[str, ...]] = {}
    for mask in set(masks.values()):
        lists[mask] = tuple(name for place, name in enumerate(netlist.outputs) if mask >> place & 1)
    return {name: lists[mask] for name, mask in masks.items()}


def weights(netlist: Netlist) -> dict[str, int]:
    """For each output how many signals its value may come from: those in its cone up to flip-flops, those in the cones of these, and so on
    through as many edges as tell outputs from one another."""
    pins = {gate.name: gate.pins[0] for gate in netlist.flops()}
    found: dict[str, int] = {}
    for name in netlist.outputs:
        found[name], names, edges = 0, {name}, 0
        while names and edges <= _EDGES:
            own = _settled_cone(netlist, names)
            found[name] += len(own)
            names = {pins[flop] for flop in own if flop in pins}
            edges += 1
    return found


def _settled_cone(netlist: Netlist, names: Iterable[str]) -> set[str]:
    """The signals from which these come without an edge."""
    found = set(names)
    left = list(found)
    while left:
        gate = netlist.gates.get(left.pop())
        if gate is not None and gate.kind is not Kind.DFF:
            for pin in gate.pins:
                if pin not in found:
                    found.add(pin)
                    left.append(pin)
    return found


def _readers_first(netlist: Netlist) -> list[Gate]:
    """The gates, each after those that read it where none make a cycle, and then the flip-flops; so a walk over them comes to its end
    after as many rounds as flip-flops follow one another, and one more."""
    try:
        return [*reversed(tuple(in_order(netlist))), *netlist.flops()]
    except ValueError:
        return list(netlist.gates.values())
