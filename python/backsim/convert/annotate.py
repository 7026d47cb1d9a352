"""The delays of SDF at the pins of a netlist, by gates whose names are those of the instances."""
from __future__ import annotations

import re
from collections import Counter
from collections.abc import Iterator, Mapping, Sequence
from dataclasses import field, replace
from fractions import Fraction
from math import ceil

from ..circuit.kinds import Kind
from ..errors import FormatError
from ..formats.netlist import Gate, Netlist
from ..formats.timing import Timing
from ..limits import MOST_TIME
from ..records import dataclass
from .sdf import Delays
from .sdf_entries import ANY, Entry, Path, delay_of


@dataclass(slots=True)
class Annotated:
    """The timing, how many gates have a delay of the file, and what is to be told: a line each."""

    timing: Timing
    count: int = 0
    notes: list[str] = field(default_factory=list)


def annotate(netlist: Netlist, base: Timing, delays: Delays, unit: Fraction, path: str) -> Annotated:
    """The base timing with the delays of the paths, in units rounded up; an instance is the gate of its name. FormatError where a delay
    is above 1,000,000 units."""
    return _Annotator(netlist, delays, unit, path).annotated(base)


def with_delays(netlist: Netlist, base: Timing, found: Mapping[str, Mapping[int, int]]) -> Timing:
    """The base timing with the delays that were found, by gates and places of their pins."""
    timing = replace(base, delays=dict(base.delays), pin_delays=dict(base.pin_delays), clocks=dict(base.clocks), clocked=dict(base.clocked),
                     lines={})
    for name, places in found.items():
        gate = netlist.gates[name]
        own = [places.get(place, base.delay(gate, place)) for place in range(len(gate.pins))]
        timing.delays[name] = own[0] if gate.kind is Kind.DFF else max(own)
        for place, delay in enumerate(own):
            timing.pin_delays.pop((name, place), None)
            if delay != timing.delays[name]:
                timing.pin_delays[name, place] = delay
    return timing


class _Annotator:
    """Finds the pins of paths."""

    def __init__(self, netlist: Netlist, delays: Delays, unit: Fraction, path: str) -> None:
        self.netlist, self.delays, self.unit, self.path = netlist, delays, unit, path
        self.found: dict[str, dict[int, int]] = {}
        self.taken: set[Entry] = set()
        self.raised = 0
        self.lost: Counter[str] = Counter()
        self.lost_lines: dict[str, int] = {}

    def annotated(self, base: Timing) -> Annotated:
        by_instance: dict[str, list[Path]] = {}
        for path in self.delays.paths:
            by_instance.setdefault(path.place.instance, []).append(path)
        for instance, paths in by_instance.items():
            self.instance(instance, paths)
        for wire in self.delays.wires:
            self.lose(f"{wire.word}, which needs the ports of cells (--json)", wire)
        return Annotated(with_delays(self.netlist, base, self.found), len(self.found), list(self._notes()))

    def instance(self, instance: str, paths: Sequence[Path]) -> None:
        """The paths of one instance."""
        gate = self.netlist.gates.get(instance)
        if gate is None:
            where = "every instance of a type, which needs the types of cells (--json)" if instance == ANY else "an instance that is no gate of the netlist"
            for path in paths:
                self.lose(f"{path.word} of {where}", path)
            return
        paths = self._of_clock(paths, gate)
        by_place: dict[int, dict[tuple[str, str], None]] = {}
        for path in paths:
            places = self.places(gate, path, paths)
            if not places:
                self.lose(f"{path.word} whose ports are no pins of one gate", path)
            for place in places:
                by_place.setdefault(place, {})[path.source, path.target] = None
        for place, arcs in by_place.items():
            self.pin(gate, place, list(arcs), paths)
        for path in paths:
            if path.place.is_increment and path not in self.taken and self.places(gate, path, paths):
                self.lose("INCREMENT of a delay that is not stated before it", path)

    def pin(self, gate: Gate, place: int, arcs: Sequence[tuple[str, str]], paths: Sequence[Path]) -> None:
        """The delay of a pin at which paths of these ports begin; a DEVICE counts for each of them."""
        named = [arc for arc in arcs if arc[0] != ANY] or arcs
        found = []
        for source, target in named:
            own = [path for path in paths if path.source in (source, ANY) and path.target in (target, ANY)]
            delay = delay_of(own, self.delays.corner, self.taken)
            if delay is not None:
                found.append(self.units(delay, own[0].place.line))
        if found:
            self.found.setdefault(gate.name, {})[place] = self.delays.corner.of(found)

    def _of_clock(self, paths: Sequence[Path], gate: Gate) -> Sequence[Path]:
        """Of a flip-flop the paths that state an edge, where there are such: the others are those of a reset."""
        if gate.kind is not Kind.DFF or not any(path.has_edge for path in paths):
            return paths
        for path in paths:
            if not path.has_edge:
                self.lose("IOPATH of a flip-flop that states no edge", path)
        return [path for path in paths if path.has_edge]

    def places(self, gate: Gate, path: Path, paths: Sequence[Path]) -> list[int]:
        """The pins that a path begins at: by the net at the port, or, where no port has the name of such a net, by the port's place among those
        of the cell."""
        if gate.kind is Kind.DFF:
            return [0]
        if path.source == ANY:
            return list(range(len(gate.pins)))
        places = [place for place, pin in enumerate(gate.pins) if pin == path.source]
        if not places and not any(own.source in gate.pins for own in paths):
            order = sorted({own.source for own in paths if own.source != ANY}, key=_natural)
            places = [order.index(path.source)] if len(order) == len(gate.pins) else []
        return places

    def units(self, delay: Fraction, line: int) -> int:
        count = ceil(delay / self.unit)
        if count > MOST_TIME:
            raise FormatError(self.path, line, f"the delay is {count} units, above {MOST_TIME}: take a greater --unit")
        if delay <= 0:
            self.raised += 1
        return max(1, count)

    def lose(self, what: str, entry: Entry) -> None:
        self.lost[what] += 1
        self.lost_lines.setdefault(what, entry.place.line)

    def _notes(self) -> Iterator[str]:
        """What is to be told."""
        for counts, lines in ((self.delays.left_out, self.delays.first_lines), (self.lost, self.lost_lines)):
            for what, count in counts.items():
                yield f"left out: {count} {what}, the first in line {lines[what]}"
        if self.raised:
            yield f"{self.raised} delays of 0 or less are taken as 1"
        missing = sum(gate.name not in self.found for gate in self.netlist.gates.values())
        if missing:
            yield f"{missing} of {len(self.netlist.gates)} gates have no delay of the file, and keep the one that they had"


def _natural(name: str) -> tuple[object, ...]:
    """Orders A2 before A10."""
    return tuple((0, int(part), "") if part.isdigit() else (1, 0, part) for part in re.split("([0-9]+)", name) if part)
