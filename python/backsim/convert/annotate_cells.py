"""The delays of SDF at the pins of a netlist that from-json made, by the instances of its cells.

An arc of a cell is the sum of the delays on the way from the pin to the output, of which the last ones, of gates within the cell, are 1
each: what is left is the delay of the pin at which the way begins. What an INTERCONNECT or PORT adds to a pin is added there too. A
flip-flop of a netlist has no delay at its pin, and gates before it take time. So where it has such, it takes its pin so much after the
edge as these gates take, less what the wire takes, and shows it so much sooner: its clock is one of its own, as `clk+3`. So are what
the wire to the pin of its clock takes, and the buffers of the clock."""
from __future__ import annotations

from collections import Counter
from collections.abc import Iterator
from fractions import Fraction
from math import ceil

from ..circuit.kinds import Kind
from ..errors import FormatError
from ..formats.netlist import Netlist
from ..formats.timing import Clock, Timing
from ..limits import MOST_TIME
from .annotate import Annotated, with_delays
from .cells import Leaf
from .design import Design, Instance
from .sdf import Delays
from .sdf_entries import ANY, Entry, Path, Wire, delay_of
from .yosys import type_of

_SHOWN = 3
_IDLE = "INCREMENT of a delay that is not stated before it"


def annotate_cells(design: Design, netlist: Netlist, base: Timing, delays: Delays, unit: Fraction, path: str) -> Annotated:
    """The base timing with the delays of the paths and wires, in units rounded up; a flip-flop has a clock of its own where it takes its
    pin at another time than the edge. FormatError where a delay is above 1,000,000 units, or the netlist is not that of the design."""
    return _Annotator(design, netlist, base, delays, unit, path).annotated()


class _Annotator:
    """Annotates one netlist."""

    def __init__(self, design: Design, netlist: Netlist, base: Timing, delays: Delays, unit: Fraction, path: str) -> None:
        self.design, self.netlist, self.base, self.delays, self.unit, self.path = design, netlist, base, delays, unit, path
        self.found: dict[str, dict[int, int]] = {}
        self.shifts: dict[str, int] = {}
        self.by_type: dict[str, list[str]] = {}
        self.paths: dict[str, list[Path]] = {}
        self.wires: dict[tuple[str, str], list[Wire]] = {}
        self.wire_times: dict[tuple[str, str], Fraction] = {}
        self.met: set[Entry] = set()    # what fits the netlist
        self.taken: set[Entry] = set()  # and has something to say
        self.lost: Counter[str] = Counter()
        self.lost_lines: dict[str, int] = {}
        self.short: list[str] = []
        self.early: list[str] = []
        self.negative = 0

    def annotated(self) -> Annotated:
        for name, instance in self.design.instances.items():
            self.by_type.setdefault(type_of(instance.type), []).append(name)
        for path in self.delays.paths:
            for name in self.instances_of(path, path.place.instance):
                self.paths.setdefault(name, []).append(path)
        for wire in self.delays.wires:
            for name in self.instances_of(wire, wire.instance):
                self.wires.setdefault((name, wire.port), []).append(wire)
        for name, instance in self.design.instances.items():
            if name in self.paths or any((name, port) in self.wires for port in instance.names):
                self.instance(name, instance)
        self.outputs()
        timing = with_delays(self.netlist, self.base, self.found)
        self.clocks(timing)
        self.count_lost()
        return Annotated(timing, len(self.found), list(self.notes()))

    def instances_of(self, entry: Entry, instance: str) -> list[str]:
        """The instances that an entry is for: of `(INSTANCE *)` all of its type."""
        return self.by_type.get(entry.place.cell_type, []) if instance == ANY else [instance]

    # one instance

    def instance(self, name: str, instance: Instance) -> None:
        """The delays of the gates and flip-flops of an instance."""
        template, names = instance.template, instance.names
        for symbol, gate in template.gates.items():
            if gate.kind is not Kind.DFF:
                own = self.netlist.gates.get(names[symbol])
                if own is None or own.kind is not gate.kind or own.pins != tuple(names[pin] for pin in gate.pins):
                    raise FormatError(self.path, None, f"the netlist has no gate {names[symbol]} like that of the JSON file: give the file of "
                                      "which from-json made it, with the same --async-reset")
                for place, pin in enumerate(gate.pins):
                    if pin in template.gates:
                        self.found.setdefault(names[symbol], {})[place] = 1
        for inverter in template.inverters:
            self.found.setdefault(names[inverter], {})[0] = 1
        shifts = {symbol: self.pin(name, instance, symbol) for symbol in template.flops}
        for target in instance.outputs:
            if target not in template.gates:
                continue
            for leaf in template.leaves(target):
                self.leaf(name, instance, target, leaf, shifts)

    def pin(self, name: str, instance: Instance, flop: str) -> int:
        """How long after the edge at its clock's pin a flip-flop takes its pin, so that the gates before it have what was there at the
        edge; and the delays of these gates."""
        template, names = instance.template, instance.names
        leaves = list(template.pin_leaves(flop))
        waits = [(leaf, self.wire(name, leaf.source)) for leaf in leaves]
        if leaves[0].gate == flop:
            leaf, wire = waits[0]
            return leaf.after - wire
        shift = max(leaf.after + 1 - wire for leaf, wire in waits)
        for leaf, wire in waits:
            self.found.setdefault(names[leaf.gate], {})[leaf.place] = shift + wire - leaf.after
        return shift

    def leaf(self, name: str, instance: Instance, target: str, leaf: Leaf, shifts: dict[str, int]) -> None:
        """The delay at the pin where a way to an output begins."""
        own = instance.names[leaf.gate]
        paths = [path for path in self.paths.get(name, ()) if path.source in (leaf.source, ANY) and path.target in (target, ANY)]
        self.met.update(paths)
        arc = delay_of(paths, self.delays.corner, self.taken)
        is_flop = leaf.gate in shifts
        if is_flop:
            self.shifts[own] = shifts[leaf.gate] + self.wire(name, leaf.source)
        wire = Fraction(0) if is_flop else self.wire_seconds(name, leaf.source)
        if arc is not None:
            delay = self.units(arc + wire, paths[0].place.line) - leaf.after
        else:
            delay = self.base.delay(self.netlist.gates[own], leaf.place) + self.units(wire, 0)
        if is_flop:
            delay -= shifts[leaf.gate]
        if delay < 1:
            self.short.append(f"{name} from {leaf.source} to {target}, by {1 - delay}")
        self.found.setdefault(own, {})[leaf.place] = max(1, delay)

    def wire_seconds(self, instance: str, port: str) -> Fraction:
        """What the wire to a port takes, in seconds."""
        key = instance, port
        if key not in self.wires:
            return Fraction(0)
        if key not in self.wire_times:
            self.met.update(self.wires[key])
            delay = delay_of(self.wires[key], self.delays.corner, self.taken) or Fraction(0)
            self.negative += delay < 0
            self.wire_times[key] = max(Fraction(0), delay)
        return self.wire_times[key]

    def wire(self, instance: str, port: str) -> int:
        """What the wire to a port takes, in units."""
        return self.units(self.wire_seconds(instance, port), 0)

    def units(self, delay: Fraction, line: int) -> int:
        count = ceil(delay / self.unit)
        if count > MOST_TIME:
            raise FormatError(self.path, line, f"the delay is {count} units, above {MOST_TIME}: take a greater --unit")
        return count

    # what is beside the instances

    def outputs(self) -> None:
        """The wires to outputs of the design that have a gate of their own."""
        for (instance, port), wires in self.wires.items():
            gate = self.netlist.gates.get(port) if not instance else None
            if gate is not None and gate.kind is Kind.BUFF and port in self.netlist.outputs and port not in self.found:
                self.found[port] = {0: max(1, self.units(self.wire_seconds(instance, port), wires[0].place.line))}

    def clocks(self, timing: Timing) -> None:
        """The clocks of flip-flops that take their pins at other times than the edges."""
        for flop, shift in self.shifts.items():
            name = self.base.clocked.get(flop)
            clock = self.base.clock_of(flop)
            if clock is None:
                continue
            whole = shift + self.tree(flop, name, timing)
            if clock.first + whole < 0:
                self.early.append(flop)
                continue
            if clock.first + whole > MOST_TIME:
                raise FormatError(self.path, None, f"the clock of {flop} begins after {MOST_TIME}: take a greater --unit")
            if whole:
                own = f"{name or 'clock'}{whole:+d}"
                timing.clocks[own] = Clock(clock.first + whole, clock.period)
                timing.clocked[flop] = own

    def tree(self, flop: str, clock: str | None, timing: Timing) -> int:
        """What the buffers take between the signal of the clock and the pin of the flip-flop's clock."""
        edge = self.design.edges.get(flop)
        signal = edge.signal if edge else ""
        root = clock if clock is None or clock in self.netlist else clock.removesuffix("_falls")
        taken = 0
        for _ in range(len(self.netlist.gates)):
            if signal == root:
                return taken
            gate = self.netlist.gates.get(signal)
            if gate is None or len(gate.pins) != 1 or gate.kind is Kind.DFF:
                break
            taken += timing.delay(gate)
            signal = gate.pins[0]
        return 0

    # what is told

    def lose(self, what: str, line: int) -> None:
        self.lost[what] += 1
        self.lost_lines.setdefault(what, line)

    def count_lost(self) -> None:
        """Counts the paths and wires that nothing took."""
        for path in self.delays.paths:
            if path not in self.taken:
                self.lose(_IDLE if path in self.met else f"{path.word} {self.why_lost(path)}", path.place.line)
        for wire in self.delays.wires:
            if wire not in self.taken:
                self.lose(_IDLE if wire in self.met else f"{wire.word} to what is no pin of a cell, or one that nothing depends on", wire.place.line)

    def why_lost(self, path: Path) -> str:
        """What of a path fits nothing of the netlist."""
        names = self.instances_of(path, path.place.instance)
        instance = self.design.instances.get(names[0]) if names else None
        if path.place.instance == ANY and instance is None:
            return "of every instance of a type of which there is none"
        if instance is None:
            return "of an instance that the netlist does not have" if path.place.instance else "of the design itself, which is no cell"
        if path.target not in instance.outputs:
            return "to a port that is no output, or is not connected"
        if any(control.port == path.source for control in instance.template.resets):
            return "of a set or reset that acts at edges (--async-reset edge)"
        return "from a port on which the output does not depend"

    def other_types(self) -> list[str]:
        """Instances that have another type in the netlist than in the file."""
        return [f"{name} is {type_of(instance.type)} here, and {own[0]} in line {own[1]}" for name, instance in self.design.instances.items()
                if (own := self.delays.types.get(name)) and own[0] and own[0] != type_of(instance.type)]

    def notes(self) -> Iterator[str]:
        """What is to be told."""
        used, paths, wires = len(self.taken), self.delays.paths, self.delays.wires
        of_paths = sum(path in self.taken for path in paths)
        yield f"{of_paths} of {len(paths)} IOPATH and {used - of_paths} of {len(wires)} INTERCONNECT and PORT are used"
        for counts, lines in ((self.delays.left_out, self.delays.first_lines), (self.lost, self.lost_lines)):
            for what, number in counts.items():
                yield f"left out: {number} {what}, the first in line {lines[what]}"
        chosen = sum(path.is_chosen for path in paths)
        if chosen:
            word = "least" if self.delays.corner.value == "min" else "greatest"
            yield f"{chosen} IOPATH have different numbers for rise and fall: the {word} counts for both"
        if self.negative:
            yield f"{self.negative} wires have a delay below 0, which is taken as 0"
        others = self.other_types()
        if others:
            yield (f"{len(others)} instances have another type in the netlist than in the file, which may be that of another netlist: "
                   f"{'; '.join(others[:_SHOWN])}{' ...' * (len(others) > _SHOWN)}")
        if self.short:
            yield (f"{len(self.short)} arcs are shorter than the gates inside their cells, which take so much longer: "
                   f"{'; '.join(self.short[:_SHOWN])}{' ...' * (len(self.short) > _SHOWN)}")
        if self.early:
            yield (f"{len(self.early)} flip-flops take their pins at the edge itself, since what their wires take is before the first edge: "
                   f"{', '.join(self.early[:_SHOWN])}{' ...' * (len(self.early) > _SHOWN)}")
        known = {name for instance in self.design.instances.values() for name in instance.names.values()}
        missing = sum(name not in self.found for name in self.netlist.gates if name in known)
        if missing:
            yield f"{missing} of {len(self.netlist.gates)} gates have no delay of the file, and keep the one that they had"
