"""A netlist and its clocks from a module of Yosys, with the names of its nets."""
from __future__ import annotations

from dataclasses import field, replace

from ..circuit.kinds import Kind
from ..errors import FormatError
from ..formats.netlist import Netlist
from ..records import dataclass
from .build import Builder
from .cells import Asynchronous, Control, NeedsHow, Template, Templates
from .clocks import Edge
from .functions import NotHad
from .registers import register_of, why_not
from .yosys import CONSTANTS, Bit, Cell, Module, Names, plain_name

_SILENT = ("$scopeinfo",)
_TRISTATE = ("$tribuf", "$_TBUF_")
_HELP_OF_TRISTATE = "; of a tri-state bus `tribuf -logic`, before `synth`, makes gates"


@dataclass(frozen=True, slots=True)
class Instance:
    """A cell of the design: its template, and the signal of each symbol of it. `outputs` are the ports that are connected."""

    type: str
    template: Template
    names: dict[str, str]
    outputs: tuple[str, ...]


@dataclass(slots=True)
class Design:
    """A netlist; the edge that each flip-flop takes its pin at, its initial value where it has one, the asynchronous sets and resets, of
    signals in place of symbols, each with the edge of its register, the instances by their names, the place of each signal in the source, and what is to
    be told."""

    netlist: Netlist
    edges: dict[str, Edge] = field(default_factory=dict)
    initials: dict[str, str] = field(default_factory=dict)
    resets: list[tuple[Control, Edge]] = field(default_factory=list)
    instances: dict[str, Instance] = field(default_factory=dict)
    sources: dict[str, str] = field(default_factory=dict)
    notes: list[str] = field(default_factory=list)


def design_of(module: Module, how: Asynchronous | None = None, has_aliases: bool = True) -> Design:
    """The design of a module. With `has_aliases` each further public name of a net, but for that of a clock, is a BUFF of it, which
    shows its value one delay later. FormatError, with the name of the cell or net, where something can't be had: a cell that is no
    gate, a latch, a gated clock, a net with two drivers, and, where `how` is None, an asynchronous set or reset."""
    return _Maker(module, how).make(has_aliases)


class _Maker:
    """Makes one design."""

    def __init__(self, module: Module, how: Asynchronous | None) -> None:
        self.module = module
        self.cells = [cell for cell in module.cells if cell.type not in _SILENT]
        self.drivers = self._drivers()
        self.templates = Templates(module.library, how)
        self.made: dict[str, Template | NotHad | None] = {cell.name: self._template_of(cell) for cell in self.cells}
        flops = {bit: cell for bit, cell in self.drivers.items() if cell and self._is_register(cell)}
        used = [bit for cell in self.cells for bits in cell.ports.values() for bit in bits]
        self.names = Names(module, flops, [*used, *module.outputs.values()])
        taken = {*self.names.of.values(), *(name for own in self.names.others.values() for name in own)}
        self.builder = Builder(taken | {name for name, _ in self.names.constants})
        self.design = Design(self.builder.netlist())
        self.inits = {bit: value for net in module.nets for bit, value in zip(net.bits, net.init) if value in "01"}
        self.undriven: dict[Bit, str] = {}

    def make(self, has_aliases: bool) -> Design:
        self.builder.inputs.extend(self.names.of[bit] for bit in self.module.inputs.values())
        for cell in self.cells:
            self.cell(cell)
        for name, bit in self.module.outputs.items():
            self.builder.outputs.append(name)
            self.alias(name, bit)
        if has_aliases:
            clocks = self._clocks()
            for bit, names in self.names.others.items():
                if bit in self.drivers and bit not in clocks:
                    for name in names:
                        self.alias(name, bit)
            for name, bit in self.names.constants:
                self.alias(name, bit)
        self.builder.inputs.extend(self.undriven.values())
        if self.undriven:
            names = list(self.undriven.values())
            self.design.notes.append(f"nothing drives {', '.join(names[:10])}{' ...' * (len(names) > 10)}: an input that is never set")
        for kind, ports in self.templates.unused.items():
            self.design.notes.append(f"nothing in {kind} depends on {', '.join(ports)}: where that enables a tri-state output, Yosys's read_liberty "
                                     "leaves it out, and the cell is taken as one that always drives")
        self.design.netlist = self._with_ascending(self.builder.netlist())
        self._add_sources()
        return self.design

    def _with_ascending(self, netlist: Netlist) -> Netlist:
        """The netlist with those of its buses that were declared with the lowest bit leftmost."""
        nets = [net for net in self.module.nets if net.is_upward and net.is_public and len(net.bits) > 1]
        return replace(netlist, ascending={net.name: f"{net.name}[{net.offset}:{net.offset + len(net.bits) - 1}]"
                                           for net in nets if any(name in netlist for name in net.names())})

    def _drivers(self) -> dict[Bit, Cell | None]:
        """What drives each bit: a cell, or None for an input."""
        drivers: dict[Bit, Cell | None] = dict.fromkeys(self.module.inputs.values())
        for cell in self.cells:
            for port in cell.outputs:
                for bit in cell.ports[port]:
                    if bit in drivers:
                        raise self.module.fault(f"the cell {cell.name} of type {cell.type} drives a net that is driven already"
                                                + _HELP_OF_TRISTATE)
                    drivers[bit] = cell
        return drivers

    def _template_of(self, cell: Cell) -> Template | NotHad | None:
        outputs = frozenset(port for port in cell.outputs if cell.ports[port])
        try:
            return self.templates.of(cell, outputs)
        except NotHad as cause:
            return cause

    def _is_register(self, cell: Cell) -> bool:
        template = self.made[cell.name]
        return register_of(cell) is not None or isinstance(template, Template) and bool(template.flops)

    def _clocks(self) -> set[Bit]:
        """The inputs that nothing but clocks of flip-flops reads. A further name of such a one would only be in the way: it is the clock
        that has the input's name."""
        clocks, read = set[Bit](), set[Bit]()
        for cell in self.cells:
            template = self.made[cell.name]
            own = {flop.clock for flop in template.flops.values()} if isinstance(template, Template) else ()
            for port, bits in cell.ports.items():
                if port not in cell.outputs:
                    (clocks if port in own else read).update(bits)
        return clocks & set(self.module.inputs.values()) - read

    def _add_sources(self) -> None:
        """The place in the source of each net that has one: that of the cell which drives it, or of its declaration where this is in another
        file, as where the cells are those of a mapped netlist."""
        for net in self.module.nets:
            for name, bit in zip(net.names(), net.bits):
                driver = self.drivers.get(bit)
                places = [own.source[-1] for own in (driver, net) if own and own.source]
                if places:
                    is_elsewhere = net.is_public and places[0].partition(":")[0] != places[-1].partition(":")[0]
                    self.design.sources[name] = places[-1] if is_elsewhere else places[0]

    def signal(self, bit: Bit) -> str:
        """The signal of a bit, that of a constant too."""
        if bit in CONSTANTS:
            return self.builder.constant("x" if bit == "z" else str(bit))
        name = self.names.of[bit]
        if bit not in self.drivers:
            self.undriven.setdefault(bit, name)
        return name

    def alias(self, name: str, bit: Bit) -> None:
        """A further name of a net."""
        source = self.signal(bit)
        if source != name and name not in self.builder.gates:
            self.builder.gate(name, Kind.BUFF, (source,))

    def cell(self, cell: Cell) -> None:
        """The gates and flip-flops of a cell."""
        template = self.made[cell.name]
        if not isinstance(template, Template):
            raise self._refusal(cell, template)
        ports = {port if len(bits) == 1 else f"{port}[{place}]": bit for port, bits in cell.ports.items() for place, bit in enumerate(bits)}
        names = {port: self.signal(bit) for port, bit in ports.items()}
        outputs = tuple(port for port in template.gates if port in ports)
        for symbol, stem in template.fresh.items():
            names[symbol] = self.builder.fresh(plain_name(cell.name) if template.is_library else names[stem])
            if cell.source:
                self.design.sources[names[symbol]] = cell.source[-1]
        names.update((symbol, self.builder.constant(value)) for symbol, value in template.constants.items())
        for symbol, gate in template.gates.items():
            pins = [self._pin(pin, template, names, cell) for pin in gate.pins]
            if symbol not in names:
                raise self._no_bit(cell, symbol)
            self.builder.gate(names[symbol], gate.kind, pins)
        instance = self.design.instances[cell.name] = Instance(cell.type, template, names, outputs)
        self._take_flops(cell, instance, ports)

    def _pin(self, symbol: str, template: Template, names: dict[str, str], cell: Cell) -> str:
        if symbol not in names:
            if symbol not in template.inverters or template.inverters[symbol] not in names:
                raise self._no_bit(cell, template.inverters.get(symbol, symbol))
            names[symbol] = self.builder.inverted(names[template.inverters[symbol]])
        return names[symbol]

    def _no_bit(self, cell: Cell, port: str) -> FormatError:
        count = len(cell.ports.get(port, ()))
        return self.module.fault(f"the cell {cell.name} of type {cell.type} has {count} bits at its port {port}, and not one")

    def _take_flops(self, cell: Cell, instance: Instance, ports: dict[str, Bit]) -> None:
        """The edges, initial values and resets of the flip-flops of a cell."""
        template, names = instance.template, instance.names
        edges = {}
        for flop in template.flops.values():
            if flop.clock not in ports:
                raise self._no_bit(cell, flop.clock)
            if ports[flop.clock] in CONSTANTS:
                raise self.module.fault(f"the register {self.shown(cell)} has a constant for a clock")
            edges[flop.register] = self.design.edges[names[flop.symbol]] = Edge(names[flop.clock], flop.is_falling)
            init = self.inits.get(ports.get(flop.register, ""))
            if init is not None:
                self.design.initials[names[flop.symbol]] = init
        for own in template.resets:
            if ports.get(own.port, "0") not in CONSTANTS:
                control = replace(own, port=names[own.port], register=names[own.register], flop=names[own.flop])
                self.design.resets.append((control, edges[own.register]))

    def shown(self, cell: Cell) -> str:
        bits = [bit for port in cell.outputs for bit in cell.ports[port]]
        return self.names.of.get(bits[0], cell.name) if bits else cell.name

    def _refusal(self, cell: Cell, cause: NotHad | None) -> FormatError:
        """Why a cell can't be had."""
        where = f"the cell {cell.name} of type {cell.type}"
        if isinstance(cause, NeedsHow):
            return self.module.fault(f"the register {self.shown(cell)} has an asynchronous reset: say by --async-reset whether it acts at the "
                                     "next edge (edge) or by gates behind the flip-flop (gates)")
        if cause is not None:
            return self.module.fault(f"{where} can't be had: {cause}")
        other = why_not(cell)
        if other:
            return self.module.fault(f"the register {self.shown(cell)} can't be had, of type {cell.type}: {other}")
        if cell.type in _TRISTATE:
            return self.module.fault(f"{where} is tri-state, and no gate{_HELP_OF_TRISTATE}")
        return self.module.fault(f"{where} is no gate: flatten the design and map it to gates (`synth -flatten -noabc`), or have Yosys read "
                                 "the cells of its library (`read_liberty -wb`)")
