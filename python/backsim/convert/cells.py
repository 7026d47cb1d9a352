"""What a cell computes, as a template: gates and flip-flops over the cell's ports, made once for a type and copied for each instance.

A cell is one of Yosys's own of one bit, or a module of a library that Yosys has read (`read_liberty`, or behavioural models by
`read_verilog`). Each output has gates of its own, which make a tree, so that the delay from each pin to each output can be stated
(`convert/annotate.py`). A name within a template is a symbol: a port, a flip-flop, or what `Builder.fresh` makes of one."""
from __future__ import annotations

import enum
from collections.abc import Iterable, Iterator, Mapping
from dataclasses import field

from ..circuit.kinds import Kind
from ..formats.netlist import Gate
from ..records import dataclass
from .build import Builder
from .functions import MOST_SOURCES, Function, Functions, NotHad, State
from .registers import Register, Reset, register_of
from .yosys import CONSTANTS, Bit, Cell, Module

PLAIN = {"$_BUF_": Kind.BUFF, "$_NOT_": Kind.NOT, "$_AND_": Kind.AND, "$_NAND_": Kind.NAND, "$_OR_": Kind.OR, "$_NOR_": Kind.NOR,
         "$_XOR_": Kind.XOR, "$_XNOR_": Kind.XNOR}


class Asynchronous(enum.Enum):
    """What becomes of an asynchronous set or reset.

    EDGE: the register stays a flip-flop of its name, and the reset acts at the next edge of its clock. GATES: the register's name is
    that of gates which show the reset at once, and the flip-flop behind them has a new name. Both have what the source has after each
    edge, if each time that the reset is active has an edge in it."""

    EDGE = "edge"
    GATES = "gates"


class NeedsHow(NotHad):
    """A register has an asynchronous set or reset, and nobody said how it is to act."""


@dataclass(frozen=True, slots=True)
class Flop:
    """A flip-flop of a template: its symbol, the port of its clock, whether falls count, and the symbol that shows it."""

    symbol: str
    clock: str
    is_falling: bool
    register: str


@dataclass(frozen=True, slots=True)
class Control:
    """An asynchronous set or reset: its port and the value at which it acts, the symbols of the register and of its flip-flop, and the
    value that it gives these. `is_alone` where the flip-flop has no other and this port alone makes it act."""

    port: str
    active: str
    register: str
    flop: str
    value: str
    is_alone: bool


@dataclass(slots=True)
class Template:
    """Gates and flip-flops by their symbols, in the order of their making. `fresh` has the symbols that need a new name, each with the
    symbol that it is made of, `inverters` the ports whose negations are read, `constants` the values of symbols that stand for one, and `resets` the asynchronous sets and
    resets."""

    gates: dict[str, Gate] = field(default_factory=dict)
    fresh: dict[str, str] = field(default_factory=dict)
    inverters: dict[str, str] = field(default_factory=dict)
    constants: dict[str, str] = field(default_factory=dict)
    flops: dict[str, Flop] = field(default_factory=dict)
    resets: list[Control] = field(default_factory=list)
    is_library: bool = False

    def leaves(self, symbol: str) -> Iterator[Leaf]:
        """The pins at which what an output shows begins: a pin of a gate that reads a port or its negation, and a flip-flop."""
        return self._leaves(symbol, 0, frozenset())

    def pin_leaves(self, flop: str) -> Iterator[Leaf]:
        """The pins at which what a flip-flop takes begins; its own pin where no gate is before it."""
        registers = frozenset({*self.flops, *(own.register for own in self.flops.values())})
        pin = self.gates[flop].pins[0]
        if pin in self.gates and pin not in registers:
            return self._leaves(pin, 0, registers)
        return iter([Leaf(self.inverters.get(pin, pin), flop, 0, int(pin in self.inverters))])

    def _leaves(self, symbol: str, after: int, registers: frozenset[str]) -> Iterator[Leaf]:
        """`after` gates come behind the symbol; a path begins at a symbol of `registers`."""
        gate = self.gates[symbol]
        if gate.kind is Kind.DFF:
            yield Leaf(self.flops[symbol].clock, symbol, 0, after)
            return
        for place, pin in enumerate(gate.pins):
            if pin in self.inverters:
                yield Leaf(self.inverters[pin], symbol, place, after + 1)
            elif pin in self.gates and pin not in registers:
                yield from self._leaves(pin, after + 1, registers)
            else:
                yield Leaf(pin, symbol, place, after)


@dataclass(frozen=True, slots=True)
class Leaf:
    """A pin of a gate where a path from a port begins: the port, or the symbol of a register that is fed back; the gate and the pin's
    place; and how many gates and inverters are on the rest of the path."""

    source: str
    gate: str
    place: int
    after: int
    is_inverted: bool = False


class _Recorder(Builder):
    """Keeps which symbols are new names and which are negations."""

    def __init__(self, taken: Iterable[str], template: Template) -> None:
        super().__init__(taken)
        self.template = template

    def fresh(self, stem: str) -> str:
        name = super().fresh(stem)
        self.template.fresh[name] = stem
        return name

    def inverted(self, signal: str, line: int = 0) -> str:
        is_new = signal not in self._inverted
        name = super().inverted(signal, line)
        if is_new:
            del self.template.fresh[name]
            self.template.inverters[name] = signal
        return name

    def constant(self, value: str) -> str:
        name = super().constant(value)
        self.template.constants[name] = value
        return name

    def finished(self) -> Template:
        self.template.gates = {symbol: gate for symbol, gate in self.gates.items() if symbol not in self.template.inverters}
        return self.template


class Templates:
    """The templates of the types of one file. `modules` are those of a library, by their names. `unused` has the inputs of these on which
    nothing depends, by the types that were met."""

    def __init__(self, modules: Mapping[str, Module], how: Asynchronous | None) -> None:
        self._modules, self._how = modules, how
        self._made: dict[tuple[object, ...], Template] = {}
        self._functions: dict[str, Functions] = {}
        self.unused: dict[str, list[str]] = {}

    def of(self, cell: Cell, outputs: frozenset[str]) -> Template | None:
        """The template of a cell of which these outputs are connected; None where its type is neither of Yosys's own nor of the library.
        NotHad where it is a latch, has a gated clock, or can't be had for another cause."""
        fixed = tuple(sorted((port, bits[0]) for port, bits in cell.ports.items() if len(bits) == 1 and bits[0] in ("0", "1")))
        key = (cell.type, outputs, fixed if cell.type in self._modules else (), cell.parameters.get("LUT"), len(cell.ports.get("A", ())))
        if key not in self._made:
            made = self._library(cell, outputs, dict(fixed)) if cell.type in self._modules else own_template(cell, self._how)
            if made is None:
                return None
            self._made[key] = made
        return self._made[key]

    def _library(self, cell: Cell, outputs: frozenset[str], fixed: Mapping[str, Bit]) -> Template:
        if cell.type not in self._functions:
            functions = self._functions[cell.type] = Functions(self._modules[cell.type])
            unused = functions.unused()
            if unused and self._modules[cell.type].outputs:
                self.unused[cell.type] = unused
        return _LibraryMaker(self._functions[cell.type], self._how, fixed).made(outputs)


class _LibraryMaker:
    """Makes the template of one module of a library."""

    def __init__(self, functions: Functions, how: Asynchronous | None, fixed: Mapping[str, Bit]) -> None:
        self.functions, self.how, self.fixed = functions, how, fixed
        self.template = Template(is_library=True)
        self.make = _Recorder([*functions.module.inputs, *functions.module.outputs, *functions.states], self.template)
        self.shown: dict[str, str] = {}  # by the name of a state, the symbol that is read where it is fed back
        self.pins: dict[str, str] = {}   # and the symbol at the pin of its flip-flops

    def made(self, outputs: frozenset[str]) -> Template:
        found = {port: self.functions.of(bit) for port, bit in self.functions.module.outputs.items() if port in outputs}
        for port, function in found.items():
            # an output that shows a state as it is has the name of its flip-flop; of two the first
            if function.is_identity and function.sources[0] in self.functions.states:
                self.shown.setdefault(function.sources[0], port)
        for port, function in found.items():
            sources = [source if source not in self.functions.states or self.shown.get(source) == port
                       else self.flop(source, self.make.fresh(source)) for source in function.sources]
            if function.is_identity and self.shown.get(sources[0]) == port:
                self.flop(sources[0], port)
            else:
                self.make.table(port, function.bits, sources)
        return self.make.finished()

    def flop(self, state: str, register: str) -> str:
        """A flip-flop that has the state, with the gates of its set and reset; `register` is the symbol that shows it. Each output has
        one of its own, so that it has a delay of its own."""
        own = self.functions.states[state]
        self.shown.setdefault(state, register)
        clock = self.functions.of(own.clock)
        if len(clock.sources) != 1 or clock.sources[0] in self.functions.states:
            raise NotHad("its clock is gated, or made within the cell")
        controls = self.controls(own)
        if controls and self.how is None:
            raise NeedsHow
        if state not in self.pins:
            self.pins[state] = self.pin(state, own.data, controls)
        is_gated = bool(controls) and self.how is Asynchronous.GATES
        symbol = self.make.fresh(state) if is_gated else register
        self.make.gate(symbol, Kind.DFF, (self.pins[state],))
        self.template.flops[symbol] = Flop(symbol, clock.sources[0], own.is_falling != (clock.bits == 0b01), register)
        if is_gated:
            self.with_controls(register, symbol, controls)
        for function, value in controls:
            is_alone = len(controls) == len(function.sources) == 1
            self.template.resets.extend(Control(source, "1" if function.is_identity else "0", register, symbol, value, is_alone)
                                        for source in function.sources)
        return register

    def controls(self, state: State) -> list[tuple[Function, str]]:
        """What sets and clears the state at once, with the value; not what constants at pins keep from acting."""
        both = [(self.functions.of(state.preset), "1"), (self.functions.of(state.clear), "0")]
        return [(function, value) for function, value in both if function.with_fixed(self.fixed) != 0]

    def pin(self, state: str, data: Bit, controls: list[tuple[Function, str]]) -> str:
        """The symbol of what the flip-flops of a state take: a port, or a gate."""
        function = self.functions.of(data)
        sources = []
        for source in function.sources:
            if source in self.functions.states and source not in self.shown:
                self.flop(source, self.make.fresh(source))
            sources.append(self.shown.get(source, source))
        symbol = sources[0] if function.is_identity else self.make.table(self.make.fresh(state), function.bits, sources)
        return self.with_controls(self.make.fresh(state), symbol, controls) if controls else symbol

    def with_controls(self, name: str, pin: str, controls: list[tuple[Function, str]]) -> str:
        """The gate `name`: the pin, or the value of the set or reset that acts; of two the reset goes before."""
        for place, (function, value) in enumerate(controls):
            own = name if place == len(controls) - 1 else self.make.fresh(name)
            pin = self.make.gate(own, Kind.OR if value == "1" else Kind.AND, (pin, self.active(function, value)))
        return pin

    def active(self, function: Function, value: str) -> str:
        """A symbol that has `value` exactly while the set or reset acts."""
        if len(function.sources) == 1:
            source = function.sources[0]
            return source if function.is_identity == (value == "1") else self.make.inverted(source)
        every = (1 << (1 << len(function.sources))) - 1
        return self.make.table(self.make.fresh("acts"), function.bits if value == "1" else every ^ function.bits, list(function.sources))


def own_template(cell: Cell, how: Asynchronous | None) -> Template | None:
    """The template of a cell of Yosys's own; None of any other."""
    template = Template()
    register = register_of(cell)
    make = _Recorder([*cell.ports, "A", "B", "C", "D", "E", "Q", "R", "S", "Y"], template)
    if register is not None:
        _make_register(make, register, how)
    elif cell.type in PLAIN:
        make.gate("Y", PLAIN[cell.type], "A" if PLAIN[cell.type].is_unary else "AB")
    elif cell.type == "$lut":
        _make_table(make, cell)
    elif cell.type in ("$_MUX_", "$_NMUX_"):
        make.mux("Y", "S", "A", "B", cell.type == "$_NMUX_")
    elif cell.type in ("$_ANDNOT_", "$_ORNOT_"):
        make.gate("Y", Kind.AND if cell.type == "$_ANDNOT_" else Kind.OR, ("A", make.inverted("B")))
    elif cell.type in ("$_AOI3_", "$_OAI3_", "$_AOI4_", "$_OAI4_"):
        inner, outer = (Kind.AND, Kind.NOR) if cell.type.startswith("$_AOI") else (Kind.OR, Kind.NAND)
        first = make.gate(make.fresh("Y"), inner, "AB")
        make.gate("Y", outer, (first, make.gate(make.fresh("Y"), inner, "CD") if cell.type.endswith("4_") else "C"))
    else:
        return None
    return make.finished()


def _make_table(make: _Recorder, cell: Cell) -> None:
    table, pins = cell.parameters.get("LUT", ""), len(cell.ports.get("A", ()))
    if not table or table.strip("01") or pins > MOST_SOURCES:
        raise NotHad(f"it has no table of 0 and 1, or more than {MOST_SOURCES} pins")
    ports = ["A"] if pins == 1 else [f"A[{place}]" for place in range(pins)]
    make.table("Y", int(table, 2) & ((1 << (1 << pins)) - 1), ports)


def _make_register(make: _Recorder, register: Register, how: Asynchronous | None) -> None:
    """The flip-flop, with the gates of its enable, its set and its reset before it."""
    if any(bit in CONSTANTS for bit in register.cell.ports.get("C", ())):
        raise NotHad("it has a constant for a clock")
    controls = register.controls()
    is_asynchronous = register.reset is Reset.ASYNCHRONOUS
    if is_asynchronous and how is None:
        raise NeedsHow
    is_gated = is_asynchronous and how is Asynchronous.GATES
    flop, pin = make.fresh("Q") if is_gated else "Q", "D"
    if register.reset is Reset.AFTER_ENABLE:
        pin = _with_controls(make, make.fresh("Q"), pin, controls)
    if register.enable is not None:
        zero, one = ("Q", pin) if register.enable == "1" else (pin, "Q")
        pin = make.mux(make.fresh("Q"), "E", zero, one)
    if register.reset in (Reset.BEFORE_ENABLE, Reset.ASYNCHRONOUS):
        pin = _with_controls(make, make.fresh("Q"), pin, controls)
    make.gate(flop, Kind.DFF, (pin,))
    make.template.flops[flop] = Flop(flop, "C", register.is_falling, "Q")
    if is_gated:
        _with_controls(make, "Q", flop, controls)
    if is_asynchronous:
        make.template.resets.extend(Control(port, active, "Q", flop, value, len(controls) == 1) for port, active, value in controls)


def _with_controls(make: _Recorder, name: str, pin: str, controls: list[tuple[str, str, str]]) -> str:
    """The gate `name`: the pin, or the value of the set or reset that is active; of two the last goes before."""
    for place, (port, active, value) in enumerate(controls):
        line = port if active == value else make.inverted(port)
        own = name if place == len(controls) - 1 else make.fresh("Q")
        pin = make.gate(own, Kind.OR if value == "1" else Kind.AND, (pin, line))
    return pin
