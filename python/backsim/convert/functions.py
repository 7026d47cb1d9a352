"""What the outputs and the flip-flops of a module compute, as tables over its inputs and its states."""
from __future__ import annotations

from collections.abc import Callable, Mapping, Sequence

from ..records import dataclass
from .registers import Reset, register_of, why_not
from .tables import function_of
from .yosys import CONSTANTS, Bit, Cell, Module

MOST_SOURCES = 16
_GATES: dict[str, tuple[str, Callable[[int, Sequence[int]], int]]] = {
    "$_BUF_": ("A", lambda full, pins: pins[0]), "$_NOT_": ("A", lambda full, pins: full ^ pins[0]),
    "$_AND_": ("AB", lambda full, pins: pins[0] & pins[1]), "$_NAND_": ("AB", lambda full, pins: full ^ (pins[0] & pins[1])),
    "$_OR_": ("AB", lambda full, pins: pins[0] | pins[1]), "$_NOR_": ("AB", lambda full, pins: full ^ (pins[0] | pins[1])),
    "$_XOR_": ("AB", lambda full, pins: pins[0] ^ pins[1]), "$_XNOR_": ("AB", lambda full, pins: full ^ pins[0] ^ pins[1]),
    "$_ANDNOT_": ("AB", lambda full, pins: pins[0] & (full ^ pins[1])), "$_ORNOT_": ("AB", lambda full, pins: pins[0] | (full ^ pins[1])),
    "$_MUX_": ("ABS", lambda full, pins: (full ^ pins[2]) & pins[0] | pins[2] & pins[1]),
    "$_NMUX_": ("ABS", lambda full, pins: full ^ ((full ^ pins[2]) & pins[0] | pins[2] & pins[1])),
    "$_AOI3_": ("ABC", lambda full, pins: full ^ (pins[0] & pins[1] | pins[2])),
    "$_OAI3_": ("ABC", lambda full, pins: full ^ ((pins[0] | pins[1]) & pins[2])),
    "$_AOI4_": ("ABCD", lambda full, pins: full ^ (pins[0] & pins[1] | pins[2] & pins[3])),
    "$_OAI4_": ("ABCD", lambda full, pins: full ^ ((pins[0] | pins[1]) & (pins[2] | pins[3]))),
}


class NotHad(Exception):
    """A cell that can't be had; the text says why."""


@dataclass(frozen=True, slots=True)
class Function:
    """A function of sources, which are inputs and states: bit k of `bits` is its value where source i is bit i of k."""

    sources: tuple[str, ...]
    bits: int

    @property
    def is_identity(self) -> bool:
        """Whether it is its only source."""
        return len(self.sources) == 1 and self.bits == 0b10

    def with_fixed(self, fixed: Mapping[str, Bit]) -> int | None:
        """The value that it has for all settings where these sources are fixed at `0` or `1`; None where it has both."""
        values = {self.bits >> index & 1 for index in range(1 << len(self.sources))
                  if all(fixed.get(source, str(index >> place & 1)) == str(index >> place & 1) for place, source in enumerate(self.sources))}
        return values.pop() if len(values) == 1 else None


@dataclass(frozen=True, slots=True)
class State:
    """A flip-flop of a module, by bits: its clock and whether falls count, what it takes, and what sets and clears it at once (1 means
    that it acts). A clear goes before a set."""

    clock: Bit
    is_falling: bool
    data: Bit
    preset: Bit
    clear: Bit
    is_asynchronous: bool


class Functions:
    """The functions of the bits of a module of a library, whose cells are Yosys's own of one bit."""

    def __init__(self, module: Module) -> None:
        self.module = module
        self.states: dict[str, State] = {}
        self._names: dict[Bit, str] = {bit: name for name, bit in module.inputs.items()}
        self._drivers: dict[Bit, Cell] = {}
        self._made: dict[Bit, Function] = {}
        self._next = -1
        for cell in module.cells:
            for port in cell.outputs:
                for bit in cell.ports[port]:
                    self._drivers[bit] = cell
        for cell in module.cells:
            self._take_state(cell)

    def unused(self) -> list[str]:
        """The inputs on which neither an output nor a flip-flop depends: that of a tri-state cell which enables it is such a one, since
        `read_liberty` leaves it out. None where what an output depends on is not known."""
        bits = [*self.module.outputs.values()]
        for state in self.states.values():
            bits += state.clock, state.data, state.preset, state.clear
        try:
            used = {source for bit in bits for source in self._sources_of(bit)}
        except NotHad:
            return []
        return [name for name, bit in self.module.inputs.items() if bit not in used]

    def _take_state(self, cell: Cell) -> None:
        register = register_of(cell)
        if register is None:
            cause = why_not(cell)
            if cause:
                raise NotHad(cause)
            return
        (q,) = cell.ports["Q"]
        name = next((name for net in self.module.nets for name, bit in zip(net.names(), net.bits)
                     if bit == q and net.is_public and not net.is_port), f"state{len(self.states)}")
        self._names[q] = name
        data = cell.ports["D"][0]
        if register.reset is Reset.AFTER_ENABLE:
            data = self._forced(data, cell.ports["R"][0], register.active, register.value)
        if register.enable is not None:
            ports = (q, data) if register.enable == "1" else (data, q)
            data = self._new("$_MUX_", A=ports[0], B=ports[1], S=cell.ports["E"][0])
        if register.reset is Reset.BEFORE_ENABLE:
            data = self._forced(data, cell.ports["R"][0], register.active, register.value)
        preset: Bit = "0"
        clear: Bit = "0"
        is_asynchronous = register.reset is Reset.ASYNCHRONOUS
        if is_asynchronous:
            for port, active, value in register.controls():
                acts = self._level(cell.ports[port][0], active)
                preset, clear = (acts, clear) if value == "1" else (preset, acts)
        self.states[name] = State(cell.ports["C"][0], register.is_falling, data, preset, clear, is_asynchronous)

    def _new(self, kind: str, **ports: Bit) -> Bit:
        """A bit with a cell of its own that drives it."""
        bit, self._next = self._next, self._next - 1
        self._drivers[bit] = Cell("", kind, {}, {port: (own,) for port, own in ports.items()} | {"Y": (bit,)}, ("Y",))
        return bit

    def _level(self, bit: Bit, active: str) -> Bit:
        return bit if active == "1" else self._new("$_NOT_", A=bit)

    def _forced(self, data: Bit, reset: Bit, active: str, value: str) -> Bit:
        """The data, or the value where the reset is active."""
        zero, one = (data, value) if active == "1" else (value, data)
        return self._new("$_MUX_", A=zero, B=one, S=reset)

    def of(self, bit: Bit) -> Function:
        """The function of a bit, without sources that do not matter. NotHad where a cell is not of Yosys's own, gates make a cycle,
        or there are more than 16 sources."""
        if bit not in self._made:
            sources = self._sources_of(bit)
            if len(sources) > MOST_SOURCES:
                raise NotHad(f"one of its outputs depends on {len(sources)} signals, more than {MOST_SOURCES}")
            size = 1 << len(sources)
            full = (1 << size) - 1
            values: dict[Bit, int] = {"0": 0, "1": full}
            for place, source in enumerate(sources):
                # bit k of it is bit `place` of k
                run = 1 << place
                values[source] = sum(((1 << run) - 1) << start for start in range(run, size, 2 * run))
            reduced = function_of(self._value(bit, full, values), len(sources))
            self._made[bit] = Function(tuple(self._names[sources[place]] for place in reduced.places), reduced.bits)
        return self._made[bit]

    def _sources_of(self, bit: Bit) -> list[Bit]:
        """The inputs and states that a bit is made of."""
        found: dict[Bit, None] = {}
        seen: set[Bit] = set()
        left = [bit]
        while left:
            own = left.pop()
            if own in seen or own in CONSTANTS:
                continue
            seen.add(own)
            if own in self._names:
                found[own] = None
                continue
            cell = self._drivers.get(own)
            if cell is None:
                raise NotHad("nothing drives one of its nets")
            if cell.type not in _GATES:
                raise NotHad(f"it holds a cell of type {cell.type}, which is no gate: run `techmap` on the library")
            left += [cell.ports[port][0] for port in reversed(_GATES[cell.type][0])]
        order = {bit: place for place, bit in enumerate(self._names)}
        return sorted(found, key=order.__getitem__)

    def _value(self, bit: Bit, full: int, values: dict[Bit, int]) -> int:
        open_bits = [bit]
        while open_bits:
            own = open_bits[-1]
            if own in values:
                open_bits.pop()
                continue
            if own in CONSTANTS:
                raise NotHad("one of its nets has the constant x or z; of a tri-state output `tribuf -logic` makes gates")
            cell = self._drivers[own]
            ports, made = _GATES[cell.type]
            pins = [cell.ports[port][0] for port in ports]
            missing = [pin for pin in pins if pin not in values]
            if not missing:
                values[own] = made(full, [values[pin] for pin in pins])
            elif len(open_bits) > len(self._drivers) + 1:
                raise NotHad("its gates make a cycle, so it is a latch")
            else:
                open_bits.extend(missing)
        return values[bit]
