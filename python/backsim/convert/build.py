"""Makes netlists gate by gate, with new names for what a source does not name."""
from __future__ import annotations

import re
from collections.abc import Iterable, Sequence
from itertools import count

from ..circuit.kinds import Kind
from ..formats.netlist import Gate, Netlist
from ..limits import MOST_PINS_OF_A_GATE
from .tables import function_of, ones_of, primes_of

ONE, ZERO, UNSET = "vdd", "gnd", "unset"
_CONSTANT = re.compile(r"(vdd|gnd|unset)(?:\$[0-9]+)?")
_VALUES = {ONE: "1", ZERO: "0", UNSET: "x"}
MOST_PINS_OF_A_SUM = 8


def constant_value(name: str) -> str | None:
    """`1` for an input that stands for the constant 1, as `vdd` or `vdd$1`, `0` for `gnd`, `x` for `unset`, and None for another
    name. The kinds of a netlist have no constant, so the converters make an input, and what writes a stimulus sets it at the time 0."""
    parts = _CONSTANT.fullmatch(name)
    return None if parts is None else _VALUES[parts[1]]


class Builder:
    """Collects inputs, outputs and gates. `taken` are the names of the source, which no new name may be."""

    def __init__(self, taken: Iterable[str]) -> None:
        self.inputs: list[str] = []
        self.outputs: list[str] = []
        self.gates: dict[str, Gate] = {}
        self._taken = set(taken)
        self._inverted: dict[str, str] = {}
        self._constants: dict[str, str] = {}

    def netlist(self) -> Netlist:
        """What was collected, with the constants as the last inputs."""
        return Netlist.build((*self.inputs, *self._constants.values()), self.outputs, self.gates.values())

    def fresh(self, stem: str) -> str:
        """A new name: the stem, with `$` and a number behind it."""
        for number in count(1):
            name = f"{stem}${number}"
            if name not in self._taken:
                self._taken.add(name)
                return name
        raise AssertionError

    def constant(self, value: str) -> str:
        """The input that stands for `0`, `1` or `x`: `gnd`, `vdd` or `unset`, with a number behind it where the source has such a
        name."""
        if value not in self._constants:
            name = next(name for name, own in _VALUES.items() if own == value)
            self._constants[value] = self.fresh(name) if name in self._taken else name
            self._taken.add(name)
        return self._constants[value]

    def gate(self, name: str, kind: Kind, pins: Sequence[str], line: int = 0) -> str:
        """A gate of any number of pins from one on: of more than 64 it makes a tree, whose last gate has the name."""
        pins = tuple(pins)
        while len(pins) > MOST_PINS_OF_A_GATE:
            groups = [pins[start:start + MOST_PINS_OF_A_GATE] for start in range(0, len(pins), MOST_PINS_OF_A_GATE)]
            pins = tuple(self.gate(self.fresh(name), kind.positive, group, line) for group in groups)
        self.gates[name] = Gate(name, kind, pins, line)
        return name

    def inverted(self, signal: str, line: int = 0) -> str:
        """The negation of a signal; one gate for all that ask for it."""
        if signal not in self._inverted:
            self._inverted[signal] = self.gate(self.fresh(signal), Kind.NOT, (signal,), line)
        return self._inverted[signal]

    def either(self, name: str, terms: Sequence[Sequence[str]], kind: Kind = Kind.OR, line: int = 0) -> str:
        """OR (or NOR) of terms, each an AND of signals."""
        if len(terms) == 1 and len(terms[0]) > 1:
            return self.gate(name, Kind.AND if kind is Kind.OR else Kind.NAND, terms[0], line)
        pins = [term[0] if len(term) == 1 else self.gate(self.fresh(name), Kind.AND, term, line) for term in terms]
        return self.gate(name, kind, pins, line)

    def mux(self, name: str, select: str, zero: str, one: str, is_negated: bool = False, line: int = 0) -> str:
        """`select ? one : zero`. It has the value of Verilog's conditional operator for 0, 1 and x: the third term makes it known
        where the two choices agree and the select is x."""
        terms = ((self.inverted(select, line), zero), (select, one), (zero, one))
        return self.either(name, terms, Kind.NOR if is_negated else Kind.OR, line)

    def table(self, name: str, bits: int, pins: Sequence[str], line: int = 0) -> str:
        """The function whose value is bit k of `bits`, where pin i is bit i of k. For pins that are x it is known exactly where all
        settings of them give one value, as far as it has at most eight pins that matter."""
        function = function_of(bits, len(pins))
        own = [pins[place] for place in function.places]
        if not own:
            return self.gate(name, Kind.BUFF, (self.constant(str(function.bits)),), line)
        if function.kind is not None:
            return self.gate(name, function.kind, own, line)
        if len(own) > MOST_PINS_OF_A_SUM:
            half = 1 << (len(own) - 1)
            low, high = function.bits & ((1 << half) - 1), function.bits >> half
            zero, one = (self.table(self.fresh(name), part, own[:-1], line) for part in (low, high))
            return self.mux(name, own[-1], zero, one, line=line)
        ones, zeros = (primes_of(part, len(own)) for part in (function.bits, ~function.bits & ((1 << (1 << len(own))) - 1)))
        # the shorter sum; of two that are as long the one with fewer inverters
        chosen, kind = min((ones, Kind.OR), (zeros, Kind.NOR), key=lambda sum_of: (len(sum_of[0]), _inverted_pins(sum_of[0])))
        terms = [[pin if wanted >> place & 1 else self.inverted(pin, line) for place, pin in enumerate(own) if care >> place & 1]
                 for care, wanted in chosen]
        return self.either(name, terms, kind, line)


def _inverted_pins(terms: Sequence[tuple[int, int]]) -> int:
    """How many pins of a sum's terms are inverted."""
    return sum(ones_of(care & ~wanted) for care, wanted in terms)
