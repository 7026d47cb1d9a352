"""A netlist as numbers, for simulation with a bit for each pattern or each fault.

A signal's value is two whole numbers, `ones` and `zeros`: bit k of `ones` says that it is 1 in simulation k, bit k of `zeros` that it is
0; where neither is set it is x, and z counts as x. The tables are those of IEEE 1364."""
from __future__ import annotations

from collections.abc import Callable, Iterator, Sequence

from ..circuit.kinds import Join, Kind
from ..formats.netlist import Gate, Netlist, in_order

Rails = tuple[int, int]
# what a gate's pins are, of all signals' ones and zeros
Kernel = Callable[[Sequence[int], Sequence[int]], Rails]


class Network:
    """The signals numbered: inputs, then flip-flops, then gates, each after those that its pins read. `pins` has the numbers at a gate's
    pins, and none for inputs and flip-flops; `flops` has each flip-flop with the number at its pin. ValueError, with the name of a
    signal on it, where gates make a cycle."""

    def __init__(self, netlist: Netlist) -> None:
        gates = tuple(in_order(netlist))
        flops = netlist.flops()
        self.inputs = len(netlist.inputs)
        self.first_gate = self.inputs + len(flops)
        self.names = (*netlist.inputs, *(flop.name for flop in flops), *(gate.name for gate in gates))
        self.number = {name: number for number, name in enumerate(self.names)}
        self.gates: list[Gate | None] = [*(None for _ in range(self.first_gate)), *gates]
        self.pins: list[tuple[int, ...]] = [() if gate is None else tuple(self.number[pin] for pin in gate.pins) for gate in self.gates]
        self.flops = tuple((self.number[flop.name], self.number[flop.pins[0]]) for flop in flops)
        self.outputs = tuple(self.number[name] for name in netlist.outputs)

    def kernel(self, number: int, pins: Sequence[int] | None = None) -> Kernel:
        """What works out a gate's value; its pins may be read from other places than those of its signals."""
        gate = self.gates[number]
        assert gate is not None
        return kernel_of(gate.kind, self.pins[number] if pins is None else pins)

    def sensitised(self, number: int, place: int, ones: Sequence[int], zeros: Sequence[int], every: int) -> int:
        """The simulations, of `every` one, in which the gate changes from 0 to 1 or back where this pin does so and no other changes."""
        gate = self.gates[number]
        assert gate is not None
        others = [pin for other, pin in enumerate(self.pins[number]) if other != place]
        for pin in others:
            if gate.kind.join is Join.ALL:
                every &= ones[pin]
            elif gate.kind.join is Join.ANY:
                every &= zeros[pin]
            else:
                every &= ones[pin] | zeros[pin]
        return every


def kernel_of(kind: Kind, pins: Sequence[int]) -> Kernel:
    """What works out the value of a gate of this kind. Gates of one pin and of two, which most are, have functions of their own."""
    if len(pins) == 1:
        only, = pins
        if kind.inverts:
            return lambda ones, zeros: (zeros[only], ones[only])
        return lambda ones, zeros: (ones[only], zeros[only])
    if len(pins) == 2:
        return _of_two(kind, *pins)
    return _of_many(kind, tuple(pins))


def _of_two(kind: Kind, one: int, two: int) -> Kernel:
    if kind.join is Join.ALL:
        if kind.inverts:
            return lambda ones, zeros: (zeros[one] | zeros[two], ones[one] & ones[two])
        return lambda ones, zeros: (ones[one] & ones[two], zeros[one] | zeros[two])
    if kind.join is Join.ANY:
        if kind.inverts:
            return lambda ones, zeros: (zeros[one] & zeros[two], ones[one] | ones[two])
        return lambda ones, zeros: (ones[one] | ones[two], zeros[one] & zeros[two])
    if kind.inverts:
        return lambda ones, zeros: (ones[one] & ones[two] | zeros[one] & zeros[two], ones[one] & zeros[two] | zeros[one] & ones[two])
    return lambda ones, zeros: (ones[one] & zeros[two] | zeros[one] & ones[two], ones[one] & ones[two] | zeros[one] & zeros[two])


def _of_many(kind: Kind, pins: tuple[int, ...]) -> Kernel:
    first, rest = pins[0], pins[1:]

    def conjunction(ones: Sequence[int], zeros: Sequence[int]) -> Rails:
        one, zero = ones[first], zeros[first]
        for pin in rest:
            one &= ones[pin]
            zero |= zeros[pin]
        return one, zero

    def exclusive(ones: Sequence[int], zeros: Sequence[int]) -> Rails:
        one, zero = ones[first], zeros[first]
        for pin in rest:
            one, zero = one & zeros[pin] | zero & ones[pin], one & ones[pin] | zero & zeros[pin]
        return one, zero

    # an OR is the AND of the negated pins, negated
    is_any = kind.join is Join.ANY
    is_turned = kind.inverts != is_any
    plain = exclusive if kind.join is Join.ODD else conjunction
    if is_any:
        return (lambda ones, zeros: plain(zeros, ones)[::-1]) if is_turned else lambda ones, zeros: plain(zeros, ones)
    return (lambda ones, zeros: plain(ones, zeros)[::-1]) if is_turned else plain


def bits_of(mask: int) -> Iterator[int]:
    """The places of the bits that are set, ascending."""
    text = bin(mask)[:1:-1]
    place = text.find("1")
    while place >= 0:
        yield place
        place = text.find("1", place + 1)
