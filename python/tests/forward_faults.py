"""A plain forward fault simulator, which shares no code with the package: for circuits whose gates settle between the times at which
something happens. All faults are simulated beside one another, a bit for each: a signal is two whole numbers, the faults with which it
is 1 and those with which it is 0."""
from __future__ import annotations

import random
from dataclasses import dataclass, field


@dataclass
class Circuit:
    """Inputs, outputs and gates, each a kind and its pins; a gate stands after those that its pins read, but for flip-flops."""

    inputs: list[str]
    outputs: list[str] = field(default_factory=list)
    gates: dict[str, tuple[str, list[str]]] = field(default_factory=dict)
    delays: dict[str, int] = field(default_factory=dict)
    initial: dict[str, str] = field(default_factory=dict)

    def flops(self) -> list[str]:
        return [name for name, (kind, _) in self.gates.items() if kind == "DFF"]

    def netlist(self) -> str:
        lines = [f"INPUT({name})" for name in self.inputs] + [f"OUTPUT({name})" for name in self.outputs]
        return "\n".join(lines + [f"{name} = {kind}({', '.join(pins)})" for name, (kind, pins) in self.gates.items()]) + "\n"

    def timing(self, first: int, period: int) -> str:
        lines = [f"clock {first} {period}"] + [f"delay {name} {delay}" for name, delay in self.delays.items()]
        return "\n".join(lines + [f"init {name} {value}" for name, value in self.initial.items()]) + "\n"

    def longest(self) -> int:
        """The longest path from an input or a flip-flop."""
        latest = dict.fromkeys(self.inputs, 0)
        for name, (kind, pins) in self.gates.items():
            if kind == "DFF":
                latest[name] = self.delays[name]
        for name, (kind, pins) in self.gates.items():
            if kind != "DFF":
                latest[name] = max(latest[pin] for pin in pins) + self.delays[name]
        return max(latest.values())

    def lines(self) -> list[tuple[str, str | None, int]]:
        """All lines: stems, and branches of what is read in several places. The branch to an output has the reader ""."""
        readers: dict[str, list[tuple[str, str | None, int]]] = {name: [] for name in [*self.inputs, *self.gates]}
        for name, (_, pins) in self.gates.items():
            for place, pin in enumerate(pins):
                readers[pin].append((pin, name, place))
        for name in self.outputs:
            readers[name].append((name, "", 0))
        return [line for name, own in readers.items() for line in [(name, None, 0), *(own if len(own) > 1 else [])]]


def made_up(seed: int, inputs: int, gates: int, flops: int, outputs: int, exclusive: int = 1) -> Circuit:
    """A circuit made up from a number. With a greater `exclusive` more gates are XOR and XNOR, which hand every change on, and
    flip-flops begin with 0 or 1."""
    draw = random.Random(seed)
    circuit = Circuit([f"i{place}" for place in range(inputs)])
    registers = [f"q{place}" for place in range(flops)]
    names = circuit.inputs + registers
    made: dict[str, tuple[str, list[str]]] = {}
    for place in range(gates):
        kind = draw.choice(("AND", "NAND", "OR", "NOR", "NOT", "BUFF", *("XOR", "XNOR") * exclusive))
        count = 1 if kind in ("NOT", "BUFF") else draw.choice((1, 2, 2, 2, 3, 4))
        near = names[-max(40, gates // 4):] if draw.random() < 0.7 else names
        made[f"g{place}"] = (kind, [draw.choice(near) for _ in range(count)])
        names.append(f"g{place}")
    circuit.gates = {name: ("DFF", [draw.choice(names[inputs:])]) for name in registers} | made
    circuit.outputs = draw.sample(names[inputs:], outputs)
    circuit.delays = {name: draw.randint(1, 3) for name in circuit.gates}
    circuit.initial = {name: draw.choice("01x" if exclusive == 1 else "01") for name in registers}
    return circuit


class Simulation:
    """All faults of a circuit, each a line and the value `0` or `1` at which it is stuck."""

    def __init__(self, circuit: Circuit) -> None:
        self.circuit = circuit
        self.faults = [(line, value) for line in circuit.lines() for value in "01"]
        self.all = (1 << len(self.faults)) - 1
        # for each line the faults that hold it at 1, and those that hold it at 0
        self.held: dict[tuple[str, str | None, int], tuple[int, int]] = {}
        for place, (line, value) in enumerate(self.faults):
            ones, zeros = self.held.get(line, (0, 0))
            self.held[line] = (ones | (value == "1") << place, zeros | (value == "0") << place)

    def hold(self, line: tuple[str, str | None, int], value: tuple[int, int]) -> tuple[int, int]:
        ones, zeros = self.held.get(line, (0, 0))
        return (value[0] & ~zeros) | ones, (value[1] & ~ones) | zeros

    def known(self, value: str) -> tuple[int, int]:
        return (self.all if value == "1" else 0, self.all if value == "0" else 0)

    def gate(self, kind: str, pins: list[tuple[int, int]]) -> tuple[int, int]:
        ones, zeros = pins[0]
        for other_ones, other_zeros in pins[1:]:
            if kind in ("AND", "NAND"):
                ones, zeros = ones & other_ones, zeros | other_zeros
            elif kind in ("OR", "NOR"):
                ones, zeros = ones | other_ones, zeros & other_zeros
            else:
                ones, zeros = ones & other_zeros | zeros & other_ones, ones & other_ones | zeros & other_zeros
        return (zeros, ones) if kind in ("NAND", "NOR", "XNOR", "NOT") else (ones, zeros)

    def first_shown(self, patterns: list[str]) -> dict[tuple[tuple[str, str | None, int], str], int | None]:
        """For each fault the number of the first pattern that shows it, where the flip-flops have an edge after each pattern has
        settled, and the tester looks when all has settled again. Fault-free values are those of a simulation with no line held."""
        held = self.held
        good = self.outputs(patterns, {})
        bad = self.outputs(patterns, held)
        shown: dict[tuple[tuple[str, str | None, int], str], int | None] = dict.fromkeys(self.faults)
        for number, (right, wrong) in enumerate(zip(good, bad)):
            for output in self.circuit.outputs:
                ones, zeros = right[output]
                own = self.hold((output, "", 0), wrong[output])
                differs = ones & own[1] | zeros & own[0]
                for place, fault in enumerate(self.faults):
                    if differs >> place & 1 and shown[fault] is None:
                        shown[fault] = number
        return shown

    def outputs(self, patterns: list[str], held: dict) -> list[dict[str, tuple[int, int]]]:
        self.held, kept = held, self.held
        state = {name: self.known(self.circuit.initial[name]) for name in self.circuit.flops()}
        rows = []
        for pattern in patterns:
            values = self.settled(pattern, state)
            state = {name: self.hold((pins[0], name, 0), values[pins[0]])
                     for name, (kind, pins) in self.circuit.gates.items() if kind == "DFF"}
            rows.append(self.settled(pattern, state))
        self.held = kept
        return rows

    def settled(self, pattern: str, state: dict[str, tuple[int, int]]) -> dict[str, tuple[int, int]]:
        values = {name: self.hold((name, None, 0), self.known(value)) for name, value in zip(self.circuit.inputs, pattern)}
        values |= {name: self.hold((name, None, 0), value) for name, value in state.items()}
        for name, (kind, pins) in self.circuit.gates.items():
            if kind != "DFF":
                seen = [self.hold((pin, name, place), values[pin]) for place, pin in enumerate(pins)]
                values[name] = self.hold((name, None, 0), self.gate(kind, seen))
        return values
