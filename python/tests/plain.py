"""A plain simulator and prover, which shares no code with the package: it works out every value by recursion, and the cells of an
explanation by comparing what the rules of docs/meaning/RULES.md say."""
from __future__ import annotations

import random
from functools import lru_cache

KINDS = ("AND", "NAND", "OR", "NOR", "XOR", "XNOR", "NOT", "BUFF", "DFF")


def table(kind: str, pins: list[str]) -> str:
    pins = ["x" if pin == "z" else pin for pin in pins]
    if kind in ("AND", "NAND"):
        plain = "0" if "0" in pins else "x" if "x" in pins else "1"
    elif kind in ("OR", "NOR"):
        plain = "1" if "1" in pins else "x" if "x" in pins else "0"
    else:
        plain = "x" if "x" in pins else str(pins.count("1") % 2)
    return {"0": "1", "1": "0", "x": "x"}[plain] if kind in ("NAND", "NOR", "XNOR", "NOT") else plain


class Circuit:
    """A circuit made up from a number: some inputs, gates with a delay for each pin, and flip-flops with one clock."""

    def __init__(self, seed: int) -> None:
        draw = random.Random(seed)
        self.horizon = draw.randint(8, 30)
        self.inputs = [f"i{place}" for place in range(draw.randint(1, 4))]
        others = [f"g{place}" for place in range(draw.randint(2, 12))]
        self.names = self.inputs + others
        self.first, self.period = draw.randint(0, 6), draw.randint(1, 7)
        self.gates: dict[str, tuple[str, list[str], list[int]]] = {}
        self.initial: dict[str, str] = {}
        for name in others:
            kind = draw.choice(KINDS)
            count = 1 if kind in ("NOT", "BUFF", "DFF") else draw.randint(1, 4)
            self.gates[name] = (kind, [draw.choice(self.names) for _ in range(count)], [draw.randint(1, 5) for _ in range(count)])
            self.initial[name] = draw.choice("01x")
        self.settings = {name: sorted({draw.randint(0, self.horizon): draw.choice("01xz") for _ in range(draw.randint(0, 5))}.items())
                         for name in self.inputs}
        self.value = lru_cache(None)(self._value)

    def files(self) -> tuple[str, str, str]:
        netlist = [f"INPUT({name})" for name in self.inputs]
        # the outputs name all signals in the order of their numbers
        netlist += [f"OUTPUT({name})" for name in self.names]
        netlist += [f"{name} = {kind}({', '.join(pins)})" for name, (kind, pins, _) in self.gates.items()]
        timing = ["version 2", f"clock {self.first} {self.period}"]
        for name, (kind, _, delays) in self.gates.items():
            if kind == "DFF":
                timing += [f"delay {name} {delays[0]}", f"init {name} {self.initial[name]}"]
            else:
                timing += [f"pin {name} {place} {delay}" for place, delay in enumerate(delays)]
        stimulus = [f"horizon {self.horizon}"]
        stimulus += [f"set {name} {time} {value}" for name, own in self.settings.items() for time, value in own]
        return "\n".join(netlist) + "\n", "\n".join(timing) + "\n", "\n".join(stimulus) + "\n"

    def edge(self, name: str, time: int) -> int | None:
        edges = [edge for edge in range(self.first, time + 1, self.period) if edge + self.gates[name][2][0] <= time]
        return edges[-1] if edges else None

    def _value(self, name: str, time: int) -> str:
        if name in self.inputs:
            return next((value for at, value in reversed(self.settings[name]) if at <= time), "x")
        kind, pins, delays = self.gates[name]
        if kind == "DFF":
            edge = self.edge(name, time)
            return self.initial[name] if edge is None else table(kind, [self.value(pins[0], edge)])
        return table(kind, [self.value(pin, time - delay) if time >= delay else "x" for pin, delay in zip(pins, delays)])

    def children(self, name: str, time: int) -> list[tuple[str, int]]:
        """What the signal at the time comes from: (signal, time) of each pin that is looked at, time below 0 before a delay."""
        kind, pins, delays = self.gates[name]
        if kind == "DFF":
            return [(pins[0], self.edge(name, time))]
        found = []
        for pin, delay in zip(pins, delays):
            found.append((pin, time - delay))
            seen = self.value(pin, time - delay) if time >= delay else "x"
            if seen in {"AND": "0", "NAND": "0", "OR": "1", "NOR": "1", "XOR": "xz", "XNOR": "xz"}.get(kind, ""):
                break
        return found

    def is_base(self, name: str, time: int) -> bool:
        if name in self.inputs:
            return True
        kind, _, delays = self.gates[name]
        return self.edge(name, time) is None if kind == "DFF" else time < min(delays)

    def interval(self, name: str, time: int) -> tuple[int, int]:
        end = self.horizon + 1
        if name in self.inputs:
            # as long as it keeps its value, however often that is set
            others = [at for at in range(end) if self.value(name, at) != self.value(name, time)]
            return max([at + 1 for at in others if at < time], default=0), min([at for at in others if at > time], default=end)
        kind, pins, delays = self.gates[name]
        if kind == "DFF":
            edge = self.edge(name, time)
            if edge is None:
                return 0, min(self.first + delays[0], end)
            return edge + delays[0], min(edge + delays[0] + self.period, end)
        if time < min(delays):
            return 0, min(min(delays), end)
        begin = min(delays)
        for (pin, seen), delay in zip(self.children(name, time), delays):
            start, stop = self.interval(pin, seen) if seen >= 0 else (-delay, 0)
            begin, end = max(begin, start + delay), min(end, stop + delay)
        return begin, end

    def proof(self, name: str, time: int) -> str:
        """The reply to a `why` line."""
        cells: set[tuple[int, int, int, str]] = set()
        left, seen = [(name, time)], set()
        while left:
            point = left.pop()
            if point in seen or point[1] < 0 or self.is_base(*point):
                continue
            seen.add(point)
            start, stop = self.interval(*point)
            cells.add((start, self.names.index(point[0]), stop, self.value(*point)))
            left += self.children(point[0], start)
        lines = [f"cell {signal} {start} {stop} {value}" for start, signal, stop, value in sorted(cells)]
        return "\n".join([f"why {name} {time} {self.value(name, time)}", *lines, "end", ""])
