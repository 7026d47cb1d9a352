"""How many points a question needs (docs/meaning/RULES.md, Demand), by the cells of a journal. As a budget this number suffices over an
empty memo, as long as nothing is evicted."""
from __future__ import annotations

import sys
from bisect import bisect_right
from collections.abc import Iterator

from ..circuit.kinds import Kind
from ..circuit.rules import Design
from .profile import Profile, grouped


def needs_of(profile: Profile, design: Design) -> dict[int, int]:
    """For the line of each question that was answered over the session's own memo, the number of points that it needs; the profile must
    have kept its points. KeyError, with the signal and time in words, where the journal does not have the cell of a point that is
    needed."""
    points = _Points(profile, design)
    return {line: points.count(question.points) for line, question in profile.questions.items()
            if question.refused_at is None and not question.is_stuck}


class _Points:
    """The points of a circuit and their children, by the cells of a journal."""

    def __init__(self, profile: Profile, design: Design) -> None:
        self.design = design
        self.cells = profile.cells
        self.intervals = grouped(profile.cells)

    def count(self, asked: set[tuple[int, int]]) -> int:
        """How many evaluable points these are with all that they come from."""
        needed = set(asked)
        left = list(asked)
        while left:
            for child in self.children(*left.pop()):
                if child not in needed:
                    needed.add(child)
                    left.append(child)
        return len(needed)

    def children(self, signal: int, time: int) -> Iterator[tuple[int, int]]:
        """The evaluable children of a point."""
        netlist = self.design.netlist
        gate = netlist.gates[netlist.names[signal]]
        for pin, delay in zip(gate.pins, self.design.delays(gate)):
            edge = self.design.shown_edge(gate, time) if gate.kind is Kind.DFF else None
            seen = time - delay if edge is None else edge
            base = self.design.base(pin, seen) if seen >= 0 else None
            number = netlist.number_of(pin)
            if seen >= 0 and base is None:
                yield number, seen
            value = "x" if seen < 0 else base[1].value if base else self.value(number, seen)
            if gate.kind.decides(value):
                return

    def value(self, signal: int, time: int) -> str:
        own = self.intervals.get(signal, [])
        place = bisect_right(own, (time, sys.maxsize))
        if not place or own[place - 1][1] <= time:
            raise KeyError(f"what {self.design.netlist.names[signal]} is at {time}")
        return self.cells[(signal, *own[place - 1])]
