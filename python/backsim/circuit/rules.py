"""The rules by which a cell follows from others (docs/meaning/RULES.md: Values, Looking order, Cells, Clocks and Base answers). What
a kind of gate does stands in `kinds`."""
from __future__ import annotations

import enum
import sys
from bisect import bisect_right
from dataclasses import field

from ..errors import type_of_path
from ..formats.circuit import Circuit, read_files
from ..formats.netlist import Gate
from ..formats.timing import Clock
from ..records import dataclass
from ..values import AFTER_VALUES
from .kinds import Kind


class Role(enum.Enum):
    """What a cell is: one that was evaluated, or a base answer, or the x that a pin sees before its delay has passed."""

    GATE = "gate"
    FLOP = "flip-flop"
    INPUT = "input"
    INITIAL = "initial value"
    EARLY = "before the least delay"
    UNSEEN = "pin before its delay"

    @property
    def is_leaf(self) -> bool:
        """Whether a cell of this role follows from no other."""
        return self not in (Role.GATE, Role.FLOP)

    @property
    def is_seen(self) -> bool:
        """Whether a cell of this role has a time of its signal; what a pin sees before its delay has none."""
        return self is not Role.UNSEEN


@dataclass(frozen=True, slots=True)
class Cell:
    """The value `0`, `1`, `x` or `z` at the times from `start` on and below `end`."""

    start: int
    end: int
    value: str


@dataclass(frozen=True, slots=True)
class Design(Circuit):
    """A circuit with what its rules say of points."""

    _changes: dict[str, list[tuple[int, str]]] = field(default_factory=dict, init=False, repr=False, compare=False)
    _delays: dict[str, tuple[int, ...]] = field(default_factory=dict, init=False, repr=False, compare=False)
    _evaluated: dict[str, tuple[int, Role]] = field(default_factory=dict, init=False, repr=False, compare=False)

    def delays(self, gate: Gate) -> tuple[int, ...]:
        """The delay of each pin of a gate or flip-flop."""
        found = self._delays.get(gate.name)
        if found is None:
            found = self._delays[gate.name] = tuple([self.timing.delay(gate, place) for place in range(len(gate.pins))])
        return found

    def clock_of(self, flop: Gate) -> Clock | None:
        """The clock of a flip-flop, or None where it has none."""
        return self.timing.clock_of(flop.name)

    def shown_edge(self, flop: Gate, time: int) -> int | None:
        """The last edge of the flip-flop's clock whose delay has passed at the time; None before any."""
        clock = self.clock_of(flop)
        if clock is None:
            return None
        since = time - self.delays(flop)[0] - clock.first
        return None if since < 0 else clock.first + since // clock.period * clock.period

    def evaluated(self, name: str) -> tuple[int, Role]:
        """From which time on the points of a signal are evaluated, never those of an input; and what their cells are."""
        found = self._evaluated.get(name)
        if found is None:
            gate = self.netlist.gates.get(name)
            if gate is None:
                found = sys.maxsize, Role.INPUT
            elif gate.kind is Kind.DFF:
                clock = self.clock_of(gate)
                found = sys.maxsize if clock is None else clock.first + self.delays(gate)[0], Role.FLOP
            else:
                found = min(self.delays(gate)), Role.GATE
            self._evaluated[name] = found
        return found

    def base(self, name: str, time: int) -> tuple[Role, Cell] | None:
        """The base answer of a signal at a time, or None where the point is evaluable."""
        first, role = self.evaluated(name)
        if time >= first:
            return None
        if role is Role.INPUT:
            return role, self._input_cell(name, time)
        end = min(first, self.stimulus.horizon + 1)
        return (Role.INITIAL, Cell(0, end, self.timing.initial(name))) if role is Role.FLOP else (Role.EARLY, Cell(0, end, "x"))

    def changes(self, name: str) -> list[tuple[int, str]]:
        """The (time, value) of the settings of an input: those of the stimulus that change its value."""
        if name not in self._changes:
            self._changes[name] = self.stimulus.changes(name)
        return self._changes[name]

    def _input_cell(self, name: str, time: int) -> Cell:
        changes = self.changes(name)
        place = bisect_right(changes, (time, AFTER_VALUES))
        start, value = changes[place - 1] if place else (0, "x")
        return Cell(start, changes[place][0] if place < len(changes) else self.stimulus.horizon + 1, value)


def read_design(netlist: type_of_path, timing: type_of_path, stimulus: type_of_path) -> Design:
    """The design of three files. FormatError where the program refuses one of them, with its line and cause."""
    return Design(*read_files(netlist, timing, stimulus))
