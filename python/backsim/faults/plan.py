"""What is asked about the faults of a circuit, and what the answers say."""
from __future__ import annotations

import copy
from bisect import bisect_left, bisect_right
from collections.abc import Iterable, Iterator, Sequence
from dataclasses import field

from ..formats.circuit import Circuit
from ..formats.script import AtLine, StuckLine
from ..records import dataclass
from ..values import Answer, At, Stuck
from .branches import Made, with_branches
from .collapse import FaultClass
from .model import Site, cone_of, outputs_reached

_KNOWN = ("0", "1")
_MOST_SINGLE = 16
_MOST_TIMES = 64


@dataclass(slots=True)
class Outcome:
    """What came of a class: the first time and an output that show it, or None; how many times show it, of those that were looked at;
    whether the program says so, of one that is shown this time and output, of another all times and outputs; and the questions that
    were answered by their budget, so that nothing is known of them."""

    time: int | None = None
    output: str | None = None
    count: int = 0
    is_confirmed: bool = False
    unanswered: list[str] = field(default_factory=list)

    @property
    def is_shown(self) -> bool:
        return self.time is not None


class Plan:
    """The questions: the circuit with its branches, the classes, the times at which the tester looks (ascending, in the units of the
    user's files) and the budget of a question."""

    def __init__(self, circuit: Circuit, made: Made, classes: Sequence[FaultClass], times: Sequence[int], budget: int) -> None:
        self._circuit = circuit
        self.made = made
        self.classes = tuple(classes)
        self.times = tuple(times)
        self.budget = budget
        netlist = circuit.netlist
        self._reached = outputs_reached(netlist)
        self._flops = {gate.name for gate in netlist.flops()}
        self._before_flops = cone_of(netlist, (gate.pins[0] for gate in netlist.flops()))
        self.outputs = netlist.outputs

    @classmethod
    def of(cls, circuit: Circuit, classes: Sequence[FaultClass], times: Sequence[int], budget: int) -> Plan:
        """The plan over the circuit in which the branches of these classes are signals."""
        return cls(circuit, with_branches(circuit, (own.asked.site for own in classes)), classes, times, budget)

    def part(self, classes: Sequence[FaultClass]) -> Plan:
        """The plan of some of the classes, over the circuit in which only their branches are signals. It has the times and the stimulus of
        the whole."""
        if self.made.scale == 1:
            return self
        part = copy.copy(self)
        part.classes = tuple(classes)
        part.made = with_branches(self._circuit, (own.asked.site for own in classes), self.made.stimulus)
        return part

    def with_budget(self, budget: int) -> Plan:
        """The plan with another budget of a question."""
        other = copy.copy(self)
        other.budget = budget
        return other

    @property
    def period(self) -> int:
        """The shortest time from one edge of a clock to its next, in the units of the user's files; where no flip-flop has a clock, a time
        past the last look."""
        clocks = map(self._circuit.timing.clock_of, self._flops)
        return min((clock.period for clock in clocks if clock), default=self.times[-1] + 1)

    @property
    def has_flops(self) -> bool:
        """Whether the circuit has flip-flops, so that a question works out their past."""
        return bool(self._flops)

    def reached(self, site: Site) -> tuple[str, ...]:
        """The outputs that a fault of this line can reach."""
        if site.is_output:
            return (site.source,)
        return self._reached[site.source if site.reader is None else site.reader]

    def good_lines(self) -> list[AtLine]:
        """What asks for each output at each time without a fault."""
        return [self.at_line(output, time) for time in self.times for output in self.outputs]

    def at_line(self, name: str, time: int) -> AtLine:
        """What asks for a signal at a time without a fault."""
        return AtLine(name, self.made.scale * time, self.budget)

    def stuck_line(self, own: FaultClass, output: str, times: Sequence[int]) -> StuckLine:
        """What asks for an output with the fault, from the first of the times to the last."""
        scale = self.made.scale
        return StuckLine(self.made.signal(own.asked.site), own.asked.held, output, scale * times[0], scale * times[-1] + 1,
                         self.budget)

    def time_before(self, time: int) -> int:
        """The look before the one at this time."""
        return self.times[bisect_left(self.times, time) - 1]

    def stuck_lines(self, own: FaultClass, times: Sequence[int], good: Good) -> list[StuckLine]:
        """What asks for the outputs that the fault reaches, from the first of the times to the last. An output that has no known
        value at any of them is left out, and so is the branch to an output, whose value is that of the fault."""
        return [self.stuck_line(own, output, times) for output in self.reached(own.asked.site) if good.is_known(output, times)]

    def chunks(self, own: FaultClass) -> Iterator[tuple[int, ...]]:
        """The times in the pieces for which a class is asked, one question each. A question for one time evaluates what is settled then,
        and one for several also all that changes in between; but where the fault reaches flip-flops, each question works out their
        past anew. So the first times are asked one by one, and with flip-flops the later ones in pieces that get longer."""
        start, length = 0, 1
        while start < len(self.times):
            yield self.times[start:start + length]
            start += length
            if start >= _MOST_SINGLE and self.has_past(own.asked.site):
                length = min(start, _MOST_TIMES)

    def has_past(self, site: Site) -> bool:
        """Whether a fault of the line reaches a flip-flop."""
        return site.reader in self._flops or (site.reader or site.source) in self._before_flops

    def cost(self, own: FaultClass, times: Sequence[int]) -> tuple[str, int]:
        """The kind of a question for the class at these times, and its weight among those of its kind: with a past it takes longer the
        later it is."""
        has_past = self.has_past(own.asked.site)
        kind = "window" if len(times) > 1 else "single with a past" if has_past else "single"
        return kind, bisect_right(self.times, times[-1]) if has_past else 1

    def looks_before(self, time: int) -> int:
        """How many looks a question for this time costs: with flip-flops as many as there were up to it."""
        return bisect_right(self.times, time) if self.has_flops else 1

    def judge(self, times: Sequence[int], lines: Sequence[StuckLine], answers: Sequence[Answer], good: Good, outcome: Outcome) -> None:
        """Takes the answers to lines of `stuck_lines` into the outcome."""
        assert len(lines) == len(answers)
        for line, answer in zip(lines, answers):
            if isinstance(answer, Stuck):
                self._take(((time, answer.wave.value_at(self.made.scale * time)) for time in times), line.name, good, outcome)
            else:
                outcome.unanswered.append(line.name)

    def judge_output(self, own: FaultClass, times: Iterable[int], good: Good, outcome: Outcome) -> None:
        """Takes what the branch to an output shows at these times into the outcome: its value is that of the fault."""
        self._take(((time, own.asked.held) for time in times), own.asked.site.source, good, outcome)

    def _take(self, values: Iterable[tuple[int, str]], output: str, good: Good, outcome: Outcome) -> None:
        """Takes the first time at which the output has a wrong value, where none before is known."""
        shown = next((time for time, value in values if good.differs(output, time, value)), None)
        if shown is not None and (outcome.time is None or shown < outcome.time):
            outcome.time, outcome.output, outcome.count = shown, output, 1


class Good:
    """The values of the outputs without a fault, by output and time in the user's units."""

    def __init__(self, plan: Plan, answers: Sequence[Answer]) -> None:
        self._values: dict[tuple[str, int], str] = {}
        self.unanswered: list[str] = []
        lines = list(plan.good_lines())
        assert len(lines) == len(answers)
        for line, answer in zip(lines, answers):
            time = line.time // plan.made.scale
            if isinstance(answer, At):
                self._values[line.name, time] = answer.value
            else:
                self.unanswered.append(f"{line.name} at {time}")

    @classmethod
    def unknown(cls, plan: Plan) -> Good:
        """What is to be taken before the values are known: that each output may have a known value."""
        good = cls.__new__(cls)
        good._values = {(output, time): "0" for output in plan.outputs for time in plan.times}
        good.unanswered = []
        return good

    def is_known(self, output: str, times: Sequence[int]) -> bool:
        """Whether the output is 0 or 1 at one of the times."""
        return any(self._values.get((output, time)) in _KNOWN for time in times)

    def differs(self, output: str, time: int, value: str) -> bool:
        """Whether a tester sees the value as wrong."""
        return is_wrong(self._values.get((output, time)), value)


def is_wrong(right: str | None, value: str) -> bool:
    """Whether a tester sees the value as wrong: both are known, and another."""
    return right in _KNOWN and value in _KNOWN and right != value
