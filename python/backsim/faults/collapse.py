"""Equivalence of faults by the tables of the gates.

An AND whose pin is stuck at 0 is 0, as one whose output is stuck at 0; likewise a NAND (pin 0, output 1), an OR (1, 1) and a NOR
(1, 0); NOT and BUFF, and every gate of one pin, hand both faults on. XOR and XNOR of more pins have no equivalent faults, and
neither have flip-flops, whose initial value a fault of the pin leaves as it is. The line that counts is the one that ends at the
pin: the branch, or the stem of a signal that is read in one place."""
from __future__ import annotations

from collections.abc import Iterable

from ..circuit.kinds import Kind
from ..formats.netlist import Gate
from ..records import dataclass
from .model import Fault, Lines, Site


@dataclass(frozen=True, slots=True, eq=False)
class FaultClass:
    """Equivalent faults: `members` are those of the list in its order, `asked` is the one of them all that is nearest the outputs,
    which the program is asked for; it need not be a member. A class is equal to itself alone."""

    asked: Fault
    members: tuple[Fault, ...]

    @property
    def shown_as(self) -> Fault:
        """The fault that stands for the class in tables."""
        return self.asked if self.asked in self.members else self.members[0]


def pin_to_output(gate: Gate) -> dict[str, str]:
    """For each value at which a pin may be stuck that is equivalent to a fault of the gate's output, the value of that."""
    if gate.kind is Kind.DFF:
        return {}
    if len(gate.pins) == 1:
        return {value: gate.kind.gate_value((value,)) for value in ("0", "1")}
    control = gate.kind.controlling
    return {} if control is None else {control: gate.kind.gate_value((control,))}


def collapse(lines: Lines, faults: Iterable[Fault]) -> list[FaultClass]:
    """The classes of these faults, in the order of their first members."""
    after: dict[Fault, Fault] = {}
    for gate in lines.netlist.gates.values():
        for value, shown in pin_to_output(gate).items():
            for place in range(len(gate.pins)):
                after[Fault(lines.feeding(gate.name, place), value)] = Fault(Site(gate.name), shown)
    members: dict[Fault, list[Fault]] = {}
    last: dict[Fault, Fault] = {}
    for fault in faults:
        members.setdefault(_last_of(fault, after, last), []).append(fault)
    return [FaultClass(asked, tuple(own)) for asked, own in members.items()]


def _last_of(fault: Fault, after: dict[Fault, Fault], last: dict[Fault, Fault]) -> Fault:
    """The equivalent fault that is nearest the outputs; of a loop of gates that hand a fault round, the least one."""
    way = [fault]
    met = {fault}
    while way[-1] in after and way[-1] not in last:
        follower = after[way[-1]]
        if follower in met:
            last[way[-1]] = min(way[way.index(follower):])
            break
        way.append(follower)
        met.add(follower)
    end = last.get(way[-1], way[-1])
    last.update(dict.fromkeys(way, end))
    return end


def single(faults: Iterable[Fault]) -> list[FaultClass]:
    """Each fault as a class of its own."""
    return [FaultClass(fault, (fault,)) for fault in faults]
