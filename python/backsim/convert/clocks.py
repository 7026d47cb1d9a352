"""The clocks and initial values of flip-flops as a timing."""
from __future__ import annotations

from collections.abc import Callable, Mapping

from ..circuit.kinds import Kind
from ..formats.netlist import Netlist
from ..formats.timing import Clock, Timing
from ..records import dataclass


@dataclass(frozen=True, slots=True)
class Edge:
    """The rises, or falls, of a signal. `name` is that of the clock in the timing file."""

    signal: str
    is_falling: bool = False

    @property
    def name(self) -> str:
        return f"{self.signal}_falls" if self.is_falling else self.signal


def root_of(edge: Edge, netlist: Netlist, is_known: Callable[[Edge], bool]) -> Edge:
    """The edge of the signal from which buffers and inverters make that of the given one: the first of which the times are known, or
    else the given one. So the buffers of a clock take no time until their delays are stated (`convert/annotate_cells.py`)."""
    return next((own for own in reversed(chain_of(edge, netlist)) if is_known(own)), edge)


def chain_of(edge: Edge, netlist: Netlist) -> list[Edge]:
    """The edge, and those of the signals from which buffers and inverters make its own, the first of them last."""
    chain = [edge]
    while len(chain) <= len(netlist.gates):
        gate = netlist.gates.get(chain[-1].signal)
        if gate is None or len(gate.pins) != 1 or gate.kind is Kind.DFF:
            break
        chain.append(Edge(gate.pins[0], chain[-1].is_falling != gate.kind.inverts))
    return chain


def timing_of(edges: Mapping[str, Edge], initials: Mapping[str, str], clock_of: Callable[[Edge], Clock]) -> Timing:
    """The timing in which each flip-flop has the named clock of its edge and its initial value, and every delay is 1. `clock_of`
    gives the times of an edge, and is asked once for each."""
    timing = Timing(default=1)
    for edge in dict.fromkeys(edges.values()):
        timing.clocks[edge.name] = clock_of(edge)
    timing.clocked = {flop: edge.name for flop, edge in edges.items()}
    timing.initials = {flop: value for flop, value in initials.items() if value in ("0", "1")}
    return timing
