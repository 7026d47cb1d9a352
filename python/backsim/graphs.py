"""A netlist as a graph of networkx, for programs of one's own."""
from __future__ import annotations

from typing import TYPE_CHECKING

from .errors import MissingExtra
from .formats.netlist import Netlist

if TYPE_CHECKING:
    from networkx import MultiDiGraph


def graph_of(netlist: Netlist) -> MultiDiGraph:
    """The graph whose nodes are the names of the signals, with `kind` the word of a gate or flip-flop, or `INPUT`, and `is_output`; an
    edge goes from the signal at a pin to the gate, and has the pin's place, counted from 0, as `pin`. MissingExtra where networkx is
    not there."""
    try:
        from networkx import MultiDiGraph
    except ImportError:
        raise MissingExtra("networkx", "graphs", "python3-networkx") from None
    graph = MultiDiGraph()
    outputs = set(netlist.outputs)
    for name in netlist.names:
        kind = netlist.gates[name].kind.value if name in netlist.gates else "INPUT"
        graph.add_node(name, kind=kind, is_output=name in outputs)
    graph.add_edges_from((pin, gate.name, {"pin": place}) for gate in netlist.gates.values() for place, pin in enumerate(gate.pins))
    return graph
