"""Why a signal has its value at a time, as one thing to ask."""
from __future__ import annotations

from collections.abc import Collection, Iterable, Sequence
from functools import cached_property
from typing import TYPE_CHECKING, Any

from ..circuit.rules import Design
from ..errors import MissingExtra, UsageError
from ..values import Proof
from .cells import CellGraph, CellTable, way_of
from .chains import Step, steps_of
from .roots import Cause, causes_of
from .way import Way

if TYPE_CHECKING:
    from networkx import MultiDiGraph


class Explanation:
    """Why the signal or bus `name` has the `value` at the `time`; of a bus the value is a word, the leftmost bit first. `start` and `end`
    say since when and until when at least it has it: start <= time < end.

    `causes` has the root causes, those first that decide alone and then the nearest; `chain` the steps from the value back to one of
    them; `graph` all cells that are come to by pins that matter, with the other pins that were looked at; `spent` has the budgets that
    did not suffice before. With `until`, the ways end at these signals, and with `depth` after so many steps.
    `str(explanation)` is what `backsim-tools why` writes."""

    def __init__(self, design: Design, name: str, time: int, proofs: Iterable[Proof], *, until: Collection[str] = (),
                 depth: int | None = None, has_all: bool = False, spent: Sequence[int] = ()) -> None:
        self.design = design
        self._until = frozenset(until)
        self._depth = depth
        self._table = CellTable(design)
        self.graph: CellGraph = way_of(design, self._table, name, time, proofs, has_all)
        # the proofs may still be asked for while they are taken
        self.spent = tuple(spent)
        self.name, self.time, self.value = name, time, self.graph.value

    @property
    def start(self) -> int:
        """Since when it has the value, at least."""
        return max(self.graph.nodes[root].start for root in self.graph.roots)

    @property
    def end(self) -> int:
        """Until when it has the value, at least."""
        return min(self.graph.nodes[root].end for root in self.graph.roots)

    @cached_property
    def way(self) -> Way:
        """The shortest ways back."""
        return Way(self.design, self.graph, self._until, self._depth)

    @cached_property
    def causes(self) -> tuple[Cause, ...]:
        """The root causes."""
        return causes_of(self.way, self._table, self._until)

    def chain(self, cause: Cause | None = None, name: str | None = None) -> tuple[Step, ...]:
        """The steps from the value back to a cause, the value first: the shortest to the nearest signal of the cause, or to that of the
        name. Without a cause it is the first one. UsageError where it is no cause of this, or has no such signal."""
        if cause is None:
            cause = self.causes[0]
        if cause not in self.causes or name is not None and name not in cause.names:
            raise UsageError(f"{cause.kind.value} {name or ''}: this is no cause of {self.name} at {self.time}")
        return steps_of(self.way, self.way.to(cause.nodes[0 if name is None else cause.names.index(name)]))

    def to_graph(self) -> MultiDiGraph:
        """The cells as a graph of networkx. A node is `(name, start)`, with its signal's `name`, `role`, `start`, `end`, `value`, `kind`
        (the word of a gate or flip-flop, or an empty text) and `source`; an edge goes from a cell to one that follows from it, with
        `pin`, `time` and `matters`. MissingExtra where networkx is not there."""
        try:
            from networkx import MultiDiGraph
        except ImportError:
            raise MissingExtra("networkx", "graphs", "python3-networkx") from None
        graph = MultiDiGraph(name=self.name, time=self.time, value=self.value)
        gates = self.design.netlist.gates
        keys = [(node.name, node.start if node.role.is_seen else -1) for node in self.graph.nodes]
        for key, node in zip(keys, self.graph.nodes):
            gate = gates.get(node.name)
            graph.add_node(key, name=node.name, role=node.role.value, start=node.start, end=node.end, value=node.value,
                           kind=node.kind.value if node.kind else "", source=gate.source if gate else "")
        graph.add_edges_from((keys[edge.cause], keys[edge.effect], {"pin": edge.pin, "time": edge.time, "matters": edge.matters})
                             for edge in self.graph.edges)
        return graph

    def to_json(self, chains: int = 3) -> dict[str, Any]:
        """What `backsim-tools why --json` writes: the causes, and the chains to the first few."""
        from .sentences import as_json
        return as_json(self, chains)

    def __str__(self) -> str:
        from .sentences import text_of
        return text_of(self)

    def __repr__(self) -> str:
        return f"<Explanation of {self.name} at {self.time}: {self.value}, {len(self.causes)} causes>"

    def _repr_html_(self) -> str:
        from html import escape
        return f"<pre>{escape(str(self))}</pre>"
