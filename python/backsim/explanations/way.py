"""The way from a value back to its root causes: the shortest one to each, and which of them decide alone.

A step of a way is what one signal of the source does. Gates that only a tool named, gates of one line of the source, the multiplexer
of an enable with its register, and a register that keeps its value belong to the step of the signal that they serve."""
from __future__ import annotations

import heapq
import re
from collections.abc import Collection, Sequence
from functools import reduce
from operator import and_, or_

from ..circuit.kinds import Join, Kind
from ..circuit.rules import Design, Role
from ..formats.netlist import Gate, Netlist
from .cells import CellGraph, CellTable, Edge, Node

# what Yosys and ABC call a net that has no name in the source
_INTERNAL = re.compile(r"(?:.*\.)?(?:\$|_[0-9]+_$|\\\$)")
_NUMBERED = re.compile(r"(.+)\$[0-9]+")
_SELECT_WEIGHT = 4
_FAR = (1 << 60, 0)
Rails = tuple[int, int]
_NOTHING: Rails = (0, 0)


class Parts:
    """Which signals are parts of others: a converter gives a gate that it adds the name of the signal that it is for, with `$` and a
    number behind it."""

    def __init__(self, netlist: Netlist) -> None:
        self._netlist = netlist
        self._wholes: dict[str, str] = {}
        self._selects: dict[str, tuple[str, ...]] = {}
        self._served: dict[str, bool] = {}
        self._lines: dict[str, str] = {}

    def whole(self, name: str) -> str:
        """The signal of which this one is a part, or itself."""
        if name not in self._wholes:
            found = name
            while (own := self._reader(found)) is not None:
                found = own
            self._wholes[name] = found
        return self._wholes[name]

    def _reader(self, name: str) -> str | None:
        parts = _NUMBERED.fullmatch(name)
        return parts[1] if parts and parts[1] in self._netlist else None

    def serves(self, name: str) -> bool:
        """Whether the signal is no signal of the source: a part of another, or one that only a tool gave a name."""
        found = self._served.get(name)
        if found is None:
            found = self._served[name] = _INTERNAL.match(name) is not None or self.whole(name) != name
        return found

    def line(self, name: str) -> str:
        """The file and the line of a gate in the source, or an empty text."""
        found = self._lines.get(name)
        if found is None:
            found = self._lines[name] = line_of(self._netlist.gates[name].source)
        return found

    def selects(self, name: str) -> tuple[str, ...]:
        """Of a gate that is a choice of a multiplexer the select and its negation; else nothing."""
        found = self._selects.get(name)
        if found is None:
            reader = self._netlist.gates.get(self._reader(name) or "")
            own = multiplexer_of(self._netlist, reader) if reader is not None and name in reader.pins[:2] else None
            found = self._selects[name] = own or ()
        return found


def line_of(source: str) -> str:
    """The file and the line of a place in the source, which may have columns behind it and a second line."""
    file, mark, place = source.rpartition(":")
    return file + mark + place.partition(".")[0]


def multiplexer_of(netlist: Netlist, gate: Gate) -> tuple[str, str] | None:
    """The select and its negation of a gate that is the last of a multiplexer, as a converter makes one: the OR or NOR of a choice by
    the select's negation, one by the select, and of both choices; else None."""
    if gate.kind not in (Kind.OR, Kind.NOR) or len(gate.pins) != 3:
        return None
    terms = [netlist.gates.get(pin) for pin in gate.pins]
    if not all(term is not None and term.kind is Kind.AND and len(term.pins) == 2 for term in terms):
        return None
    (negated, zero), (select, one), both = (term.pins for term in terms if term is not None)
    inverter = netlist.gates.get(negated)
    is_select = inverter is not None and inverter.kind is Kind.NOT and inverter.pins == (select,)
    return (select, negated) if is_select and both == (zero, one) else None


class Way:
    """The shortest ways from the roots of a graph to its other nodes, by pins that matter: by the number of steps, in which the select of
    a multiplexer counts for more than its choices, and then of cells.

    It ends at base answers, at cells of the signals `until`, and after `depth` steps. `leaves` has the nodes at which it ends, the
    nearest first; `before` has for each node the edge by which the way comes to it."""

    def __init__(self, design: Design, graph: CellGraph, until: Collection[str] = (), depth: int | None = None) -> None:
        self.design, self.graph = design, graph
        self.parts = Parts(design.netlist)
        self.causes = [[edge for edge in edges if edge.matters] for edges in graph.causes()]
        self.before: list[Edge | None] = [None] * len(graph.nodes)
        self.leaves: list[int] = []
        self._passed: list[int | None] = [None] * len(graph.nodes)
        self._search(frozenset(until), depth)

    def _search(self, until: frozenset[str], depth: int | None) -> None:
        """Finds the ways by Dijkstra's algorithm."""
        nodes = self.graph.nodes
        roots = set(self.graph.roots)
        heap = [(0, 0, root, 1) for root in dict.fromkeys(self.graph.roots)]
        best: dict[int, tuple[int, int]] = {root: (0, 0) for root in roots}
        while heap:
            weight, cells, number, steps = heapq.heappop(heap)
            if self._passed[number] is not None:
                continue
            self._passed[number] = steps
            node = nodes[number]
            is_end = depth is not None and steps > depth or node.name in until and number not in roots
            if node.role.is_leaf or is_end:
                self.leaves.append(number)
                continue
            selects = self.parts.selects(node.name)
            for edge in self.causes[number]:
                cause = nodes[edge.cause]
                is_step = not self.is_within(node, cause)
                distance = weight + is_step + _SELECT_WEIGHT * (cause.name in selects), cells + 1
                if distance < best.get(edge.cause, _FAR):
                    best[edge.cause] = distance
                    self.before[edge.cause] = edge
                    heapq.heappush(heap, (*distance, edge.cause, steps + is_step))

    def steps(self, number: int) -> int:
        """How many steps the way to a node has, with its own. KeyError where the ways end before it."""
        found = self._passed[number]
        if found is None:
            raise KeyError(number)
        return found

    def is_within(self, effect: Node, cause: Node) -> bool:
        """Whether a cause belongs to the step of its effect."""
        if cause.role.is_leaf:
            return False
        if cause.role is Role.FLOP:
            return cause.name == self.parts.whole(effect.name)
        if self.parts.serves(cause.name):
            return True
        line = self.parts.line(cause.name)
        return line != "" and line == self.parts.line(effect.name)

    def to(self, number: int) -> list[int]:
        """The nodes of the way from a root to the node, the root first."""
        found = [number]
        while (edge := self.before[found[-1]]) is not None:
            found.append(edge.effect)
        return found[::-1]

    def deciding(self, table: CellTable, leaves: Sequence[int]) -> set[int]:
        """Which of the leaves decide alone. Of an unknown value these are the leaves that make it known, all of it, whichever known value
        they have; of a known one those from which it follows whatever all other leaves are. The gates of the way are evaluated once, for
        all leaves together: a letter of each rail is for a case, and says whether the value is 0, or is 1."""
        is_unknown = not set(self.graph.value) <= {"0", "1"}
        size = 2 if is_unknown else 1
        every = (1 << size * len(leaves)) - 1
        known: dict[str, Rails] = {"0": (every, 0), "1": (0, every)} if is_unknown else {}
        ends = {leaf: known.get(self.graph.nodes[leaf].value, _NOTHING) for leaf in self.leaves}
        for place, leaf in enumerate(leaves):
            bit = 1 << size * place
            ends[leaf] = (bit, bit << 1) if is_unknown else (bit, 0) if self.graph.nodes[leaf].value == "0" else (0, bit)
        rails = _Evaluation(self, table, known, every).rails(ends)
        settled = reduce(and_, (zero | one for zero, one in (rails[root] for root in self.graph.roots)), every)
        own = 3 if is_unknown else 1
        return {leaf for place, leaf in enumerate(leaves) if settled >> size * place & own == own}


class _Evaluation:
    """The gates of a way evaluated for many cases at once. `known` has the rails of values that hold in all cases."""

    def __init__(self, way: Way, table: CellTable, known: dict[str, Rails], every: int) -> None:
        self.way, self.table, self.known, self.every = way, table, known, every
        self.numbers = {(node.name, node.start): number for number, node in enumerate(way.graph.nodes)}

    def rails(self, ends: dict[int, Rails]) -> dict[int, Rails]:
        """The rails of all nodes, where those of the ends are these."""
        nodes = self.way.graph.nodes
        found: dict[int, Rails] = {}
        for number in sorted(range(len(nodes)), key=lambda number: nodes[number].start):
            if number in ends:
                found[number] = ends[number]
            elif self.way.before[number] is not None or number in self.way.graph.roots:
                found[number] = self._evaluated(number, found)
        return found

    def _evaluated(self, number: int, found: dict[int, Rails]) -> Rails:
        """The rails of a gate, by those of all pins of which something is known while its cell lasts."""
        node = self.way.graph.nodes[number]
        gate = self.way.design.netlist.gates[node.name]
        causes = {edge.pin: found[edge.cause] for edge in self.way.causes[number]}
        if gate.kind is Kind.DFF:
            return causes[0]
        pins = [causes.get(pin) or self._other(name, delay, node, found)
                for pin, (name, delay) in enumerate(zip(gate.pins, self.way.design.delays(gate)))]
        return _gate_rails(gate, pins, self.every)

    def _other(self, name: str, delay: int, node: Node, found: dict[int, Rails]) -> Rails:
        """The rails of what a pin sees from which the value does not come."""
        seen = self.table.at(name, node.start - delay) if node.start >= delay else None
        if seen is None or seen[1].end + delay < node.end:
            return _NOTHING
        own = found.get(self.numbers.get((name, seen[1].start), -1))
        return self.known.get(seen[1].value, _NOTHING) if own is None else own


def _gate_rails(gate: Gate, pins: Sequence[Rails], every: int) -> Rails:
    """The rails of a gate of these pins."""
    zeros, ones = [pin[0] for pin in pins], [pin[1] for pin in pins]
    if gate.kind.join is Join.ALL:
        zero, one = reduce(or_, zeros), reduce(and_, ones)
    elif gate.kind.join is Join.ANY:
        zero, one = reduce(and_, zeros), reduce(or_, ones)
    else:
        zero, one = every, 0
        for no, yes in pins:
            zero, one = zero & no | one & yes, zero & yes | one & no
    return (one, zero) if gate.kind.inverts else (zero, one)
