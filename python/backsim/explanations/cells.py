"""An explanation as a graph: its cells, and for each cell those that it follows from (docs/meaning/RULES.md, Explanations).

A proof lists cells alone. Which cells a gate's cell follows from is worked out again: its pins in their order, up to and including
the first that decides, each one delay before the cell begins; of a flip-flop its pin at the edge that it shows. Every cell of a graph
is tested by these rules, so what is shown follows."""
from __future__ import annotations

from bisect import bisect_right
from collections.abc import Iterable, Sequence
from dataclasses import field
from typing import NamedTuple

from ..circuit.kinds import Kind
from ..circuit.rules import Cell, Design, Role
from ..errors import FormatError, type_of_path
from ..formats.netlist import Gate
from ..records import dataclass
from ..values import Proof, ProofCell


class Node(NamedTuple):
    """A cell of a signal. `kind` and `pins` are those of its gate or flip-flop; an input has none."""

    name: str
    role: Role
    start: int
    end: int
    value: str
    kind: Kind | None = None
    pins: tuple[str, ...] = ()


class Edge(NamedTuple):
    """The node number `effect` follows from the node number `cause`, which its pin number `pin`, counted from 0, saw: the pin's
    signal at `time`, below 0 where the pin's delay had not passed. `matters` says whether the value comes from this pin; the
    others were looked at before a pin that decides, or are known pins of an unknown value."""

    effect: int
    cause: int
    pin: int
    time: int
    matters: bool


# an edge, by the same five
_Edge = tuple[int, int, int, int, bool]


@dataclass(frozen=True, slots=True)
class CellGraph:
    """Why a signal, or a bus, has the value at the time. `roots` has the node of the signal, or of each bit, the leftmost first; node 0
    is the first of them, and the others come in the order of their distance from the roots. `hidden` counts for a node the causes that
    were left out of the graph."""

    name: str
    time: int
    value: str
    nodes: tuple[Node, ...]
    edges: tuple[Edge, ...]
    hidden: dict[int, int] = field(default_factory=dict)
    roots: tuple[int, ...] = (0,)

    def causes(self) -> list[list[Edge]]:
        """For each node the edges to what it follows from, in the order of the pins."""
        found: list[list[Edge]] = [[] for _ in self.nodes]
        for edge in self.edges:
            found[edge.effect].append(edge)
        return found

    def way(self) -> CellGraph:
        """Without the pins that do not matter: where the value is x, only the way of the x is left."""
        return _reached(self, [edge for edge in self.edges if edge.matters])

    def nearest(self, most: int) -> CellGraph:
        """At most so many nodes, those nearest to what is explained, and at least those of the roots."""
        most = max(most, len(set(self.roots)))
        if len(self.nodes) <= most:
            return self
        hidden = dict(self.hidden)
        for edge in self.edges:
            if edge.effect < most <= edge.cause:
                hidden[edge.effect] = hidden.get(edge.effect, 0) + 1
        edges = tuple(edge for edge in self.edges if edge.effect < most and edge.cause < most)
        return CellGraph(self.name, self.time, self.value, self.nodes[:most], edges,
                         {node: count for node, count in hidden.items() if node < most}, self.roots)


def explain(design: Design, proof: Proof, path: type_of_path = "proof", line: int = 1) -> CellGraph:
    """The graph of a proof whose first line stands in the line `line` of the file `path`. FormatError at the first line that does
    not follow from those above it, and at the first of the proof where only the claim does not."""
    builder = _Builder(design, CellTable(design), path, line)
    for place, cell in enumerate(proof.cells):
        builder.take(line + 1 + place, cell)
    return builder.claim(proof.name, proof.time, (proof,))


def way_of(design: Design, table: CellTable, name: str, time: int, proofs: Iterable[Proof], has_all: bool = False) -> CellGraph:
    """The graph of proofs, one for each bit of `name`, as far as it can be come to from the roots by pins that matter. The other pins that
    were looked at are in it as well, and what these follow from only with `has_all`. The cells of a proof are added to the table, and what
    is new in it is looked at, before the next proof is taken. FormatError where a cell does not follow from the others."""
    builder = _Builder(design, table, "the session's reply", 0)
    roots = []
    for proof in proofs:
        table.take(proof)
        roots.append(proof)
        builder.reach(builder.root_of(proof), has_all)
    return builder.claim(name, time, roots)


class CellTable:
    """The cells of proofs by their signals, and the base answers."""

    def __init__(self, design: Design) -> None:
        self.design = design
        # by their names the starts of a signal's cells and the cells, both in their order
        self._own: dict[str, tuple[list[int], list[Cell]]] = {}
        self._taken: dict[int, ProofCell] = {}

    def take(self, proof: Proof) -> None:
        """Adds the cells of a proof. Those that an earlier one had are mostly the same objects."""
        taken = self._taken
        fresh = [cell for cell in proof.cells if id(cell) not in taken]
        taken.update((id(cell), cell) for cell in fresh)
        found: dict[int, set[tuple[int, int, str]]] = {}
        for cell in fresh:
            found.setdefault(cell.signal, set()).add((cell.start, cell.end, cell.value))
        for signal, cells in found.items():
            name = self.design.netlist.names[signal]
            if name in self._own:
                cells.update((cell.start, cell.end, cell.value) for cell in self._own[name][1])
            ordered = sorted(cells)
            self._own[name] = [start for start, _, _ in ordered], [Cell(*one) for one in ordered]

    def add(self, name: str, cell: ProofCell) -> None:
        """Adds a cell of the signal."""
        starts, cells = self._own.setdefault(name, ([], []))
        place = bisect_right(starts, cell.start)
        starts.insert(place, cell.start)
        cells.insert(place, Cell(cell.start, cell.end, cell.value))

    def at(self, name: str, time: int) -> tuple[Role, Cell] | None:
        """What is known of the signal at a time: a base answer, or a cell of the proofs; None where nothing is."""
        first, role = self.design.evaluated(name)
        if time < first:
            return self.design.base(name, time)
        own = self._own.get(name)
        if own is None:
            return None
        place = bisect_right(own[0], time)
        cell = own[1][place - 1] if place else None
        return None if cell is None or cell.end <= time else (role, cell)


class _Builder:
    """Makes the nodes and edges of a graph. Errors name `path`; `first` is the line of the claim, and 0 where there are no lines."""

    def __init__(self, design: Design, table: CellTable, path: type_of_path, first: int) -> None:
        self.design = design
        self.gates = design.netlist.gates
        self.table = table
        self.path = path
        self.first = first
        self.nodes: list[Node] = []
        self.edges: list[_Edge] = []
        self.reached: set[int] = set()
        self.numbers: dict[tuple[str, int, int, bool], int] = {}

    def fault(self, line: int, cause: str) -> FormatError:
        return FormatError(self.path, line, cause)

    def take(self, line: int, cell: ProofCell) -> None:
        """Adds the cell of a line, and the edges to those that it follows from."""
        names = self.design.netlist.names
        if cell.signal >= len(names):
            raise self.fault(line, f"the netlist has no signal number {cell.signal}; it has {len(names)} signals")
        name = names[cell.signal]
        if cell.start > self.design.stimulus.horizon or self.design.base(name, cell.start) is not None:
            raise self.fault(line, f"{name} at {cell.start} is no time that is evaluated: an input, an initial value, x before a "
                                   "delay, or past the horizon")
        role = Role.FLOP if self.design.netlist.gates[name].kind is Kind.DFF else Role.GATE
        self.edges += self.expand(line, self.number_of(name, role, Cell(cell.start, cell.end, cell.value)))
        self.table.add(name, cell)

    def expand(self, line: int, number: int) -> list[_Edge]:
        """The edges from an evaluated cell to those that it follows from, in the order of its pins up to the one that decides. FormatError
        where it does not."""
        nodes, node = self.nodes, self.nodes[number]
        gate = self.gates[node.name]
        kind, delays = gate.kind, self.design.delays(gate)
        edge = self.design.shown_edge(gate, node.start) if kind is Kind.DFF else None
        found: list[tuple[int, int]] = []
        values: list[str] = []
        begin, end = min(delays), self.design.stimulus.horizon + 1
        for signal, delay in zip(gate.pins, delays):
            time = node.start - delay if edge is None else edge
            cause = self.seen(line, gate, node.start, signal, time, delay)
            own = nodes[cause]
            found.append((cause, time))
            values.append(own.value)
            moved = delay if time >= 0 else 0
            begin, end = max(begin, own.start + moved), min(end, own.end + moved)
            if kind.decides(own.value):
                break
        if edge is not None:
            begin, end = self.shown(gate, edge)
        value = kind.gate_value(values)
        if (begin, end, value) != (node.start, node.end, node.value):
            raise self.fault(line, f"this does not follow: {node.name} has the value {value} from {begin} on and below {end}")
        return [(number, cause, pin, time, own) for pin, ((cause, time), own) in enumerate(zip(found, _matter(kind, values)))]

    def seen(self, line: int, gate: Gate, start: int, signal: str, time: int, delay: int) -> int:
        """The node of what a pin of a gate sees of its signal at a time, which is below 0 before the pin's delay has passed."""
        if time < 0:
            return self.number_of(signal, Role.UNSEEN, Cell(0, delay, "x"))
        answer = self.table.at(signal, time)
        if answer is None:
            raise self.fault(line, f"{gate.name} from {start} on needs {signal} at {time}, which no line above says")
        return self.number_of(signal, *answer)

    def shown(self, flop: Gate, edge: int) -> tuple[int, int]:
        """From when on, and up to when, a flip-flop shows what it took at an edge."""
        end, clock = self.design.stimulus.horizon + 1, self.design.clock_of(flop)
        begin = edge + self.design.delays(flop)[0]
        return begin, min(begin + clock.period, end) if clock else end

    def number_of(self, name: str, role: Role, cell: Cell) -> int:
        """The number of the node of a cell, which has one however often it is read."""
        # of a signal's cells those of one role alone begin at a time, but for what a pin sees before its delay
        key = (name, cell.start, cell.end, role is Role.UNSEEN)
        number = self.numbers.get(key)
        if number is None:
            number = self.numbers[key] = len(self.nodes)
            gate = self.gates.get(name) if role is not Role.UNSEEN else None
            kind, pins = (gate.kind, gate.pins) if gate else (None, ())
            self.nodes.append(Node(name, role, cell.start, cell.end, cell.value, kind, pins))
        return number

    def claim(self, name: str, time: int, proofs: Sequence[Proof]) -> CellGraph:
        """The graph of what the first lines of the proofs say, one for each bit of `name`."""
        roots = [self.root_of(proof) for proof in proofs]
        whole = CellGraph(name, time, "".join(proof.value for proof in proofs), tuple(self.nodes), (), {}, tuple(roots))
        return _reached(whole, self.edges)

    def root_of(self, proof: Proof) -> int:
        """The node of a claim."""
        if proof.name not in self.design.netlist:
            raise self.fault(self.first, f"the netlist has no signal {proof.name}")
        if proof.time > self.design.stimulus.horizon:
            raise self.fault(self.first, f"the time {proof.time} is after the horizon, {self.design.stimulus.horizon}")
        answer = self.table.at(proof.name, proof.time)
        if answer is None:
            raise self.fault(self.first, f"no line says what {proof.name} is at {proof.time}")
        if answer[1].value != proof.value:
            raise self.fault(self.first, f"by the lines {proof.name} is {answer[1].value} at {proof.time}, and not {proof.value}")
        return self.number_of(proof.name, *answer)

    def reach(self, root: int, has_all: bool) -> None:
        """Adds what is come to from a root, and was not yet."""
        queue = [] if root in self.reached else [root]
        self.reached.update(queue)
        for number in queue:
            if self.nodes[number].role.is_leaf:
                continue
            edges = self.expand(0, number)
            self.edges += edges
            for _, cause, _, _, matters in edges:
                if (matters or has_all) and cause not in self.reached:
                    self.reached.add(cause)
                    queue.append(cause)


def _matter(kind: Kind, seen: Sequence[str]) -> list[bool]:
    """For each looked pin whether the gate's value comes from it."""
    if kind.decides(seen[-1]):
        return [False] * (len(seen) - 1) + [True]
    unknown = [value in "xz" for value in seen]
    return unknown if any(unknown) else [True] * len(seen)


def _reached(whole: CellGraph, edges: Sequence[_Edge]) -> CellGraph:
    """The part that one comes to from the roots by these edges, with the first root as number 0."""
    following: list[list[_Edge]] = [[] for _ in whole.nodes]
    for edge in edges:
        following[edge[0]].append(edge)
    order = {root: place for place, root in enumerate(dict.fromkeys(whole.roots))}
    for node in (queue := list(order)):
        for _, cause, *_ in following[node]:
            if cause not in order:
                order[cause] = len(order)
                queue.append(cause)
    kept = tuple([Edge(order[effect], order[cause], pin, time, matters) for node in queue for effect, cause, pin, time, matters in following[node]])
    return CellGraph(whole.name, whole.time, whole.value, tuple([whole.nodes[node] for node in queue]), kept,
                     {order[node]: count for node, count in whole.hidden.items() if node in order},
                     tuple(order[root] for root in whole.roots))
