"""The steps of a way: what each signal of the source did on it."""
from __future__ import annotations

from collections.abc import Sequence
from dataclasses import replace

from ..circuit.kinds import Kind
from ..circuit.rules import Role
from ..records import dataclass
from .cells import Node
from .way import Way, line_of, multiplexer_of

_LONGEST_PERIOD = 8
_LEAST_REPEATS = 3
# on a way through it, with its inverter
_GATES_OF_MULTIPLEXER = 3


@dataclass(frozen=True, slots=True)
class Step:
    """The signal `name` has the value from `start` on and before `end`. `role` says what drives it, and `what` how it came to the
    value, in words. `gates` counts the gates that are part of the step; `source` is the place in the source, as `chip.v:12`, or empty
    where the netlist does not know it. Where the same steps came several times one after another, they are told once: `times` counts
    them, and `since` is when the earliest began. `nodes` has the numbers of its cells in the graph."""

    name: str
    value: str
    start: int
    end: int
    role: Role
    what: str
    gates: int
    source: str
    times: int
    since: int
    nodes: tuple[int, ...]


def steps_of(way: Way, numbers: Sequence[int]) -> tuple[Step, ...]:
    """The steps of the nodes of a way, from the value back to its cause."""
    nodes = way.graph.nodes
    blocks: list[list[int]] = []
    for place, number in enumerate(numbers):
        if place and (way.is_within(nodes[numbers[place - 1]], nodes[number]) or _is_kept(way, blocks[-1], nodes[number])):
            blocks[-1].append(number)
        else:
            blocks.append([number])
    causes = [*(nodes[block[0]] for block in blocks[1:]), None]
    steps = [_step_of(way, block, cause) for block, cause in zip(blocks, causes)]
    return tuple(_folded(steps))


def _is_kept(way: Way, block: Sequence[int], cause: Node) -> bool:
    """Whether a flip-flop takes the value that it has, through gates that only a tool named at most."""
    head, *gates = (way.graph.nodes[number] for number in block)
    return head.role is Role.FLOP and (cause.name, cause.role, cause.value) == (head.name, head.role, head.value) \
        and all(node.name == head.name or way.parts.serves(node.name) for node in gates)


def _step_of(way: Way, numbers: Sequence[int], cause: Node | None) -> Step:
    """The step of some nodes that follow from one another; `cause` is the node of the next step."""
    block = [way.graph.nodes[number] for number in numbers]
    head = block[0]
    flops = [node for node in block if node.role is Role.FLOP]
    gates = [node for node in block if node.role is Role.GATE]
    what = _flop_text(way, block, cause) if head.role is Role.FLOP else _gate_text(way, gates, cause) if gates else _leaf_text(way, head)
    is_shown = head.role is not Role.GATE or not way.parts.serves(head.name)
    shown = head if is_shown else next((node for node in block if not way.parts.serves(node.name)), head)
    return Step(shown.name, shown.value, shown.start, shown.end, head.role, what, len(gates), _source_of(way, block), max(1, len(flops)),
                block[-1].start if len(flops) > 1 else shown.start, tuple(numbers))


def _source_of(way: Way, block: Sequence[Node]) -> str:
    """The first place in the source that a node of the step knows."""
    gates = way.design.netlist.gates
    return next((line_of(gates[node.name].source) for node in block if node.name in gates and gates[node.name].source), "")


def _flop_text(way: Way, block: Sequence[Node], cause: Node | None) -> str:
    """What a flip-flop did: it kept its value from edge to edge, or took that of its cause."""
    places = [place for place, node in enumerate(block) if node.role is Role.FLOP]
    edges = [way.design.shown_edge(way.design.netlist.gates[block[place].name], block[place].start) or 0 for place in places]
    has_taken = cause is not None and not (cause.role is Role.INITIAL and cause.name == block[0].name)
    kept = edges[:-1] if has_taken else edges
    said = ["flip-flop"]
    if cause is not None and has_taken:
        gates = len(block) - 1 - places[-1]
        said.append(f"took {cause.name}{f' through {gates} gates' if gates > 1 else ''} at the edge at {edges[-1]:,}")
    if len(kept) == 1:
        said.append(f"kept its value at the edge at {kept[0]:,}")
    elif kept:
        said.append(f"kept its value at {len(kept):,} edges, {kept[-1]:,} to {kept[0]:,}")
    return ", ".join(said)


def _gate_text(way: Way, gates: Sequence[Node], cause: Node | None) -> str:
    """What gates do: a multiplexer by its select, one gate by its kind and the pin that decides, several by their number."""
    netlist = way.design.netlist
    gate = netlist.gates[gates[0].name]
    mux = multiplexer_of(netlist, gate)
    if mux is not None:
        select = "" if way.parts.serves(mux[0]) else f" by {mux[0]}"
        return f"multiplexer{select}" if len(gates) <= _GATES_OF_MULTIPLEXER else f"{len(gates)} gates, the last a multiplexer{select}"
    if len(gates) > 1:
        return f"{len(gates)} gates, the last {_article(gate.kind)}"
    if len(gate.pins) == 1 or cause is None:
        return gate.kind.value
    if cause.value in "01" and gate.kind.decides(cause.value):
        return f"{gate.kind.value}, {cause.name} decides"
    return f"{gate.kind.value} of {len(gate.pins)} pins"


def _article(kind: Kind) -> str:
    return f"an {kind.value}" if kind.value[0] in "AOX" else f"a {kind.value}"


def _leaf_text(way: Way, node: Node) -> str:
    if node.role is Role.INPUT:
        changes = way.design.changes(node.name)
        if any(time == node.start for time, _ in changes):
            return f"input, set at {node.start:,}"
        return f"input, not set before {node.end:,}" if changes else "input, never set"
    elif node.role is Role.INITIAL:
        value = "no initial value" if node.value == "x" else "initial value"
        return value if way.design.clock_of(way.design.netlist.gates[node.name]) else f"{value}, and no clock"
    elif node.role is Role.EARLY:
        return f"before its delay of {node.end:,}"
    elif node.role is Role.UNSEEN:
        return f"not seen before the delay of {node.end:,}"
    return str(node.role.value)


def _folded(steps: Sequence[Step]) -> list[Step]:
    """The steps, where some come again and again one after another, once with their count."""
    found: list[Step] = []
    place = 0
    keys = [(step.name, step.value, step.role, step.gates) for step in steps]
    while place < len(steps):
        period, repeats = max(((period, _repeats(keys, place, period)) for period in range(1, _LONGEST_PERIOD + 1)),
                              key=lambda found: (found[0] * found[1] if found[1] >= _LEAST_REPEATS else 0, -found[0]))
        if repeats < _LEAST_REPEATS:
            found.append(steps[place])
            place += 1
            continue
        last = place + period * (repeats - 1)
        found += [replace(step, times=repeats, since=steps[last + offset].since) for offset, step in enumerate(steps[place:place + period])]
        place += period * repeats
    return found


def _repeats(keys: Sequence[object], place: int, period: int) -> int:
    """How often the keys of a period from a place on come one after another."""
    count = 1
    while keys[place:place + period] == keys[place + count * period:place + (count + 1) * period]:
        count += 1
    return count
