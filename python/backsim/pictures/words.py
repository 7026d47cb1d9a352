"""How pictures say what a cell is."""
from __future__ import annotations

from collections.abc import Sequence

from ..circuit.rules import Role
from ..explanations.cells import Edge, Node


def times_of(node: Node) -> str:
    """The times of a cell, as `t = 4` or `4 ≤ t < 9`."""
    return f"t = {node.start:,}" if node.end == node.start + 1 else f"{node.start:,} ≤ t < {node.end:,}"


def what_of(node: Node) -> str:
    """What a cell is, as `NOR of G5, G9`."""
    if node.role is Role.UNSEEN:
        return f"x before the pin's delay of {node.end}"
    if node.role is Role.FLOP:
        return f"flip-flop, takes {node.pins[0]}"
    if node.kind is None or node.role is Role.INITIAL:
        return str(node.role.value)
    return f"{node.kind.value}, x before its delay" if node.role is Role.EARLY else f"{node.kind.value} of {pins_of(node)}"


def pins_of(node: Node, most: int = 4) -> str:
    """The pins of a gate, of more than `most` the first and a count."""
    if len(node.pins) <= most:
        return ", ".join(node.pins)
    return f"{', '.join(node.pins[:most - 1])} and {len(node.pins) - most + 1} more"


def shortened(name: str, most: int) -> str:
    """A name of at most `most` characters: of a longer one the beginning and the end."""
    if len(name) <= most:
        return name
    head = (most - 1) // 3
    return f"{name[:head]}…{name[len(name) - (most - 1 - head):]}"


def sentence_of(node: Node, causes: Sequence[Edge], nodes: Sequence[Node]) -> str:
    """How the value of a cell comes about, in a sentence."""
    if not causes and not node.role.is_leaf:
        return "It was looked at, and the value does not come from it: what it follows from is left out."
    if node.role is Role.INPUT:
        return "An input: the stimulus gives it this value."
    if node.role is Role.INITIAL:
        return "A flip-flop before its first shown edge: this is its initial value."
    if node.role is Role.EARLY:
        return f"A gate before its least delay, {node.end}: nothing has come through it yet, so it is x."
    if node.role is Role.UNSEEN:
        return f"A pin with the delay {node.end}, before that has passed: it sees x."
    if node.role is Role.FLOP:
        return f"A flip-flop: it shows what {node.pins[0]} was at the edge at {causes[0].time}."
    kind = node.kind.value if node.kind else ""
    if len(node.pins) == 1:
        return f"{kind} of one pin, {node.pins[0]}."
    reasons = [f"{nodes[edge.cause].name} is {nodes[edge.cause].value}" for edge in causes if edge.matters]
    if node.kind and node.kind.decides(nodes[causes[-1].cause].value):
        return f"{kind} of {pins_of(node)}: {reasons[0]}, which decides whatever the other pins are."
    if node.value == "x":
        return f"{kind} of {pins_of(node)}: no pin decides, and {' and '.join(reasons[:3])}{' and more' if reasons[3:] else ''}."
    return f"{kind} of {pins_of(node)}: no pin decides, so all of them count."
