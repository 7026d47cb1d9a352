"""The root causes of a value: the ends of its ways back, those of one kind together."""
from __future__ import annotations

import enum
from collections.abc import Collection

from ..circuit.rules import Role
from ..convert.build import constant_value
from ..records import dataclass
from .cells import CellTable, Node
from .way import Way

MOST_WEIGHED = 2000


class CauseKind(enum.Enum):
    """What a root cause is. UNSET, NO_VALUE and TOO_EARLY are those of an unknown value; INPUT, INITIAL and CONSTANT those of a known
    one. UNTIL is a signal at which the way was to end, BEYOND one after the steps that were wanted."""

    UNSET = "flip-flops without an initial value"
    NO_VALUE = "inputs without a known value"
    TOO_EARLY = "signals before a delay"
    INPUT = "input"
    INITIAL = "initial value"
    CONSTANT = "constant"
    UNTIL = "signal at which the way was to end"
    BEYOND = "signals beyond the depth"


@dataclass(frozen=True, slots=True)
class Cause:
    """Root causes of one kind: the signals `names`, the nearest first, with the values of each (`values`), when each began to have it and
    stopped (`times`), and its number in the graph (`nodes`). `steps` is how long the shortest chain is. `alone` has the names each of
    which decides alone: of an unknown value those that would make it known, were they known, of a known one those from which it follows
    whatever the other causes are."""

    kind: CauseKind
    names: tuple[str, ...]
    values: tuple[str, ...]
    times: tuple[tuple[int, int], ...]
    nodes: tuple[int, ...]
    steps: int
    alone: tuple[str, ...] = ()


def causes_of(way: Way, table: CellTable, until: Collection[str]) -> tuple[Cause, ...]:
    """The root causes at the leaves of the way: those that decide alone first, and then the nearest."""
    nodes = way.graph.nodes
    grouped: dict[tuple[object, ...], list[int]] = {}
    for leaf in way.leaves:
        kind = _kind_of(nodes[leaf], until)
        grouped.setdefault((kind, *_key_of(kind, nodes[leaf])), []).append(leaf)
    weighed = [leaf for leaf in way.leaves if _kind_of(nodes[leaf], until) not in (CauseKind.TOO_EARLY, CauseKind.CONSTANT)]
    deciding = way.deciding(table, weighed[:MOST_WEIGHED])
    causes = [_cause_of(way, key[0], leaves, deciding) for key, leaves in grouped.items()]
    return tuple(sorted(causes, key=lambda cause: (cause.kind is CauseKind.CONSTANT, not cause.alone)))


def _cause_of(way: Way, kind: object, leaves: list[int], deciding: set[int]) -> Cause:
    assert isinstance(kind, CauseKind)
    nodes = way.graph.nodes
    once = {nodes[leaf].name: leaf for leaf in reversed(leaves)}
    own = [leaf for leaf in leaves if once[nodes[leaf].name] == leaf]
    return Cause(kind, tuple(nodes[leaf].name for leaf in own), tuple(nodes[leaf].value for leaf in own),
                 tuple((nodes[leaf].start, nodes[leaf].end) for leaf in own), tuple(own), way.steps(leaves[0]),
                 tuple(nodes[leaf].name for leaf in own if leaf in deciding))


def _kind_of(node: Node, until: Collection[str]) -> CauseKind:
    if node.name in until:
        return CauseKind.UNTIL
    is_unknown = node.value in "xz"
    if node.role is Role.INPUT:
        if constant_value(node.name) is not None:
            return CauseKind.CONSTANT
        return CauseKind.NO_VALUE if is_unknown else CauseKind.INPUT
    if node.role is Role.INITIAL:
        return CauseKind.UNSET if is_unknown else CauseKind.INITIAL
    if node.role in (Role.EARLY, Role.UNSEEN):
        return CauseKind.TOO_EARLY
    return CauseKind.BEYOND


def _key_of(kind: CauseKind, node: Node) -> tuple[object, ...]:
    """What nodes of a kind have in common that are one cause."""
    if kind is CauseKind.NO_VALUE:
        return node.start, node.end, node.value
    elif kind is CauseKind.INPUT:
        return (node.start,)
    return ()
