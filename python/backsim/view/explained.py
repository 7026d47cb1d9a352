"""Why a value is what it is, as the page shows it: the root causes in sentences, and chains whose steps can be drawn into the waves."""
from __future__ import annotations

from collections.abc import Sequence
from typing import Any

from ..circuit.rules import Design
from ..collecting import without_collection
from ..explanations.chains import Step
from ..explanations.explanation import Explanation
from ..explanations.roots import Cause
from ..explanations.sentences import first_few, summary_of
from ..formats.stimulus import read_stimulus
from ..formats.timing import read_timing
from ..values import Proof
from .index import Index

# chains that are told
MOST_CHAINS = 12


class Explainer:
    """Explains values over the three files, which are read when the first is explained."""

    def __init__(self, index: Index, timing: str, stimulus: str) -> None:
        self._index, self._files = index, (timing, stimulus)
        self._design: Design | None = None

    def of(self, name: str, time: int, proofs: Sequence[Proof]) -> dict[str, Any]:
        """What is told of the signal or bus, with a proof for each of its bits."""
        if self._design is None:
            timing, stimulus = self._files
            self._design = Design(self._index.netlist(), read_timing(timing), read_stimulus(stimulus))
        with without_collection():
            return _told(Explanation(self._design, name, time, proofs))


def _told(explanation: Explanation) -> dict[str, Any]:
    """What the page shows of an explanation."""
    first, *causes = summary_of(explanation)
    return {
        "name": explanation.name, "time": explanation.time, "value": explanation.value, "cells": len(explanation.graph.nodes),
        "causes": [line.partition(": ")[2] or line.strip() for line in causes],
        "chains": [_chain(explanation, cause, to) for cause, to in first_few(explanation.causes, MOST_CHAINS)],
    }


def _chain(explanation: Explanation, cause: Cause, name: str) -> dict[str, Any]:
    """The chain from the value to a signal of a cause."""
    seen = _seen(explanation, cause.nodes[cause.names.index(name)])
    steps = explanation.chain(cause, name)
    return {"to": name, "kind": cause.kind.value,
            "steps": [_step(step, seen.get((step.name, step.start), step.start)) for step in steps]}


def _seen(explanation: Explanation, node: int) -> dict[tuple[str, int], int]:
    """For each cell on the way to a node, by its signal and its start, the last time at which the one before it looked at it."""
    seen: dict[tuple[str, int], int] = {}
    for number in explanation.way.to(node):
        edge, own = explanation.way.before[number], explanation.graph.nodes[number]
        seen[own.name, own.start] = explanation.time if edge is None else max(edge.time, 0)
    return seen


def _step(step: Step, seen: int) -> dict[str, Any]:
    return {"name": step.name, "value": step.value, "start": step.start, "stop": step.end, "seen": seen, "what": step.what,
            "isRoot": step.role.is_leaf, "source": step.source, "times": step.times, "since": step.since}
