"""Why a signal has its value: root causes, the shortest chain to each, and the graph of all cells.

    with Session("s27.bench", "s27.timing", "s27.stim") as session:
        why = session.explain("G17", 4)
    print(why)                                  # the value, its causes in sentences, and chains
    for cause in why.causes:
        print(cause.kind, cause.names, cause.times)
        for step in why.chain(cause):
            print(step.name, step.value, step.start, step.what, step.source)

`cells` makes a graph of the cells of a proof, and tests it by the rules; `way` finds the shortest ways in it, `chains` their steps,
`roots` the causes; `sentences` says them in words."""
from .cells import CellGraph, CellTable, Edge, Node, explain, way_of
from .chains import Step
from .explanation import Explanation
from .roots import Cause, CauseKind

__all__ = ["Cause", "CauseKind", "CellGraph", "CellTable", "Edge", "Explanation", "Node", "Step", "explain", "way_of"]
