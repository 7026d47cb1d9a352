"""An explanation as a picture by graphviz: a node for each cell, ranked by the time at which it begins, earlier ones to the left."""
from __future__ import annotations

import re
import subprocess
from collections.abc import Sequence
from html import escape
from typing import TYPE_CHECKING

from ..errors import BacksimError, MissingExtra
from ..explanations.cells import CellGraph, Edge, Node
from ..explanations.sentences import word_text
from .words import shortened, times_of, what_of

if TYPE_CHECKING:
    from ..explanations.chains import Step
    from ..explanations.explanation import Explanation

FORMS = ("svg", "png", "dot")
MOST_LETTERS, MOST_OF_A_LINE = 36, 110
# Of each value the colours of a node's ground and border. The value stands in the node too, so nothing hangs on the colour.
_COLOURS = {"0": ("#e8f1fa", "#1f5582"), "1": ("#e6f4e4", "#2c6e2f"), "x": ("#fdeae8", "#b3261e"), "z": ("#fff4d6", "#8a5a00")}
_TEXT, _QUIET = "#1d2329", "#56606b"
_FONT = "DejaVu Sans"
_WORD = re.compile(r"\\(?=[NGEHTL])")


def dot_text(explanation: CellGraph, summary: Sequence[str] = ()) -> str:
    """The graph in graphviz's language. An arrow goes from a cell to each that it follows from; it is dashed where the pin was
    looked at and does not matter to the value. Leaves have a rounded border, and what is explained a thick one. The lines of the summary
    stand below the title."""
    lines = _head(f"why {explanation.name} is {word_text(explanation.value)} at {explanation.time:,}", summary)
    lines += _axis(sorted({node.start for node in explanation.nodes}))
    lines += [_node(number, node, explanation.hidden.get(number, 0), number in explanation.roots)
              for number, node in enumerate(explanation.nodes)]
    lines += [f"  {{ rank=same; t{node.start}; n{number}; }}" for number, node in enumerate(explanation.nodes)]
    lines += [_edge(edge, explanation.nodes[edge.cause]) for edge in explanation.edges]
    return "\n".join([*lines, "}", ""])


def _head(title: str, summary: Sequence[str]) -> list[str]:
    """The first lines of a graph, with its title and the summary below it."""
    label = _quoted("\n".join((title, *(shortened(line.strip(), MOST_OF_A_LINE) for line in summary)))).replace("\n", "\\n")
    return ["digraph why {",
            f"  graph [rankdir=LR, newrank=true, nodesep=0.22, ranksep=0.5, fontname={_quoted(_FONT)}, bgcolor=white, pad=0.25, "
            f"label={label}, labelloc=t, fontsize=18, fontcolor={_quoted(_TEXT)}, tooltip={_quoted(title)}];",
            f"  node [shape=box, style=filled, fontname={_quoted(_FONT)}, fontsize=12, fontcolor={_quoted(_TEXT)}, margin=\"0.14,0.09\"];",
            f"  edge [dir=back, color={_quoted(_TEXT)}, arrowsize=0.7];"]


def steps_text(explanation: Explanation, summary: Sequence[str] = (), most: int = 60) -> str:
    """The chains to the first few causes in graphviz's language, a box for each step, at most so many."""
    from ..explanations.sentences import first_few
    boxes: dict[int, Step] = {}
    arrows: dict[tuple[int, int], None] = {}
    for cause, name in first_few(explanation.causes, most):
        steps = explanation.chain(cause, name)
        if len(boxes.keys() | {step.nodes[0] for step in steps}) > most and boxes:
            break
        for step, after in zip(steps, [*steps[1:], None]):
            boxes.setdefault(step.nodes[0], step)
            if after is not None:
                arrows[after.nodes[0], step.nodes[0]] = None
    lines = _head(f"why {explanation.name} is {word_text(explanation.value)} at {explanation.time:,}", summary)
    lines += [_step(number, step, number in explanation.graph.roots) for number, step in list(boxes.items())[:most]]
    lines += [f"  n{cause} -> n{effect};" for cause, effect in arrows]
    return "\n".join([*lines, "}", ""])


def _step(number: int, step: Step, is_root: bool) -> str:
    ground, border = _COLOURS[step.value]
    texts = [f"<B>{_marked(shortened(step.name, MOST_LETTERS))} = {step.value}</B>", _marked(f"from {step.start:,}"),
             *(f'<FONT POINT-SIZE="10" COLOR="{_QUIET}">{_marked(shortened(text, MOST_OF_A_LINE // 2))}</FONT>'
               for text in (*step.what.split(", "), step.source) if text)]
    style = "filled,rounded" if step.role.is_leaf else "filled"
    return (f"  n{number} [label=<{'<BR/>'.join(texts)}>, style={_quoted(style)}, fillcolor={_quoted(ground)}, color={_quoted(border)}, "
            f"penwidth={2.6 if is_root else 1.2}];")


def rendered(text: str, form: str) -> bytes:
    """The picture of a graph in graphviz's language, in one of the forms; see `picture_of`."""
    return text.encode() if form == "dot" else _rendered(text, form)


def picture_of(explanation: CellGraph, form: str, summary: Sequence[str] = ()) -> bytes:
    """The picture in one of the forms `svg`, `png` and `dot`; the first two need the program `dot` of graphviz, and are refused by
    MissingExtra where it is not there."""
    return rendered(dot_text(explanation, summary), form)


def _rendered(text: str, form: str) -> bytes:
    words = ["dot", f"-T{form}", *(["-Gdpi=110"] if form == "png" else [])]
    try:
        done = subprocess.run(words, input=text.encode(), capture_output=True, check=False)
    except FileNotFoundError:
        raise MissingExtra("the program dot", "pictures", "graphviz") from None
    if done.returncode != 0:
        reason = done.stderr.decode(errors="replace").strip().splitlines()
        raise BacksimError(f"dot failed with status {done.returncode}: {reason[-1] if reason else 'no reason given'}")
    return done.stdout.replace(f'font-family="{_FONT}"'.encode(), f'font-family="{_FONT}, Verdana, sans-serif"'.encode())


def _axis(times: list[int]) -> list[str]:
    """The times at which cells begin, in a row of their own."""
    words = [f"t{time} [label={_quoted(f't = {time:,}')}];" for time in times]
    chain = [" -> ".join(f"t{time}" for time in times) + ";"] if len(times) > 1 else []
    return ["  subgraph cluster_time {", f"    peripheries=0; label=\"\"; node [shape=plaintext, style=\"\", fontcolor={_quoted(_QUIET)}]; "
            "edge [dir=none, style=dotted, color=\"#9aa3ad\", weight=100];", *(f"    {word}" for word in words + chain), "  }"]


def _node(number: int, node: Node, hidden: int, is_root: bool) -> str:
    ground, border = _COLOURS[node.value]
    more = f'<BR/><FONT POINT-SIZE="10"><I>{hidden} more not drawn</I></FONT>' if hidden else ""
    label = (f"<<B>{_marked(shortened(node.name, MOST_LETTERS))} = {node.value}</B><BR/>"
             f'{_marked(times_of(node))}<BR/><FONT POINT-SIZE="10" COLOR="{_QUIET}">'
             f"{_marked(shortened(what_of(node), MOST_LETTERS + 8))}</FONT>{more}>")
    style = "filled,rounded" if node.role.is_leaf else "filled"
    tooltip = f"{node.name} is {node.value} at {times_of(node)}: {what_of(node)}"
    return (f"  n{number} [label={label}, style={_quoted(style)}, fillcolor={_quoted(ground)}, color={_quoted(border)}, "
            f"penwidth={2.6 if is_root else 1.2}, tooltip={_quoted(tooltip)}];")


def _edge(edge: Edge, cause: Node) -> str:
    seen = f"pin {edge.pin} sees {cause.name}" + (f" at {edge.time}: {cause.value}" if edge.time >= 0 else ", x before its delay")
    style = "" if edge.matters else ", style=dashed, color=\"#7b8590\""
    return f"  n{edge.cause} -> n{edge.effect} [tooltip={_quoted(seen)}{style}];"


def _marked(text: str) -> str:
    """A text in a label with marks. There graphviz takes a backslash with one of some letters behind it for a word of its own, so a
    sign without width comes between."""
    return _WORD.sub("\\\\&#8288;", escape(text))


def _quoted(text: str) -> str:
    escaped = text.replace("\\", "\\\\").replace('"', '\\"')
    return f'"{escaped}"'
