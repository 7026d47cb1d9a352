"""An explanation as one HTML page, which holds all that it needs: its style, its script and the cells. In it one goes from a signal to
its causes, by clicks or by keys."""
from __future__ import annotations

import json
from collections.abc import Iterator, Sequence
from html import escape
from importlib.resources import files
from typing import TYPE_CHECKING

from ..circuit.rules import Role
from ..explanations.cells import CellGraph
from ..explanations.sentences import word_text
from .words import sentence_of, times_of, what_of

if TYPE_CHECKING:
    from ..explanations.chains import Step
    from ..explanations.explanation import Explanation

_CHAINS, _MOST_CELLS = 4, 60
# Nothing may be loaded: the page stands alone.
_POLICY = "default-src 'none'; style-src 'unsafe-inline'; script-src 'unsafe-inline'"
_PAGE = """<!DOCTYPE html>
<html lang="en">
<head>
<meta charset="utf-8">
<meta name="viewport" content="width=device-width, initial-scale=1">
<meta http-equiv="Content-Security-Policy" content="{policy}">
<title>{title}</title>
<style>
{style}</style>
</head>
<body>
<header>
<h1>{title}</h1>
{summary}<p>Each signal has its value because others had theirs. Choose a cause to go on to it.
<kbd>↓</kbd> <kbd>↑</kbd> choose, <kbd>→</kbd> or <kbd>Enter</kbd> goes to the cause, <kbd>←</kbd> goes back, <kbd>Home</kbd> goes to
the beginning, <kbd>1</kbd> to <kbd>9</kbd> go to the cause of that number.</p>
<form id="find"><label for="signal">Go to a signal</label>
<input id="signal" list="signals" autocomplete="off" spellcheck="false"><button>Go</button>
<span id="found" role="status"></span><datalist id="signals"></datalist></form>
</header>
<nav aria-label="The way here"><ol id="trail"></ol></nav>
<main>
<noscript><p>This page needs JavaScript. The command that made it draws the same as a picture.</p></noscript>
<section aria-labelledby="cell">
<div class="row now"><div class="text"><h2 id="cell" tabindex="-1"></h2><p id="sentence"></p></div><div class="strip"></div></div>
</section>
<section id="part-causes" aria-labelledby="head-causes"><h3 id="head-causes">It follows from</h3><ol id="causes"></ol></section>
<section id="part-others" aria-labelledby="head-others"><h3 id="head-others">Looked at as well; the value does not come from it</h3>
<ol id="others"></ol></section>
<p id="leaf">Nothing comes before this: here the way ends.</p>
<section id="part-effects" aria-labelledby="head-effects"><h3 id="head-effects">What follows from it</h3><ul id="effects"></ul></section>
</main>
<footer><p>Each strip shows what the explanation says of a signal; where it says nothing, the line is dotted. The vertical line is the
time that is looked at. <span class="key x">x</span> is hatched, <span class="key z">z</span> is a middle line.</p></footer>
<svg class="marks" aria-hidden="true"><defs><pattern id="hatch" width="7" height="7" patternUnits="userSpaceOnUse"
patternTransform="rotate(45)"><rect width="7" height="7" fill="#fdeae8"/><rect width="2" height="7" fill="#d9857f"/></pattern></defs></svg>
<script type="application/json" id="data">{data}</script>
<script>
{script}</script>
</body>
</html>
"""


def page_of(graph: CellGraph, horizon: int, explanation: Explanation | None = None) -> str:
    """The page of a graph, as text in UTF-8. `horizon` is the last time of the simulation. With the explanation the page begins with its
    summary and chains, of which a step opens to its cells."""
    title = f"Why {graph.name} is {word_text(graph.value)} at {graph.time:,}"
    summary = "" if explanation is None else "\n".join(_summary(explanation)) + "\n"
    own = files(__package__)
    return _PAGE.format(policy=escape(_POLICY), title=escape(title), summary=summary, data=_data_of(graph, horizon),
                        style=own.joinpath("page.css").read_text(encoding="utf-8"),
                        script=own.joinpath("page.js").read_text(encoding="utf-8"))


def _summary(explanation: Explanation) -> Iterator[str]:
    """The causes in sentences, and the chains to the first few, in HTML."""
    from ..explanations.sentences import first_few, summary_of
    yield "<section id=\"summary\" aria-label=\"In short\"><ul class=\"sentences\">"
    for line in summary_of(explanation)[1:]:
        kind = " class=\"more\"" if line.startswith(" ") else ""
        yield f"<li{kind}>{escape(line.strip())}</li>"
    yield "</ul>"
    for place, (cause, name) in enumerate(first_few(explanation.causes, _CHAINS)):
        steps = explanation.chain(cause, name)
        yield (f"<details{' open' if place == 0 else ''}><summary>{escape(name)}, {len(steps):,} step{'s' * (len(steps) != 1)} back"
               "</summary><ol class=\"chain\">")
        yield from _chain(explanation.graph, steps)
        yield "</ol></details>"
    if len(explanation.graph.roots) > 1:
        bits = "".join(_box(root, explanation.graph) for root in explanation.graph.roots[:_MOST_CELLS])
        yield f"<p class=\"cells\">Its bits: {bits}</p>"
    yield "</section>"


def _chain(graph: CellGraph, steps: Sequence[Step]) -> Iterator[str]:
    """The steps, of many the first and the last; each opens to its cells."""
    from ..explanations.sentences import MOST_STEPS
    left = len(steps) - MOST_STEPS
    for place, step in enumerate(steps):
        if left > 1 and MOST_STEPS // 2 <= place < MOST_STEPS // 2 + left:
            if place == MOST_STEPS // 2:
                yield f"<li class=\"left\">{left:,} steps more</li>"
            continue
        source = f" <span class=\"source\">{escape(step.source)}</span>" if step.source else ""
        what = f"<span class=\"times\">{step.start:,}</span> <b>{escape(step.name)} = {step.value}</b> {escape(step.what)}{source}"
        cells = "".join(_box(number, graph) for number in step.nodes[:_MOST_CELLS])
        rest = f" and {len(step.nodes) - _MOST_CELLS:,} more" if len(step.nodes) > _MOST_CELLS else ""
        yield f"<li><details class=\"step v{step.value}\"><summary>{what}</summary><p class=\"cells\">{cells}{rest}</p></details></li>"


def _box(number: int, graph: CellGraph) -> str:
    """A button that goes to a cell."""
    node = graph.nodes[number]
    return f"<button type=\"button\" data-cell=\"{number}\">{escape(node.name)} = {node.value}, {escape(times_of(node))}</button> "


def _data_of(explanation: CellGraph, horizon: int) -> str:
    """The cells and their causes as JSON, in which no mark of HTML stands."""
    causes = explanation.causes()
    nodes = [{"name": node.name, "value": node.value, "start": node.start, "end": node.end, "moves": node.role is Role.GATE,
              "times": times_of(node), "what": what_of(node), "sentence": sentence_of(node, causes[number], explanation.nodes),
              "causes": [{"node": edge.cause, "pin": edge.pin, "time": edge.time, "matters": edge.matters} for edge in causes[number]]}
             for number, node in enumerate(explanation.nodes)]
    text = json.dumps({"time": explanation.time, "horizon": horizon, "roots": explanation.roots, "nodes": nodes}, separators=(",", ":"))
    return text.replace("<", "\\u003c").replace(">", "\\u003e").replace("&", "\\u0026")
