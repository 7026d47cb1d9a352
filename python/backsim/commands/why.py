"""Says why a signal or a bus has its value: in sentences, as a picture, as a page, or as JSON."""
from __future__ import annotations

import argparse
import json
import sys
from collections.abc import Sequence
from pathlib import Path

from ..circuit.buses import full_name, matching, signals_of
from ..circuit.rules import read_design
from ..collecting import without_collection
from ..command_line.arguments import count_of, moment, unit_of_session
from ..command_line.no_value import no_value_of
from ..command_line.outputs import check_places
from ..errors import FormatError, UsageError, WordsError
from ..explanations.cells import explain
from ..explanations.explanation import Explanation
from ..explanations.names import listed
from ..explanations.sentences import USUAL_CHAINS, summary_of, text_of
from ..formats.replies import Reply, read_replies_of
from ..formats.units import units_of, units_until
from ..limits import MOST_BUDGET
from ..pictures.files import form_of, write_picture
from ..pictures.graph import FORMS, picture_of, rendered, steps_text
from ..pictures.page import page_of
from ..session.session import Session
from ..values import Proof

HELP = "the root causes of a value and the chains to them, in sentences, as JSON, as a picture over time, and as a page"
EXAMPLE = """\
  backsim-tools why examples/s27/s27.bench examples/s27/s27.timing examples/s27/s27.stim G17 4
  backsim-tools why examples/s27/s27.bench examples/s27/s27.timing examples/s27/s27.stim G17 4 -o why.svg --html why.html
  backsim-tools why examples/c17/c17.bench examples/c17/c17.timing examples/c17/c17.stim --proof examples/c17/c17.proof -o why.png

NAME is a signal or a bus, as 'count[7:0]', or count for all of it. A line of a chain has the time from which on the signal has the value, what drives it, and
the place in the source where the netlist knows it. What one signal of the source does is one step: with gates that only a tool named,
gates of the same line, the multiplexer of an enable, and the edges at which a register kept its value.

In a picture of up to 60 cells a node is a cell: a signal, its value, and the times at which it has it for one cause. An arrow goes from a cell to each
that it follows from, and is dashed where that one was looked at but does not matter to the value. A larger picture has a node for each step of the chains."""
USUAL_MOST = 60


def add_arguments(parser: argparse.ArgumentParser) -> None:
    for name in ("netlist", "timing", "stimulus"):
        parser.add_argument(name, type=Path, metavar=name.upper())
    parser.add_argument("name", nargs="?", metavar="NAME", help="the signal or bus")
    parser.add_argument("time", nargs="?", type=moment, metavar="TIME", help="the time at which it has the value, in units, or such as "
                        "15ns where the files state the unit")
    parser.add_argument("--proof", type=Path, metavar="FILE",
                        help="a proof, or replies with a proof, in place of a session; NAME and TIME choose one of several")
    parser.add_argument("--budget", type=count_of(0, MOST_BUDGET), metavar="N", help="how many points the session may evaluate; where it "
                        f"is left out 50,000, and {MOST_BUDGET:,} where these do not suffice")
    parser.add_argument("--depth", type=count_of(1, 1_000_000), metavar="N", help="go back so many steps at most")
    parser.add_argument("--until", action="append", default=[], metavar="NAME", help="go back no further than this signal, bus or "
                        "pattern; may be repeated")
    parser.add_argument("--chains", type=count_of(0, 1000), default=USUAL_CHAINS, metavar="N", help="how many chains are written, "
                        f"{USUAL_CHAINS} where it is left out")
    parser.add_argument("--gates", action="store_true", help="write below each step of a chain the gates that are part of it")
    parser.add_argument("--json", action="store_true", help="write the causes and the chains as JSON")
    parser.add_argument("--output", "-o", type=Path, metavar="FILE",
                        help="the picture, in the form that the name ends in: .svg, .png or .dot")
    parser.add_argument("--html", type=Path, metavar="FILE", help="the page")
    parser.add_argument("--all", action="store_true", help="say, draw and write as well what was looked at and does not matter")
    parser.add_argument("--most", type=count_of(1, 1_000_000), metavar="N",
                        help=f"draw at most so many cells, the nearest to the value; where it is left out all up to {USUAL_MOST}, and of "
                        "more the steps of the chains")


def run(arguments: argparse.Namespace) -> int:
    form = form_of(arguments.output, FORMS) if arguments.output else None
    check_places(arguments.output, arguments.html, read=(arguments.netlist, arguments.timing, arguments.stimulus, arguments.proof))
    with without_collection():
        return _tell(_explanation_of(arguments), form, arguments)


def _tell(explanation: Explanation, form: str | None, arguments: argparse.Namespace) -> int:
    if form:
        write_picture(arguments.output, _picture(explanation, form, arguments))
    if arguments.html:
        write_picture(arguments.html, page_of(explanation.graph, explanation.design.stimulus.horizon, explanation).encode())
    if arguments.json:
        json.dump(explanation.to_json(arguments.chains), sys.stdout, indent=1)
        print()
    elif not (form or arguments.html):
        print(text_of(explanation, arguments.chains, arguments.all, arguments.gates))
    return 0


def _picture(explanation: Explanation, form: str, arguments: argparse.Namespace) -> bytes:
    """The cells; of many without --most the steps of the chains."""
    summary = summary_of(explanation)[1:]
    drawn = explanation.graph if arguments.all else explanation.graph.way()
    if arguments.most is None and len(drawn.nodes) > USUAL_MOST:
        print(f"the steps to the causes are drawn; --most draws that many of the {len(drawn.nodes):,} cells", file=sys.stderr)
        return rendered(steps_text(explanation, summary, USUAL_MOST), form)
    shown = drawn if arguments.most is None else drawn.nearest(arguments.most)
    if len(shown.nodes) < len(drawn.nodes):
        print(f"{len(shown.nodes)} of {len(drawn.nodes)} cells are drawn; --most draws more", file=sys.stderr)
    return picture_of(shown, form, summary)


def _explanation_of(arguments: argparse.Namespace) -> Explanation:
    """The explanation that is in the file, or that a session gives."""
    if arguments.proof:
        design = read_design(arguments.netlist, arguments.timing, arguments.stimulus)
        time = None if arguments.time is None else units_of(arguments.time, unit_of_session(arguments.timing, arguments.stimulus))
        reply = _chosen(arguments.proof, arguments.name, time)
        assert isinstance(reply.answer, Proof)
        explain(design, reply.answer, arguments.proof, reply.line)
        until = _signals(arguments.until, arguments.netlist, design.netlist.names)
        return Explanation(design, reply.answer.name, reply.answer.time, (reply.answer,), until=until, depth=arguments.depth,
                           has_all=arguments.all)
    if arguments.name is None or arguments.time is None:
        raise WordsError("say NAME and TIME of what is to be explained, or --proof FILE")
    with Session(arguments.netlist, arguments.timing, arguments.stimulus) as session:
        design = session.design
        until = _signals(arguments.until, arguments.netlist, design.netlist.names)
        name = full_name(arguments.name, set(design.netlist.names), design.netlist.ascending)
        time = units_until(arguments.time, session.unit, session.horizon)
        answer = session.explain(name, time, arguments.budget, until=until, depth=arguments.depth, has_all=arguments.all)
    if isinstance(answer, Explanation):
        return answer
    raise no_value_of(answer, arguments.netlist, arguments.stimulus, f"{answer.name} at {time}", f", {design.stimulus.horizon}")


def _signals(names: Sequence[str], path: Path, known: Sequence[str]) -> list[str]:
    """The signals that the names stand for. UsageError where one is of none."""
    every = dict.fromkeys(known)
    found: list[str] = []
    for name in names:
        own = signals_of(name, every) or matching(name, known)
        if not own:
            raise UsageError(f"{path}: there is no signal {name}, which --until names")
        found += own
    return found


def _chosen(path: Path, name: str | None, time: int | None) -> Reply:
    """The reply of the file that is the wanted proof, or the only one."""
    proofs = [reply for reply in read_replies_of(path) if isinstance(reply.answer, Proof)]
    fitting = [reply for reply in proofs if _is_wanted(reply.answer, name, time)]
    if len(fitting) == 1 or fitting and name is not None and time is not None:
        return fitting[0]
    if not proofs:
        raise FormatError(path, None, "no reply to a `why` line is in this file")
    claims = [f"{reply.answer.name} {reply.answer.time}" for reply in fitting or proofs if isinstance(reply.answer, Proof)]
    raise UsageError(f"{path}: name one explanation by NAME and TIME; there are {listed(claims)}")


def _is_wanted(answer: object, name: str | None, time: int | None) -> bool:
    return isinstance(answer, Proof) and name in (None, answer.name) and time in (None, answer.time)
