"""Writes replies as a waveform dump."""
from __future__ import annotations

import argparse
from pathlib import Path

from ..command_line.outputs import check_places
from ..convert.output import add_output, whole_text
from ..convert.waves import dumped_of, runs_of
from ..errors import FormatError, WordsError
from ..formats.replies import read_replies_of
from ..formats.vcd import TIMESCALE, write_vcd
from ..values import Refusal

HELP = "writes the waves and values of replies as a VCD file, with any number of signals, vectors and scopes"
EXAMPLE = "  backsim-tools to-vcd replies --timescale '10 ps' -o replies.vcd"


def add_arguments(parser: argparse.ArgumentParser) -> None:
    parser.add_argument("replies", type=Path, metavar="REPLIES", help="replies to wave, at and stuck lines; others are passed over")
    parser.add_argument("--timescale", default="1 ns", metavar="TIME",
                        help="what a unit of time is: 1, 10 or 100 of s, ms, us, ns, ps or fs")
    parser.add_argument("--top", default="top", metavar="NAME", help="the name of the outermost scope, top where it is left out")
    parser.add_argument("--flat", action="store_true", help="a wire for each signal, in one scope; else bits become vectors, and "
                        "part.count stands in the scope part")
    add_output(parser, "the VCD file")


def run(arguments: argparse.Namespace) -> int:
    check_places(arguments.output, read=(arguments.replies,))
    if TIMESCALE.fullmatch(arguments.timescale) is None:
        raise WordsError(f"the time scale {arguments.timescale} is none of 1, 10 or 100 of s, ms, us, ns, ps or fs")
    if not arguments.top or any(letter <= " " or letter > "~" for letter in arguments.top):
        raise WordsError("the name of a scope has no blank")
    answers = []
    for reply in read_replies_of(arguments.replies):
        if isinstance(reply.answer, Refusal):
            raise FormatError(arguments.replies, reply.line, "the session was refused, so there is no wave")
        answers.append(reply.answer)
    runs = runs_of(answers, arguments.top)
    if not runs:
        raise FormatError(arguments.replies, None, "there is no wave and no value in the file")
    last = max(stop for own in runs.values() for _, stop, _ in own) if any(runs.values()) else 0
    with whole_text(arguments.output) as stream:
        write_vcd(stream, dumped_of(runs, arguments.flat), arguments.timescale, last)
    return 0
