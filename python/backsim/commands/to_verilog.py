"""Writes a circuit, its stimulus and its questions as Verilog."""
from __future__ import annotations

import argparse
from pathlib import Path

from ..command_line.outputs import check_places
from ..convert.output import add_output, whole_text
from ..convert.verilog import Source, questions_of, with_dump, with_questions
from ..errors import WordsError
from ..formats.circuit import read_files
from ..formats.script import read_script

HELP = "writes a circuit with its stimulus as one Verilog file, which answers a script or dumps all signals, for another simulator"
EXAMPLE = """  backsim-tools to-verilog s27.bench s27.timing s27.stim s27.script -o s27.v
  iverilog -g2005 -s circuit -o s27.vvp s27.v
  vvp -n s27.vvp | sort -snk1,1 | cut -d' ' -f2- > replies

Each line of a reply has the number of its question's line before it; the last command puts the replies in the order of the script.
With `vvp -n s27.vvp +line=1` the question of line 1 alone is answered, and the run ends after it."""


def add_arguments(parser: argparse.ArgumentParser) -> None:
    parser.add_argument("netlist", type=Path, metavar="NETLIST")
    parser.add_argument("timing", type=Path, metavar="TIMING")
    parser.add_argument("stimulus", type=Path, metavar="STIMULUS")
    parser.add_argument("script", type=Path, nargs="?", metavar="SCRIPT", help="the questions: wave, at, first and go lines")
    parser.add_argument("--dump", metavar="VCD", help="in place of a script: dump all signals up to the horizon into this file, in the "
                        "scope `circuit`, 10 ticks to a unit")
    parser.add_argument("--primitives", action="store_true", help="gates are Verilog's own, which are faster, and whose delays are "
                        "inertial: they swallow pulses that are shorter than the delay")
    add_output(parser, "the Verilog text")


def run(arguments: argparse.Namespace) -> int:
    if (arguments.script is None) == (arguments.dump is None):
        raise WordsError("either a SCRIPT or --dump VCD is wanted")
    check_places(arguments.output, read=(arguments.netlist, arguments.timing, arguments.stimulus, arguments.script))
    circuit = Source(*read_files(arguments.netlist, arguments.timing, arguments.stimulus), arguments.primitives)
    if arguments.dump is not None:
        lines = with_dump(circuit, arguments.dump)
    else:
        lines = with_questions(circuit, questions_of(read_script(arguments.script), circuit, arguments.script))
    with whole_text(arguments.output) as stream:
        stream.writelines(f"{line}\n" for line in lines)
    return 0
