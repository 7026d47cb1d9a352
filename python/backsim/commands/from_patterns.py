"""Writes the stimulus that applies patterns."""
from __future__ import annotations

import argparse
from pathlib import Path

from ..command_line.arguments import in_units, moment_of, unit_word
from ..command_line.outputs import check_places
from ..convert.output import add_output, whole_text
from ..convert.patterns import read_patterns, stimulus_of
from ..formats.netlist import read_netlist
from ..formats.stimulus import write_stimulus
from ..limits import MOST_TIME

HELP = "writes the stimulus that applies patterns, a line of 0, 1 and x for each, the inputs of the netlist in order"
EXAMPLE = "  backsim-tools from-patterns c17.bench patterns.txt --period 10 -o patterns.stim"


def add_arguments(parser: argparse.ArgumentParser) -> None:
    parser.add_argument("netlist", type=Path, metavar="NETLIST")
    parser.add_argument("patterns", type=Path, metavar="PATTERNS")
    parser.add_argument("--period", type=moment_of(1, MOST_TIME), required=True, metavar="P", help="the time from one pattern to the next, in units, "
                        "or with --unit such as 15ns")
    parser.add_argument("--first", type=moment_of(0, MOST_TIME), default=0, metavar="T",
                        help="the time of the first pattern, 0 where it is left out")
    parser.add_argument("--unit", type=unit_word, metavar="TIME", help="how long a unit is, as 10ps: the stimulus says so")
    add_output(parser, "the stimulus")


def run(arguments: argparse.Namespace) -> int:
    check_places(arguments.output, read=(arguments.netlist, arguments.patterns))
    netlist = read_netlist(arguments.netlist)
    period = in_units(arguments.period, arguments.unit, "--period", 1, MOST_TIME)
    first = in_units(arguments.first, arguments.unit, "--first", 0, MOST_TIME)
    made = stimulus_of(read_patterns(arguments.patterns, netlist), netlist, period, first)
    made.unit = arguments.unit
    with whole_text(arguments.output) as stream:
        write_stimulus(made, stream)
    return 0
