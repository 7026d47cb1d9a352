"""Rewrites a `.bench` file of another dialect into the nine kinds."""
from __future__ import annotations

import argparse
from pathlib import Path

from ..convert.dialect import MuxOrder, read_dialect
from ..convert.output import add_output, say, whole_text
from ..formats.netlist import write_netlist

HELP = "rewrites a netlist in another dialect of .bench (vdd, CONST0, ONE, INV, MUX, MAJ, LUT, SDFF, DFFRSE, a byte order mark) into the nine kinds"
EXAMPLE = "  backsim-tools normalise luts.bench -o luts9.bench"


def add_arguments(parser: argparse.ArgumentParser) -> None:
    parser.add_argument("netlist", type=Path, metavar="NETLIST", help="the .bench file to rewrite")
    parser.add_argument("--mux", choices=[order.value for order in MuxOrder], metavar="ORDER",
                        help="the order of the pins of a MUX: select,zero,one (as taken where it is left out), select,one,zero (as ABC "
                             "has it), zero,one,select or one,zero,select")
    add_output(parser, "the netlist")


def run(arguments: argparse.Namespace) -> int:
    made = read_dialect(arguments.netlist, MuxOrder(arguments.mux) if arguments.mux else None)
    with whole_text(arguments.output) as stream:
        write_netlist(made.netlist, stream)
    for note in made.notes:
        say(note)
    return 0
