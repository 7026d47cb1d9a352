"""Writes a timing file with the delays of an SDF file."""
from __future__ import annotations

import argparse
from pathlib import Path

from ..command_line.arguments import unit_word
from ..command_line.outputs import check_places
from ..convert.annotate import annotate
from ..convert.annotate_cells import annotate_cells
from ..convert.cells import Asynchronous
from ..convert.design import design_of
from ..convert.output import add_output, say, whole_text
from ..convert.sdf import read_sdf
from ..convert.sdf_entries import Corner
from ..convert.yosys import read_module
from ..errors import FormatError
from ..formats.netlist import read_netlist
from ..formats.timing import Timing, read_timing, write_timing
from ..formats.units import check_units

HELP = "writes a timing file with the delays of an SDF file: those of its cells (IOPATH, DEVICE) and of its wires (INTERCONNECT, PORT)"
EXAMPLE = """  backsim-tools from-sdf chip.bench chip.sdf --json chip.json --timing chip.timing --unit '10 ps' -o annotated.timing

Standard error says how many of its lines are used, and what is left out."""


def add_arguments(parser: argparse.ArgumentParser) -> None:
    parser.add_argument("netlist", type=Path, metavar="NETLIST")
    parser.add_argument("sdf", type=Path, metavar="SDF", help="an instance of it is the cell of its name in JSON, with dots between the parts, or without "
                        "JSON the gate of its name")
    parser.add_argument("--timing", type=Path, metavar="TIMING", help="a timing file with what SDF does not have: clocks, initial values, "
                        "and the delays of other gates")
    parser.add_argument("--unit", type=unit_word, metavar="TIME", help="how long a unit is, as 10ps; where it is left out, what TIMING "
                        "states, or else the time scale of the SDF file. Delays are rounded up")
    parser.add_argument("--corner", choices=[corner.value for corner in Corner], default=Corner.MAX.value, help="which number of min:typ:max "
                        "counts, max where it is left out; of rise and fall, and of several conditions, the greatest, and with min the least")
    parser.add_argument("--json", type=Path, metavar="JSON", help="Yosys's JSON from which the netlist was made: instances are its cells")
    parser.add_argument("--top", metavar="MODULE", help="the module of the JSON; the top module where it is left out")
    parser.add_argument("--async-reset", choices=[how.value for how in Asynchronous], help="as it was given to from-json")
    add_output(parser, "the timing file")


def run(arguments: argparse.Namespace) -> int:
    check_places(arguments.output, read=(arguments.netlist, arguments.sdf, arguments.json))
    netlist = read_netlist(arguments.netlist)
    base = read_timing(arguments.timing, netlist) if arguments.timing else Timing(default=1)
    delays = read_sdf(arguments.sdf, Corner(arguments.corner))
    unit = arguments.unit or base.unit or delays.unit
    check_units(base.unit, unit, arguments.sdf)
    if arguments.json:
        how = Asynchronous(arguments.async_reset) if arguments.async_reset else None
        design = design_of(read_module(arguments.json, arguments.top), how)
        made = annotate_cells(design, netlist, base, delays, unit.seconds, str(arguments.sdf))
    else:
        made = annotate(netlist, base, delays, unit.seconds, str(arguments.sdf))
    made.timing.unit = unit
    if not made.count:
        notes = "".join(f"; {note}" for note in made.notes[:3])
        hint = "" if arguments.json else "; where the netlist was made by from-json, --json says which gates are in an instance"
        raise FormatError(arguments.sdf, None, f"no IOPATH of it is one of a gate of the netlist{hint}{notes}")
    with whole_text(arguments.output) as stream:
        write_timing(made.timing, stream)
    for note in made.notes:
        say(note)
    return 0
