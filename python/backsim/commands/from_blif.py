"""Writes the timing file of a netlist from a BLIF file and a dump."""
from __future__ import annotations

import argparse
from pathlib import Path

from ..command_line.outputs import check_places
from ..convert.blif import read_latches
from ..convert.clocks import Edge, timing_of
from ..convert.dump import clock_of, read_dump
from ..convert.dump_options import add_unit, span_of
from ..convert.output import add_output, whole_text
from ..errors import FormatError
from ..formats.netlist import read_netlist
from ..formats.timing import write_timing

HELP = "writes the timing file of a netlist whose flip-flops stand in a BLIF file, with the clocks of a VCD file"
EXAMPLE = "  backsim-tools from-blif chip.bench chip.blif chip.vcd chip_test.dut -o chip.timing"


def add_arguments(parser: argparse.ArgumentParser) -> None:
    parser.add_argument("netlist", type=Path, metavar="NETLIST")
    parser.add_argument("blif", type=Path, metavar="BLIF", help="a line `.latch PIN NAME re CLOCK FIRST` for each flip-flop")
    parser.add_argument("vcd", type=Path, metavar="VCD", help="a dump in which the clocks are")
    parser.add_argument("scope", metavar="SCOPE", help="the instance of the design in the test bench, as chip_test.dut")
    add_unit(parser)
    add_output(parser, "the timing file")


def run(arguments: argparse.Namespace) -> int:
    check_places(arguments.output, read=(arguments.netlist, arguments.blif, arguments.vcd))
    netlist = read_netlist(arguments.netlist)
    latches = read_latches(arguments.blif)
    clocks = {latch.clock for latch in latches.values()}
    dump = read_dump(arguments.vcd, arguments.scope, span_of(arguments), clocks)
    flops = [gate.name for gate in netlist.flops()]
    lost = [flop for flop in flops if flop not in latches]
    if lost:
        raise FormatError(arguments.blif, None, f"it has no .latch for the flip-flops {', '.join(lost[:10])}" + " ..." * (len(lost) > 10))
    edges = {flop: Edge(latches[flop].clock, latches[flop].is_falling) for flop in flops}
    made = timing_of(edges, {flop: latches[flop].initial for flop in flops}, lambda edge: clock_of(dump, edge.signal, edge.is_falling, False))
    made.unit = dump.unit
    with whole_text(arguments.output) as stream:
        write_timing(made, stream)
    return 0
