"""Writes the stimulus of a netlist from a dump, or what the dump answers to a script."""
from __future__ import annotations

import argparse
from pathlib import Path

from ..command_line.outputs import check_places
from ..convert.dump import read_dump, replies_of, stimulus_of, warning_of
from ..convert.dump_options import add_unit, add_window, span_of
from ..convert.output import add_output, say, whole_text
from ..convert.window import begin_of, longest_path, names_for, window_of
from ..errors import WordsError
from ..formats.netlist import read_netlist
from ..formats.script import AtLine, FirstLine, WaveLine, read_script
from ..formats.stimulus import write_stimulus
from ..formats.timing import read_timing, write_timing
from ..formats.units import check_units

HELP = "writes the stimulus of a netlist from the dump (VCD or FST) of a test bench; or what the dump answers to a script"
EXAMPLE = """  backsim-tools from-vcd chip.bench chip.vcd chip_test.dut -o chip.stim
  backsim-tools from-vcd chip.bench chip.fst chip_test.dut --unit 10ps --from 3ms --to 3.01ms --timing chip.timing --window window.timing \\
      -o window.stim
  backsim-tools from-vcd --script chip.script chip.bench chip.vcd chip_test.dut -o expected.replies"""


def add_arguments(parser: argparse.ArgumentParser) -> None:
    parser.add_argument("netlist", type=Path, metavar="NETLIST")
    parser.add_argument("vcd", type=Path, metavar="DUMP", help="a VCD file, or an FST file, which fst2vcd reads")
    parser.add_argument("scope", metavar="SCOPE", help="the instance of the design in the test bench, as chip_test.dut")
    add_unit(parser)
    add_window(parser)
    parser.add_argument("--timing", type=Path, metavar="TIMING", help="the timing file of the whole, whose clocks and initial values a window shifts")
    parser.add_argument("--window", type=Path, metavar="FILE", help="where the timing file of the window goes: its clocks count from the "
                        "window's beginning, and its flip-flops begin with the values of the dump")
    parser.add_argument("--script", type=Path, metavar="SCRIPT", help="writes, in place of a stimulus, the replies to the wave, at and "
                        "first lines of this script, in the form of the program's, for comparison")
    add_output(parser, "the stimulus, or the replies")


def run(arguments: argparse.Namespace) -> int:
    netlist = read_netlist(arguments.netlist)
    lines = read_script(arguments.script) if arguments.script else None
    names = {*netlist.inputs} if lines is None else {line.name for line in lines if isinstance(line, (WaveLine, AtLine, FirstLine))}
    if (arguments.timing is None) != (arguments.window is None):
        raise WordsError("--timing and --window go together")
    if arguments.window and lines is not None:
        raise WordsError("say --window or --script, and not both")
    if arguments.start != "0" and lines is None and netlist.flops() and not arguments.window:
        raise WordsError("the netlist has flip-flops, whose clocks and initial values a window shifts: say --timing "
                         "and --window too")
    check_places(arguments.window, arguments.output, read=(arguments.netlist, arguments.vcd, arguments.timing, arguments.script))
    timing = read_timing(arguments.timing, netlist) if arguments.timing else None
    span = span_of(arguments, timing.unit if timing else None)
    dump = read_dump(arguments.vcd, arguments.scope, span, names | (names_for(netlist) if timing else set()))
    if lines is not None:
        with whole_text(arguments.output) as stream:
            stream.writelines(f"{line}\n" for line in replies_of(lines, arguments.script, dump))
        return 0
    stimulus = stimulus_of(netlist, dump)
    notes = warning_of(dump)
    if timing:
        check_units(timing.unit, dump.unit, arguments.vcd)
        begin = begin_of(timing, dump.start, longest_path(netlist, timing, arguments.netlist))
        window = window_of(netlist, timing, dump, begin)
        notes += window.notes
        with whole_text(arguments.window) as stream:
            write_timing(window.timing, stream)
    with whole_text(arguments.output) as stream:
        write_stimulus(stimulus, stream)
    for note in notes:
        say(note)
    return 0
