"""Writes a netlist and its timing file from Yosys's JSON."""
from __future__ import annotations

import argparse
from pathlib import Path

from ..command_line.arguments import in_units
from ..command_line.outputs import check_places
from ..convert.cells import Asynchronous
from ..convert.clocks import Edge, chain_of, root_of, timing_of
from ..convert.design import Design, design_of
from ..convert.dump import Dump, clock_of, read_dump
from ..convert.dump_options import add_unit, span_of
from ..convert.output import say, whole_text
from ..convert.resets import is_initial, lost_reset
from ..convert.yosys import read_module
from ..errors import FormatError, WordsError
from ..formats.netlist import with_sources, write_netlist
from ..formats.text import number_of
from ..formats.timing import Clock, Timing, write_timing
from ..formats.units import is_time
from ..limits import MOST_TIME

HELP = "writes a netlist and its timing file from what Yosys's write_json makes of a Verilog design, with the names of its nets"
EXAMPLE = """  yosys -q -p "read_verilog chip.v; synth -flatten -noabc -top chip; write_json chip.json"
  backsim-tools from-json chip.json chip.bench chip.timing --vcd chip.vcd --scope chip_test.dut
  backsim-tools from-json chip.json chip.bench chip.timing --clock clk=100,200 --async-reset edge"""


def add_arguments(parser: argparse.ArgumentParser) -> None:
    parser.add_argument("json", type=Path, metavar="JSON")
    parser.add_argument("netlist", type=Path, metavar="NETLIST", help="the netlist that is written")
    parser.add_argument("timing", type=Path, metavar="TIMING", help="the timing file that is written")
    parser.add_argument("--top", metavar="MODULE", help="the module; the top module where it is left out")
    parser.add_argument("--clock", action="append", default=[], metavar="NAME=FIRST,PERIOD", help="the edges of a clock, in units, or such "
                        "as 15ns with a dump or --unit; NAME is that of its signal, with _falls behind it where falls count")
    parser.add_argument("--vcd", type=Path, metavar="VCD", help="a dump from which the edges of the other clocks are taken")
    parser.add_argument("--scope", metavar="SCOPE", help="the instance of the design in the dump, as chip_test.dut")
    add_unit(parser)
    parser.add_argument("--async-reset", choices=[how.value for how in Asynchronous], help="what becomes of asynchronous resets: edge, "
                        "they act at the next edge, and the register stays a flip-flop; gates, they act at once by gates that have the "
                        "register's name. Where it is left out they are refused")
    parser.add_argument("--no-aliases", action="store_true", help="one name for each net; else each further name is a BUFF of it")


def run(arguments: argparse.Namespace) -> int:
    if (arguments.vcd is None) != (arguments.scope is None):
        raise WordsError("--vcd and --scope go together")
    check_places(arguments.netlist, arguments.timing, read=(arguments.json, arguments.vcd))
    words = list(map(_clock_words, arguments.clock))
    module = read_module(arguments.json, arguments.top)
    how = Asynchronous(arguments.async_reset) if arguments.async_reset else None
    design = design_of(module, how, not arguments.no_aliases)
    dump = read_dump(arguments.vcd, arguments.scope, span_of(arguments), _names_for(design)) if arguments.vcd else None
    unit = dump.unit if dump else arguments.unit
    given = {name: Clock(in_units(first, unit, f"--clock {name}", 0, MOST_TIME), in_units(period, unit, f"--clock {name}", 1, MOST_TIME))
             for name, first, period in words}
    _take_roots(design, given, dump)
    strange = given.keys() - {edge.name for edge in design.edges.values()}
    if strange:
        known = ", ".join(sorted({edge.name for edge in design.edges.values()})) or "none"
        raise WordsError(f"no flip-flop has the clock {strange.pop()}; the clocks are: {known}")
    timing = timing_of(design.edges, design.initials, lambda edge: _times_of(edge, given, dump, arguments.json))
    timing.unit = unit
    _take_resets(design, timing, dump, arguments.json)
    with whole_text(arguments.netlist) as stream:
        write_netlist(with_sources(design.netlist, design.sources), stream)
    with whole_text(arguments.timing) as stream:
        write_timing(timing, stream)
    for note in design.notes:
        say(note)
    return 0


def _names_for(design: Design) -> set[str]:
    """The signals whose waves tell the times of clocks and resets."""
    signals = {own.signal for edge in set(design.edges.values()) for own in chain_of(edge, design.netlist)}
    return signals | {control.port for control, _ in design.resets}


def _take_roots(design: Design, given: dict[str, Clock], dump: Dump | None) -> None:
    """Gives each flip-flop the clock from which buffers make its own, where the times of that are known."""
    dumped = dump.bits(_names_for(design)) if dump else {}
    roots = {edge: root_of(edge, design.netlist, lambda own: own.name in given or own.signal in dumped) for edge in set(design.edges.values())}
    design.edges = {flop: roots[edge] for flop, edge in design.edges.items()}
    design.resets = [(control, roots[edge]) for control, edge in design.resets]


def _clock_words(word: str) -> tuple[str, str, str]:
    """The name of a clock, its first edge and its period."""
    name, _, times = word.rpartition("=")
    first, _, period = times.partition(",")
    numbers = [number_of(time) for time in (first, period)]
    if not name or not all(is_time(time) or number is not None and number <= MOST_TIME for time, number in zip((first, period), numbers)) or numbers[1] == 0:
        raise WordsError(f"`{word}` is no NAME=FIRST,PERIOD with times up to {MOST_TIME}")
    return name, first, period


def _times_of(edge: Edge, given: dict[str, Clock], dump: Dump | None, path: Path) -> Clock:
    if edge.name in given:
        return given[edge.name]
    if dump is None:
        raise FormatError(path, None, f"the times of the clock {edge.name} are not known: give --clock {edge.name}=FIRST,PERIOD, or a dump "
                          "by --vcd and --scope")
    return clock_of(dump, edge.signal, edge.is_falling)


def _take_resets(design: Design, timing: Timing, dump: Dump | None, path: Path) -> None:
    """Gives a flip-flop the value of a reset that is over before its first edge. Refuses any other reset of which the dump shows that no
    edge is in it; says where that is not known."""
    unknown: dict[str, None] = {}
    for control, edge in design.resets:
        clock, after = timing.clocks[edge.name], 0
        if dump and control.is_alone and is_initial(dump, control.port, control.active, clock):
            timing.initials[control.flop], after = control.value, clock.first
        lost = lost_reset(dump, control.port, control.active, clock, after) if dump else None
        if lost is None:
            unknown[control.port] = None
        elif lost:
            raise FormatError(path, None, f"the register {control.register} can't be had: its asynchronous reset {control.port} is active from "
                              f"{lost[0]} to {lost[1]} with no edge of {edge.name} in between, so a flip-flop would forget it")
    if unknown:
        say(f"not looked at, since no dump has them: whether each time that {', '.join(unknown)} is active has a clock's edge in it")
