"""Compares a netlist with a dump of its test bench."""
from __future__ import annotations

import argparse
from pathlib import Path

from ..circuit.buses import matching, signals_of
from ..command_line.arguments import add_program
from ..command_line.outputs import check_places
from ..convert.comparison import Changes, Comparison, Mismatch, at_edges, compare, events_of, settled_times, without_further_names
from ..convert.dump import read_dump, stimulus_of, warning_of
from ..convert.dump_options import add_unit, add_window, span_of
from ..convert.output import say, whole_text
from ..convert.window import begin_of, longest_path, names_for, window_of
from ..errors import FormatError, UsageError
from ..formats.netlist import Netlist, read_netlist
from ..formats.stimulus import write_stimulus
from ..formats.timing import read_timing, write_timing
from ..formats.units import check_units
from ..session.session import Session

HELP = "the first mismatch of each net and bus of a netlist with a dump of its test bench, and the question that says why"
EXAMPLE = """  backsim-tools compare chip.bench chip.timing chip.vcd chip_test.dut --stimulus chip.stim
  backsim-tools compare chip.bench chip.timing chip.fst chip_test.dut --from 3ms --to 3.01ms --stimulus window.stim --window window.timing

Values are compared directly before the clocks' edges and the changes of inputs, where gates have settled by then. A line has the time,
the net or bus, both values, the place in the source, whether what it is made of differs too, and the question. Status 1 where any differs; what is x in the dump and has a
value here is told apart, and what is x here since a window does not know a flip-flop. A bus has the order of its bits in the dump."""
_SHOWN = 10


def add_arguments(parser: argparse.ArgumentParser) -> None:
    parser.add_argument("netlist", type=Path, metavar="NETLIST")
    parser.add_argument("timing", type=Path, metavar="TIMING")
    parser.add_argument("vcd", type=Path, metavar="DUMP", help="a VCD file, or an FST file, which fst2vcd reads")
    parser.add_argument("scope", metavar="SCOPE", help="the instance of the design in the test bench, as chip_test.dut")
    parser.add_argument("--only", nargs="+", default=[], metavar="NAME", help="compare these signals, buses and patterns alone, and not all "
                        "that are dumped")
    add_unit(parser)
    add_window(parser)
    parser.add_argument("--every-time", action="store_true", help="compare at every time: for a dump with the delays of the timing file. A "
                        "further name of a net, or of a constant, which a BUFF shows one unit later, is left out")
    parser.add_argument("--stimulus", type=Path, metavar="FILE", help="where the stimulus goes, for further questions")
    parser.add_argument("--window", type=Path, metavar="FILE", help="where the timing file of a window goes, for further questions")
    add_program(parser)


def run(arguments: argparse.Namespace) -> int:
    check_places(arguments.stimulus, arguments.window, read=(arguments.netlist, arguments.timing, arguments.vcd))
    netlist = read_netlist(arguments.netlist)
    timing = read_timing(arguments.timing, netlist)
    wanted = _wanted(arguments.only, netlist, arguments.netlist)
    dump = read_dump(arguments.vcd, arguments.scope, span_of(arguments, timing.unit), {*netlist.inputs, *wanted, *names_for(netlist)})
    check_units(timing.unit, dump.unit, arguments.vcd)
    stimulus = stimulus_of(netlist, dump)
    notes = warning_of(dump)
    longest = longest_path(netlist, timing, arguments.netlist)
    first = 0
    lost: list[str] = []
    if dump.start:
        begin = begin_of(timing, dump.start, longest)
        window = window_of(netlist, timing, dump, begin)
        timing, first, lost = window.timing, begin.time - dump.start, window.lost
        notes += window.notes
    races = [f"{name} at {time}, of {clock}" for name, (time, clock) in at_edges(netlist, timing, stimulus).items()]
    if races:
        notes.append(f"inputs change at edges of clocks, and Verilog leaves open which of the two comes first, so values may differ: {'; '.join(races[:_SHOWN])}"
                     + " ..." * (len(races) > _SHOWN))
    events = events_of(netlist, timing, stimulus)
    times = range(first, stimulus.horizon + 1) if arguments.every_time else settled_times(events, longest, first, stimulus.horizon)
    if arguments.stimulus:
        with whole_text(arguments.stimulus) as stream:
            write_stimulus(stimulus, stream)
    if arguments.window:
        with whole_text(arguments.window) as stream:
            write_timing(timing, stream)
    if not times:
        raise UsageError(f"{arguments.vcd}: never is the longest path's time, {longest}, between two events, so gates do not settle: a smaller unit "
                         "leaves more time to delays of 1; `backsim-tools settled` with the --stimulus FILE tells paths that are too long; with a dump that has "
                         "the delays of the timing file take --every-time")
    bits: dict[str, Changes] = {name: dump.in_units(changes) for name, changes in dump.bits({*netlist.inputs, *wanted}).items()}
    dumped_from = min((changes[0][0] for changes in bits.values() if changes), default=0)
    if arguments.every_time:
        bits = without_further_names(netlist, bits)
    bits = {name: bits[name] for name in wanted if name in bits}
    if not bits:
        raise FormatError(arguments.vcd, None, f"no signal of the netlist is dumped in the scope {arguments.scope}")
    with Session(arguments.netlist, timing, stimulus, program=arguments.program) as session:
        found = compare(session, bits, events, times, lost, dump.vcd.ascending(dump.scope))
    if found.differing and dumped_from and not dump.start and netlist.flops():
        notes.append(f"{arguments.vcd}: nothing is dumped before {dumped_from}, and flip-flops begin at 0 here: --from {dumped_from} takes their values "
                     "from the dump")
    for note in notes:
        say(note)
    _tell(found, netlist, dump.start, arguments)
    return 1 if found.differing else 0


def _wanted(names: list[str], netlist: Netlist, path: Path) -> list[str]:
    """The signals that are compared: gates and flip-flops."""
    if not names:
        return list(netlist.gates)
    known = set(netlist.names)
    found: dict[str, None] = {}
    for name in names:
        signals = signals_of(name, known) or matching(name, netlist.names)
        if not signals:
            raise UsageError(f"{path}: no signal, bus or pattern is {name}")
        found.update(dict.fromkeys(signals))
    return list(found)


def _tell(found: Comparison, netlist: Netlist, start: int, arguments: argparse.Namespace) -> None:
    for mismatch in found.differing:
        gate = netlist.gates.get(mismatch.bit)
        source = f"; {gate.source}" if gate and gate.source else ""
        begins = "; what it is made of does not differ" if mismatch.begins else ""
        there = f", {mismatch.time + start} in the dump" if start else ""
        print(f"{mismatch.time}{there}: {mismatch.name} is {mismatch.here} here, and {mismatch.there} in the dump{source}{begins}; why {mismatch.bit} {mismatch.time}")
    if found.unknown:
        print(f"x in the dump, and not here: {_listed(found.unknown)}")
    if found.unclear:
        print(f"x here, which may come of the flip-flops that are not dumped: {_listed(found.unclear)}")
    if found.dear:
        print(f"not wholly compared, since it took more than the greatest budget: {', '.join(found.dear[:_SHOWN])}{' ...' * (len(found.dear) > _SHOWN)}")
    print(f"{found.signals} signals compared at {found.times} times; nets and buses that differ: {len(found.differing)}")
    if found.differing and arguments.stimulus:
        first = found.differing[0]
        timing = arguments.window if start and arguments.window else arguments.timing
        say(f"the first: backsim-tools why {arguments.netlist} {timing} {arguments.stimulus} '{first.bit}' {first.time}")


def _listed(mismatches: list[Mismatch]) -> str:
    words = [f"{mismatch.name} from {mismatch.time} on" for mismatch in mismatches[:_SHOWN]]
    return ", ".join(words) + " ..." * (len(mismatches) > _SHOWN)
