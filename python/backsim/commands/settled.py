"""`backsim-tools settled`: whether the gates have settled before each clock edge."""
from __future__ import annotations

import argparse

from ..circuit.settling import settle
from ..command_line.arguments import add_files
from ..errors import FormatError
from ..formats.circuit import read_files

HELP = "says whether the gates have settled before each clock edge"
EXAMPLE = "  backsim-tools settled chip.bench chip.timing chip.stim"


def add_arguments(parser: argparse.ArgumentParser) -> None:
    parser.description = (
        "Says whether flip-flops take what they would if gates took no time. One line for each pair of a source, the inputs or a clock's "
        "flip-flops, and a clock: the longest path between them, and the shortest time from a change of the source to the next edge. The "
        "last line has the longest path to any signal: so long after the last change of an input and the last edge, a signal has its "
        "settled value. Status 1 where a path is longer than the time that it has, with the flip-flop to which it leads, or where an input "
        "that a flip-flop's gates look at changes at an edge itself, with the input and the first such time: TOO LATE. Clocks as clk+3, which from-sdf makes of clk, count as clk, "
        "and paths to their flip-flops are shorter by so much; where a flip-flop so takes at an edge what changes at that edge or after "
        "it: TOO EARLY, with status 1 too.")
    add_files(parser)


def run(arguments: argparse.Namespace) -> int:
    netlist, timing, stimulus = read_files(arguments.netlist, arguments.timing, arguments.stimulus)
    try:
        found = settle(netlist, timing, stimulus)
    except ValueError as cycle:
        name = str(cycle)
        raise FormatError(arguments.netlist, netlist.gates[name].line, f"the gates of {name} make a cycle") from None
    if not found.has_changes and netlist.flops():
        print("inputs: none that is read is set after time 0, so no time was compared with their paths")
    if found.unclocked:
        count = len(found.unclocked)
        print(f"no clock: {found.unclocked[0]}{f' and {count - 1} more flip-flops' * (count > 1)}, which keep what they begin with")
    for pair in found.pairs:
        late = f", TOO LATE at {pair.flop}" if pair.is_late else ""
        if pair.at_edge is not None:
            others = f" and {len(pair.movers) - 1} more" if len(pair.movers) > 1 else ""
            late = f", TOO LATE: {pair.movers[0]}{others} at the edge at {pair.at_edge}"
        early = f", TOO EARLY: the shortest path is {pair.shortest}" if pair.is_early else ""
        print(f"{pair.source} to {pair.clock}: path {pair.path}, time {pair.time}{late}{early}")
    print(f"longest path {found.longest}")
    return 1 if any(pair.is_late or pair.is_early for pair in found.pairs) else 0
