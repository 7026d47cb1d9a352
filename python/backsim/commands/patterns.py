"""`backsim-tools patterns`: random patterns that show faults."""
from __future__ import annotations

import argparse
import random

from ..command_line.arguments import count_of
from ..command_line.bars import Bar
from ..command_line.outputs import check_places
from ..command_line.partial import PARTIAL
from ..convert.build import constant_value
from ..convert.output import add_output, say, whole_text
from ..errors import FormatError, UsageError, WordsError
from ..faults.coverage import percent
from ..faults.generating import Search, room_for, search_combinational, search_sequential
from ..faults.model import Lines
from ..faults.request import add_circuit, add_faults, add_jobs, add_period, jobs_of, stuck_classes_of, take_period
from ..faults.stopping import stoppable
from ..formats.circuit import Circuit
from ..formats.netlist import read_netlist
from ..formats.stimulus import Stimulus
from ..formats.timing import read_timing
from ..limits import MOST_TIME
from ..main import INTERRUPTED

HELP = "makes random patterns and keeps those that show further stuck-at faults"
EXAMPLE = """  backsim-tools patterns chip.bench chip.timing --coverage 95 --output patterns.txt
  backsim-tools patterns cpu.bench cpu.timing --period 100 --first 20 --output patterns.txt

With flip-flops the patterns are a sequence, and say when they are applied. What they show is simulated; `backsim-tools faults` has it
confirmed by the program. Status 1: the coverage was not reached."""
_MOST_TRIED = 10_000_000


def add_arguments(parser: argparse.ArgumentParser) -> None:
    add_circuit(parser)
    add_period(parser)
    parser.add_argument("--coverage", type=count_of(1, 100), default=100, metavar="P", help="ends when P percent of the classes of faults are "
                        "shown, 100 where it is left out")
    parser.add_argument("--idle", type=count_of(1, _MOST_TRIED), default=4096, metavar="N", help="ends when N patterns in turn show nothing new, "
                        "4096 where it is left out")
    parser.add_argument("--most", type=count_of(1, _MOST_TRIED), default=100_000, metavar="N", help="tries at most so many patterns, 100000 where "
                        "it is left out")
    parser.add_argument("--seed", type=count_of(0, 10 ** 9), default=1, metavar="N", help="other patterns for another number")
    add_faults(parser)
    add_jobs(parser)
    add_output(parser, "the patterns")


@stoppable()
def run(arguments: argparse.Namespace) -> int:
    netlist = read_netlist(arguments.netlist)
    circuit = Circuit(netlist, read_timing(arguments.timing, netlist), Stimulus(0))
    take_period(arguments, circuit.timing)
    if not netlist.outputs:
        raise UsageError(f"{arguments.netlist}: the netlist has no OUTPUT, so nothing shows a fault")
    if netlist.flops() and arguments.period is None:
        raise UsageError(f"{arguments.netlist}: with flip-flops --period P is wanted, the time from one pattern to the next")
    if not netlist.flops() and (arguments.period is not None or arguments.first):
        raise UsageError(f"{arguments.netlist}: without flip-flops patterns have no times, so --period and --first would do nothing")
    if arguments.period is not None and not room_for(arguments.first, arguments.period):
        raise WordsError(f"no pattern of --period {arguments.period} from --first {arguments.first} on ends by {MOST_TIME}, the last time that there is")
    classes = stuck_classes_of(arguments, Lines(netlist))
    inputs = tuple(name for name in netlist.inputs if constant_value(name) is None)
    if not inputs:
        raise UsageError(f"{arguments.netlist}: the netlist has no INPUT to apply patterns to")
    check_places(arguments.output, read=(arguments.netlist, arguments.timing))
    search = Search(classes, inputs, random.Random(arguments.seed), -(-len(classes) * arguments.coverage // 100), arguments.idle, arguments.most)
    is_partial = False
    try:
        _search(arguments, circuit, search)
    except KeyboardInterrupt:
        is_partial = True
    with whole_text(arguments.output) as stream:
        if is_partial:
            stream.write(f"{PARTIAL}\n")
        stream.writelines(f"{word}\n" for word in search.kept)
    one = len(search.kept) == 1
    say(f"{len(search.kept)} {'pattern' if one else 'patterns'} of {search.tried} {'shows' if one else 'show'} {search.shown} of {len(classes)} faults, "
        f"{percent(search.shown, len(classes))}")
    if is_partial:
        return INTERRUPTED
    if search.goes_on():
        say(f"no further pattern ends by {MOST_TIME}, the last time that there is, so none was tried: take a shorter period")
    return 0 if search.shown >= search.wanted else 1


def _search(arguments: argparse.Namespace, circuit: Circuit, search: Search) -> None:
    # how many are shown says nothing of how long it takes
    with Bar(search.wanted, "shown", left=lambda: f"{search.tried} patterns tried", has_lines=True) as bar:
        before = 0

        def told() -> None:
            nonlocal before
            bar.add(search.shown - before)
            before = search.shown

        try:
            if circuit.netlist.flops():
                search_sequential(search, circuit, arguments.period, arguments.first, told)
            else:
                search_combinational(search, circuit, jobs_of(arguments), told)
        except ValueError as cycle:
            line = circuit.netlist.gates[str(cycle)].line
            raise FormatError(arguments.netlist, line, f"the gates of {cycle} make a cycle, so nothing can be simulated") from None
