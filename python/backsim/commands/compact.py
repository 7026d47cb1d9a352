"""`backsim-tools compact`: fewer patterns that show the same faults."""
from __future__ import annotations

import argparse

from ..command_line.bars import Bar
from ..command_line.outputs import check_places
from ..convert.output import add_output, say, whole_text
from ..convert.tables import ones_of
from ..errors import UsageError, WordsError
from ..faults.compacting import by_look, cover, together
from ..faults.finding import CombinationalFinder
from ..faults.request import add_tested, finder_for, read_looks, stuck_classes_of
from ..faults.stopping import stoppable

HELP = "chooses of patterns as few as show the same stuck-at faults, of a circuit without flip-flops"
EXAMPLE = """  backsim-tools compact chip.bench chip.timing patterns.txt --period 100 --output fewer.txt

What the patterns show is simulated. `backsim-tools faults` with those that are left has it confirmed by the program."""


def add_arguments(parser: argparse.ArgumentParser) -> None:
    add_tested(parser)
    add_output(parser, "the patterns that are left")


@stoppable()
def run(arguments: argparse.Namespace) -> int:
    looks = read_looks(arguments)
    circuit, patterns = looks.circuit, looks.patterns
    if circuit.netlist.flops():
        raise UsageError(f"{arguments.netlist}: the circuit has flip-flops, so that what a pattern shows depends on those before it")
    if patterns is None or arguments.times:
        raise WordsError("patterns and the usual looks are wanted: no stimulus file, and no --times")
    classes = stuck_classes_of(arguments, looks.lines)
    check_places(arguments.output, read=(arguments.netlist, arguments.timing))
    finder = finder_for(arguments, looks, classes, 0)
    assert isinstance(finder, CombinationalFinder)
    with Bar(finder.total, "simulated", has_lines=True) as bar:
        shown = by_look(finder.shown(bar.add), len(looks.times))
    kept = cover(shown)
    words = [patterns.words[look] for look in kept]
    with whole_text(arguments.output) as stream:
        stream.writelines(f"{word}\n" for word in words)
    verbs = ("is", "shows") if len(kept) == 1 else ("are", "show")
    say(f"{len(kept)} of {len(patterns.words)} patterns {verbs[0]} left, and {verbs[1]} the same {ones_of(together(shown))} of {len(classes)} faults")
    return 0
