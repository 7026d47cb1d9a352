"""What the commands on faults have in common in their words: the circuit, the patterns, the times at which a tester looks, the faults."""
from __future__ import annotations

import argparse
import os
import tempfile
from collections.abc import Iterator, Sequence
from contextlib import contextmanager
from pathlib import Path

from ..command_line.arguments import count_of, in_units, moment_of
from ..convert.output import say
from ..convert.patterns import Patterns, read_patterns, stimulus_of
from ..errors import FormatError, UsageError, WordsError, type_of_path
from ..formats.circuit import Circuit
from ..formats.netlist import read_netlist
from ..formats.stimulus import read_stimulus
from ..formats.text import read_bytes, rows_of
from ..formats.timing import Timing, read_timing
from ..formats.units import Unit, is_time
from ..limits import MOST_TIME
from ..records import dataclass
from .branches import Made
from .circuit_files import write_circuit
from .collapse import FaultClass, collapse, single
from .finding import Finder, finder_of
from .lists import read_faults
from .looks import warnings
from .model import TRANSITIONS, VALUES, Lines

_MOST_JOBS = 1024


def add_circuit(parser: argparse.ArgumentParser) -> None:
    """Adds the arguments NETLIST and TIMING."""
    parser.add_argument("netlist", type=Path, metavar="NETLIST")
    parser.add_argument("timing", type=Path, metavar="TIMING")


def add_looks(parser: argparse.ArgumentParser) -> None:
    """Adds the argument PATTERNS and the options that say when they are applied and when the tester looks."""
    parser.add_argument("patterns", type=Path, metavar="PATTERNS", help="patterns, or a stimulus file, whose first line is `horizon`")
    parser.add_argument("--times", nargs="+", default=[], metavar="TIME", help="when the tester looks: times, or FROM:TO:STEP "
                        "with TO itself; with patterns and without times, one unit before the next pattern")
    add_period(parser)


def add_period(parser: argparse.ArgumentParser) -> None:
    """Adds the options that say when patterns are applied."""
    parser.add_argument("--period", type=moment_of(1, MOST_TIME), metavar="P", help="the time from one pattern to the next, in units, or "
                        "such as 15ns where TIMING states the unit")
    parser.add_argument("--first", type=moment_of(0, MOST_TIME), default=0, metavar="T",
                        help="the time of the first pattern, 0 where it is left out")


def take_period(arguments: argparse.Namespace, timing: Timing) -> None:
    """Has what the options of `add_period` say in units."""
    if arguments.period is not None:
        arguments.period = in_units(arguments.period, timing.unit, "--period", 1, MOST_TIME)
    arguments.first = in_units(arguments.first, timing.unit, "--first", 0, MOST_TIME)


def add_faults(parser: argparse.ArgumentParser) -> None:
    """Adds the options that say which faults are in question."""
    parser.add_argument("--list", type=Path, metavar="FILE", help="the faults in question, a line `NAME /0` or `FROM->TO /1` for each; "
                        "all where it is left out")
    parser.add_argument("--stems", action="store_true", help="no faults of branches")
    parser.add_argument("--uncollapsed", action="store_true", help="asks for each fault, also where the gates' tables say that two are one")


def add_jobs(parser: argparse.ArgumentParser) -> None:
    """Adds the option --jobs."""
    parser.add_argument("--jobs", type=count_of(1, _MOST_JOBS), metavar="N", help="processes beside one another; as many as there "
                        "are processors where it is left out")


def jobs_of(arguments: argparse.Namespace) -> int:
    """How many processes there are to be beside one another."""
    return arguments.jobs or len(os.sched_getaffinity(0))


def add_tested(parser: argparse.ArgumentParser) -> None:
    """Adds what commands over a circuit, patterns and faults have in common: NETLIST, TIMING, PATTERNS, and the options on looks, faults and
    jobs."""
    add_circuit(parser)
    add_looks(parser)
    add_faults(parser)
    add_jobs(parser)


@dataclass(frozen=True, slots=True)
class Looks:
    """A circuit with its stimulus, its lines, the times at which a tester looks, ascending, and the patterns where the stimulus is made of
    some."""

    circuit: Circuit
    lines: Lines
    times: tuple[int, ...]
    patterns: Patterns | None


def read_looks(arguments: argparse.Namespace) -> Looks:
    """What the words say. FormatError where a file is bad, and WordsError where the times are."""
    netlist = read_netlist(arguments.netlist)
    timing = read_timing(arguments.timing, netlist)
    take_period(arguments, timing)
    row = next(rows_of(read_bytes(arguments.patterns)), None)
    if row is not None and row.words[0] == "horizon":
        circuit = Circuit(netlist, timing, read_stimulus(arguments.patterns, netlist))
        return Looks(circuit, Lines(netlist), _times_of(arguments, circuit, []), None)
    patterns = read_patterns(arguments.patterns, netlist)
    if arguments.period is None:
        raise WordsError("patterns want --period P, the time from one to the next")
    circuit = Circuit(netlist, timing, stimulus_of(patterns, netlist, arguments.period, arguments.first))
    return Looks(circuit, Lines(netlist), _times_of(arguments, circuit, usual_times(len(patterns.words), arguments.period, arguments.first)), patterns)


@contextmanager
def asked_files(arguments: argparse.Namespace, looks: Looks, made: Made) -> Iterator[Sequence[type_of_path]]:
    """The three files of the circuit that is asked: the user's own, where they are as they are asked."""
    with tempfile.TemporaryDirectory(prefix="backsim-") as folder:
        if made.scale != 1 or looks.patterns is not None:
            yield write_circuit(made, Path(folder))
        else:
            yield arguments.netlist, arguments.timing, arguments.patterns


def finder_for(arguments: argparse.Namespace, looks: Looks, classes: Sequence[FaultClass], drop: int, warns: bool = True) -> Finder:
    """What simulates these classes; with `warns` it is said why the program's answers may be others. FormatError where gates make a
    cycle."""
    try:
        for warning in warnings(looks.circuit, looks.times) if warns else ():
            say(warning)
        return finder_of(looks.circuit, classes, looks.times, drop, jobs_of(arguments))
    except ValueError as cycle:
        line = looks.circuit.netlist.gates[str(cycle)].line
        raise FormatError(arguments.netlist, line, f"the gates of {cycle} make a cycle, so nothing can be simulated") from None


def usual_times(count: int, period: int, first: int) -> list[int]:
    """When a tester looks who is told no times: one unit before the next pattern."""
    return [first + (number + 1) * period - 1 for number in range(count)]


def _times_of(arguments: argparse.Namespace, circuit: Circuit, usual: Sequence[int]) -> tuple[int, ...]:
    times = {time for word in arguments.times for time in _times_in(word, circuit.timing.unit, circuit.stimulus.horizon)}
    if not times and not usual:
        raise WordsError("with a stimulus --times are wanted, when the tester looks, as 9 19 29 or 9:99:10")
    return tuple(sorted(times or usual))


def _times_in(word: str, unit: Unit | None, horizon: int) -> range:
    parts = word.split(":")
    if len(parts) not in (1, 3) or not all(is_time(part) or part.isascii() and part.isdigit() and len(part) < 8 for part in parts):
        raise WordsError(f"`{word}` is neither a time nor FROM:TO:STEP")
    times = [in_units(part, unit, "--times", 0, MOST_TIME) for part in parts]
    first, last, step = times if len(times) == 3 else (times[0], times[0], 1)
    if step == 0 or last < first:
        raise WordsError(f"`{word}` has no time")
    found = range(first, last + 1, step)
    if found[-1] > horizon:
        raise WordsError(f"--times {word}: the time {found[-1]} is after the horizon, {horizon}")
    return found


def classes_of(arguments: argparse.Namespace, lines: Lines, is_transition: bool = False) -> list[FaultClass]:
    """The faults in question. Those of lines that are slow are not collapsed: the tables of gates make no two of them one, since the
    values of the pattern before count too. WordsError where a list is given and an option that says which faults there are. UsageError where
    slow lines are asked for in a circuit with flip-flops, which would show what a slow line makes of them only by later patterns."""
    for name, given in (("stems", arguments.stems), ("transition", is_transition)):
        if arguments.list and given:
            raise WordsError(f"--list and --{name} do not go together: the list says which faults are asked for")
    faults = read_faults(arguments.list, lines) if arguments.list else lines.faults(not arguments.stems, TRANSITIONS if is_transition else VALUES)
    slow = [fault for fault in faults if fault.is_transition]
    if slow and lines.netlist.flops():
        raise UsageError(f"{arguments.netlist}: transition faults are for circuits without flip-flops, since a `stuck` line holds its value "
                         "at all times")
    return single(faults) if arguments.uncollapsed or slow else collapse(lines, faults)


def stuck_classes_of(arguments: argparse.Namespace, lines: Lines) -> list[FaultClass]:
    """The stuck-at faults in question. UsageError where the list has transition faults."""
    classes = classes_of(arguments, lines)
    if any(own.asked.is_transition for own in classes):
        raise UsageError(f"{arguments.list}: the list has transition faults, and stuck-at faults are wanted")
    return classes
