"""Tells which patterns show which stuck-at and transition faults."""
from __future__ import annotations

import argparse
from collections.abc import Sequence
from pathlib import Path

from ..command_line.arguments import add_program, count_of
from ..command_line.bars import Bar
from ..command_line.outputs import check_places
from ..convert.output import say, whole_text
from ..errors import UsageError, WordsError, type_of_path
from ..faults import looks as looks_of
from ..faults.asking import solve_all
from ..faults.bundle import read_bundle, write_bundle
from ..faults.collapse import FaultClass
from ..faults.confirming import confirm
from ..faults.coverage import Coverage
from ..faults.dictionary import Dictionary
from ..faults.finding import Finder, finder_of
from ..faults.forecast import Forecast
from ..faults.lists import write_faults
from ..faults.model import weights
from ..faults.plan import Outcome, Plan
from ..faults.proving import Kept, prove_left
from ..faults.request import Looks, add_tested, asked_files, classes_of, jobs_of, read_looks
from ..faults.sequential import Detection
from ..faults.stopping import stoppable
from ..limits import MOST_BUDGET
from ..main import INTERRUPTED

HELP = "tells which patterns show which stuck-at faults, of stems and branches, and the coverage"
EXAMPLE = """  backsim-tools faults c17.bench c17.timing patterns.txt --period 10
  backsim-tools faults c17.bench c17.timing patterns.stim --times 9 19 29 39 --left missed.faults

patterns.txt has a line of 0, 1 and x for each pattern, the inputs in order. Faults are found by simulation, and each that is found is
confirmed by a stuck line of the program. Status 1: a question was answered by its budget, or a reply is missing. Status 130: SIGINT or
SIGTERM came; what was known is written, and marked as partial."""
_MOST_SAID = 20
_MOST_DROP = 1000
# ways that make no table, or one of replies alone, and the options that would do nothing beside each
_RESULTS = ("prove_left", "csv", "dictionary", "shown", "left")
_WITHOUT = {"write_list": ("write", "read", *_RESULTS), "write": ("read", *_RESULTS), "read": ("prove_left", "dictionary")}


def add_arguments(parser: argparse.ArgumentParser) -> None:
    add_tested(parser)
    parser.add_argument("--transition", action="store_true", help="faults of lines that are slow to rise or to fall, `NAME /str` and `NAME /stf`, "
                        "in place of stuck ones; of circuits without flip-flops")
    parser.add_argument("--drop", type=count_of(1, _MOST_DROP), metavar="N", help="follows a fault until N times have shown it, 1 where "
                        "it is left out, and counts the faults that N times show")
    parser.add_argument("--budget", type=count_of(0, MOST_BUDGET), default=MOST_BUDGET, metavar="N",
                        help=f"evaluations for a question, {MOST_BUDGET} where it is left out")
    add_program(parser)
    parser.add_argument("--prove-left", type=Path, metavar="FILE", help="asks the program also for the faults that simulation does not show; FILE "
                        "keeps what came of each, and where it is there already the work goes on behind it")
    parser.add_argument("--csv", type=Path, metavar="FILE", help="a row for each fault: its class, the first time "
                        "and an output that shows it, how many times do, and whether the program confirms it")
    parser.add_argument("--dictionary", type=Path, metavar="FILE", help="a row for each fault and each time that shows it, with the outputs; "
                        "each fault is followed through all times, or until --drop N have shown it")
    parser.add_argument("--shown", type=Path, metavar="FILE", help="writes the list of the faults that are shown")
    parser.add_argument("--left", type=Path, metavar="FILE", help="writes the list of the faults that are not shown")
    parser.add_argument("--write-list", type=Path, metavar="FILE", help="writes the list of the faults that are asked for, a class by one, "
                        "and asks nothing")
    parser.add_argument("--write", type=Path, metavar="FOLDER", help="makes the folder with the circuit and the scripts, for sessions "
                        "elsewhere, and asks nothing")
    parser.add_argument("--read", type=Path, metavar="FOLDER", help="takes the replies 1.replies, 2.replies and so on of such a folder "
                        "in place of asking")


@stoppable()
def run(arguments: argparse.Namespace) -> int:
    _check_options(arguments)
    looks = read_looks(arguments)
    classes = classes_of(arguments, looks.lines, arguments.transition)
    circuit = (arguments.netlist, arguments.timing, arguments.patterns)
    if arguments.write_list:
        check_places(arguments.write_list, read=circuit)
        with whole_text(arguments.write_list) as stream:
            write_faults((own.shown_as for own in classes), looks.lines, stream)
        return 0
    # a list may take the place of the one that was read
    check_places(arguments.csv, arguments.dictionary, arguments.prove_left, read=(arguments.list,))
    check_places(arguments.shown, arguments.left, arguments.csv, arguments.dictionary, arguments.prove_left, read=circuit)
    if not looks.circuit.netlist.outputs:
        raise UsageError(f"{arguments.netlist}: the netlist has no OUTPUT, so nothing shows a fault")
    if (arguments.write or arguments.read) and any(own.asked.is_transition for own in classes):
        raise WordsError("--write and --read are for stuck-at faults alone")
    plan = Plan.of(looks.circuit, classes, looks.times, arguments.budget)
    if arguments.write:
        count = write_bundle(plan, arguments.write)
        say(f"{arguments.write}: {count} script{'s' * (count != 1)}")
        return 0
    if arguments.read:
        good, outcomes = read_bundle(plan, arguments.read)
        return _tell(arguments, Coverage(plan, looks.lines, outcomes, is_simulated=False), good.unanswered)
    search = _Search(arguments, looks, plan)
    is_partial = False
    try:
        search.run()
    except KeyboardInterrupt:
        is_partial = True
    if search.dictionary is not None:
        with whole_text(arguments.dictionary) as stream:
            search.dictionary.write(search.coverage(), stream, is_partial)
    status = _tell(arguments, search.coverage(), search.unanswered, is_partial)
    if search.unconfirmed:
        say(f"{search.unconfirmed} that are shown are not confirmed by {plan.budget} evaluations each, so simulation alone says it (--budget)")
    return INTERRUPTED if is_partial else 1 if search.unconfirmed else status


def _check_options(arguments: argparse.Namespace) -> None:
    """WordsError where an option would do nothing beside another."""
    for chosen, without in _WITHOUT.items():
        for other in without:
            if getattr(arguments, chosen) and getattr(arguments, other):
                raise WordsError(f"--{chosen} and --{other} do not go together".replace("_", "-"))


class _Search:
    """Finds, confirms and, where it is wanted, proves; `coverage` is what is known so far."""

    def __init__(self, arguments: argparse.Namespace, looks: Looks, plan: Plan) -> None:
        self._arguments, self._looks, self._plan = arguments, looks, plan
        self._jobs = jobs_of(arguments)
        self._kept = Kept(arguments.prove_left, plan, looks.lines) if arguments.prove_left else None
        self._outcomes = {own: Outcome() for own in plan.classes}
        self._weights = weights(looks.circuit.netlist)
        self._is_simulated = True
        # the classes of which nothing is known yet
        self._unknown = {own for own in plan.classes if plan.reached(own.asked.site)}
        self.dictionary = Dictionary(len(plan.classes)) if arguments.dictionary else None
        self.unanswered: list[str] = []
        self.unconfirmed = 0

    def coverage(self) -> Coverage:
        return Coverage(self._plan, self._looks.lines, self._outcomes, self._arguments.drop or 1, self._is_simulated,
                        frozenset(self._unknown))

    def run(self) -> None:
        finder = self._finder()
        with asked_files(self._arguments, self._looks, self._plan.made) as files:
            if finder is None:
                self._ask(self._plan.classes, files)
                return
            with Bar(finder.total, "simulated", has_lines=True) as bar:
                finder.run(self._take, bar.add)
            self._unknown.clear()
            if finder.unknown_flops:
                flops = len(self._looks.circuit.netlist.flops())
                say(f"{finder.unknown_flops} of {flops} flip-flops are still x at the last look, and x shows no fault")
            self._confirm(files)
            if self._kept is not None:
                self._prove(self._kept, files)

    def _finder(self) -> Finder | None:
        """What simulates; None where gates make a cycle."""
        circuit, times = self._looks.circuit, self._looks.times
        drop = self._arguments.drop or (0 if self.dictionary else 1)
        try:
            for warning in looks_of.warnings(circuit, times):
                say(warning)
            return finder_of(circuit, self._plan.classes, times, drop, self._jobs)
        except ValueError as cycle:
            say(f"the gates of {cycle} make a cycle, so nothing is simulated, and each fault is asked for")
            return None

    def _take(self, detection: Detection) -> None:
        own = self._plan.classes[detection.fault]
        outcome = self._outcomes[own]
        self._unknown.discard(own)
        outcome.count += 1
        if outcome.time is None:
            outcome.time = self._plan.times[detection.look]
            # the output of which a question takes least
            outcome.output = min((self._plan.outputs[place] for place in detection.outputs), key=self._weights.__getitem__)
        if self.dictionary is not None:
            self.dictionary.take(detection)

    def _confirm(self, files: Sequence[type_of_path]) -> None:
        count = sum(outcome.is_shown for outcome in self._outcomes.values())
        forecast = Forecast(self._jobs)
        with Bar(count, "confirmed", left=forecast.said, has_lines=True) as bar:
            others = confirm(self._plan, self._outcomes, files, self._jobs, forecast, self._arguments.program, bar.add)
        self.unconfirmed = len(others.unanswered)
        if others.differing:
            say(f"the program does not confirm {len(others.differing)} of {count}; each of these is asked for at all times")
            self._ask(others.differing, files)

    def _ask(self, classes: Sequence[FaultClass], files: Sequence[type_of_path]) -> None:
        """Asks for classes at one time after another, without simulation."""
        self._is_simulated = len(classes) < len(self._outcomes)
        self._unknown.update(own for own in classes if self._outcomes[own].is_shown)
        for own in classes:
            self._outcomes[own] = Outcome()

        def take(own: FaultClass, outcome: Outcome) -> None:
            self._outcomes[own] = outcome
            self._unknown.discard(own)

        forecast = Forecast(self._jobs)
        with Bar(len(classes) * len(self._plan.times), "asked", left=forecast.said, has_lines=True) as bar:
            good = solve_all(self._plan, files, self._jobs, take, classes, forecast, self._arguments.program, bar.add)
        self.unanswered = good.unanswered

    def _prove(self, kept: Kept, files: Sequence[type_of_path]) -> None:
        left = [own for own, outcome in self._outcomes.items() if not outcome.is_shown and not outcome.is_confirmed]
        forecast = Forecast(self._jobs)
        with Bar(len(left) * len(self._plan.times), "asked", left=forecast.said, has_lines=True) as bar:
            prove_left(self._plan, self._outcomes, left, kept, files, self._jobs, forecast, self._arguments.program, bar.add)
        shown = sum(self._outcomes[own].is_shown for own in left)
        if shown:
            say(f"the program shows {shown} that simulation does not")


def _tell(arguments: argparse.Namespace, coverage: Coverage, unanswered: Sequence[str], is_partial: bool = False) -> int:
    if is_partial:
        print("partial: the command was interrupted, and this is what it knew")
    for line in coverage.table():
        print(line)
    for path, is_shown in ((arguments.shown, True), (arguments.left, False)):
        if path:
            with whole_text(path) as stream:
                write_faults(coverage.faults(is_shown), coverage.lines, stream, is_partial)
    if arguments.csv:
        with whole_text(arguments.csv) as stream:
            coverage.write_csv(stream, is_partial)
    unknown = [f"{name} without a fault" for name in unanswered]
    unknown += [f"{coverage.name(own)} at {', '.join(dict.fromkeys(outcome.unanswered))}" for own, outcome in coverage.outcomes.items()
                if outcome.unanswered]
    for text in unknown[:_MOST_SAID]:
        say(f"answered by the budget, so nothing is known: {text}")
    if len(unknown) > _MOST_SAID:
        say(f"and {len(unknown) - _MOST_SAID} more")
    return 1 if unknown else 0
