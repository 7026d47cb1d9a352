"""`backsim-tools diagnose`: which faults explain best what a tester saw."""
from __future__ import annotations

import argparse
from pathlib import Path

from ..command_line.arguments import add_program, count_of
from ..command_line.bars import Bar
from ..convert.output import say
from ..faults.asking import Crew
from ..faults.coverage import percent
from ..faults.diagnosis import Candidate, check, predict, rank, read_failures
from ..faults.lists import text_of
from ..faults.model import Lines
from ..faults.plan import Plan
from ..faults.request import add_tested, asked_files, finder_for, jobs_of, read_looks, stuck_classes_of
from ..faults.stopping import stoppable
from ..limits import MOST_BUDGET

HELP = "tells which stuck-at faults explain best the failures that a tester saw"
EXAMPLE = """  backsim-tools diagnose chip.bench chip.timing patterns.txt failures --period 100 --by-pattern

failures has a line for each pattern that failed: its number, counted from 1, and the outputs that failed, as `3 sum[1] sum[2]`; without
--by-pattern the time of the look stands first. Status 1: no fault explains all failures and no others."""
_MOST = 1000


def add_arguments(parser: argparse.ArgumentParser) -> None:
    add_tested(parser)
    parser.add_argument("failures", type=Path, metavar="FAILURES", help="the outputs that failed, a line for each time or pattern")
    parser.add_argument("--by-pattern", action="store_true", help="a line of FAILURES begins with a pattern's number, not with a time")
    parser.add_argument("--most", type=count_of(1, _MOST), default=10, metavar="N", help="tells so many faults, 10 where it is left out")
    add_program(parser)


@stoppable()
def run(arguments: argparse.Namespace) -> int:
    looks = read_looks(arguments)
    plan = Plan.of(looks.circuit, stuck_classes_of(arguments, looks.lines), looks.times, MOST_BUDGET)
    failures = read_failures(arguments.failures, plan, arguments.by_pattern)
    finder = finder_for(arguments, looks, plan.classes, 0)
    with Bar(finder.total, "simulated", has_lines=True) as bar:
        candidates = rank(plan, failures, finder, bar.add)
    total = sum(map(len, failures.values()))
    if not candidates:
        print(f"no fault explains any of {total} failures")
        return 1
    best = candidates[:arguments.most]
    plan = Plan.of(looks.circuit, [one.own for one in best], looks.times, MOST_BUDGET)
    predict(best, finder_for(arguments, looks, plan.classes, 0, warns=False))
    with asked_files(arguments, looks, plan.made) as files, Crew(files, min(jobs_of(arguments), len(best)), arguments.program) as crew:
        crew.share(best, lambda asker, one: check(plan, one, failures, asker.ask))
    for place, one in enumerate(best, 1):
        print(f"{place}. {_line(one, total, looks.lines)}")
    if len(candidates) > len(best):
        say(f"and {len(candidates) - len(best)} more that explain a failure (--most)")
    return 0 if best[0].errors == 0 else 1


def _line(one: Candidate, total: int, lines: Lines) -> str:
    said = "confirmed by the program" if one.differing == 0 else f"the program says otherwise at {one.differing} places"
    others = [text_of(fault, lines) for fault in one.own.members if fault != one.own.shown_as]
    same = f"; equivalent: {', '.join(others)}" if others else ""
    return (f"{text_of(one.own.shown_as, lines)}: explains {one.explained} of {total} failures ({percent(one.explained, total)}), "
            f"gives {one.beyond} others, {said}{same}")
