"""A folder with everything that is asked about faults, for sessions that run elsewhere, and the replies that come back.

The folder has `netlist.bench`, `timing`, `stimulus`, and the scripts `1.script`, `2.script` and so on, each within 16 MiB. The replies
to them are looked for in `1.replies`, `2.replies` and so on. Each fault is asked for at all times."""
from __future__ import annotations

from collections.abc import Iterable, Iterator
from pathlib import Path

from ..command_line.outputs import whole_folder
from ..formats.replies import pairs, read_replies_of
from ..formats.script import Line, read_script
from ..limits import SCRIPT_LIMIT
from ..values import Answer
from .asking import Incomplete
from .circuit_files import write_circuit
from .collapse import FaultClass
from .plan import Good, Outcome, Plan

SIZE = SCRIPT_LIMIT - 4096


def write_bundle(plan: Plan, folder: Path) -> int:
    """Makes the folder, whole or not at all, and gives the number of scripts. FormatError where it is there already."""
    count = 0
    with whole_folder(folder) as made:
        write_circuit(plan.made, made)
        for count, part in enumerate(_parts(_questions(plan)), 1):
            (made / f"{count}.script").write_text(part, encoding="latin-1")
    return count


def _questions(plan: Plan) -> Iterator[Line]:
    yield from plan.good_lines()
    every = Good.unknown(plan)
    for own in plan.classes:
        if not own.asked.site.is_output:
            for times in plan.chunks(own):
                yield from plan.stuck_lines(own, times, every)


def _parts(lines: Iterable[Line]) -> Iterator[str]:
    part: list[str] = []
    size = 0
    for line in lines:
        text = f"{line}\n"
        if size + len(text) > SIZE:
            yield "".join(part)
            part, size = [], 0
        part.append(text)
        size += len(text)
    yield "".join(part)


def read_bundle(plan: Plan, folder: Path) -> tuple[Good, dict[FaultClass, Outcome]]:
    """What comes of each class, from the replies in the folder. FormatError where a file is missing or cut, or a reply is missing or is
    one to another line; Incomplete where the scripts are those of another plan."""
    answers = _answers(folder)
    good = Good(plan, [_next(answers, line, folder) for line in plan.good_lines()])
    every = Good.unknown(plan)
    outcomes: dict[FaultClass, Outcome] = {}
    for own in plan.classes:
        outcome = outcomes[own] = Outcome(is_confirmed=True)
        if own.asked.site.is_output:
            plan.judge_output(own, plan.times, good, outcome)
            continue
        for times in plan.chunks(own):
            lines = plan.stuck_lines(own, times, every)
            plan.judge(times, lines, [_next(answers, line, folder) for line in lines], good, outcome)
    if next(answers, None) is not None:
        raise Incomplete(f"{folder}: its scripts ask more than these faults and times need; it is that of another call")
    return good, outcomes


def _answers(folder: Path) -> Iterator[tuple[Line, Answer]]:
    number = 1
    while number == 1 or (folder / f"{number}.script").exists():
        replies = folder / f"{number}.replies"
        for line, reply in pairs(read_script(folder / f"{number}.script"), read_replies_of(replies), replies):
            yield line, reply.answer
        number += 1


def _next(answers: Iterator[tuple[Line, Answer]], line: Line, folder: Path) -> Answer:
    asked, answer = next(answers, (None, None))
    if answer is None or str(asked) != str(line):
        raise Incomplete(f"{folder}: its scripts do not ask `{line}`; it is the folder of another call")
    return answer
