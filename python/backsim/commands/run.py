"""`backsim-tools run`: a script in one process or several."""
from __future__ import annotations

import argparse
import os
import sys
from collections.abc import Sequence
from contextlib import AbstractContextManager, closing, nullcontext

from ..command_line.arguments import add_files, add_memo, add_program, count_of, opened
from ..command_line.bars import Bar
from ..errors import WordsError, type_of_path
from ..journal.evaluations import Tail
from ..scripts.parts import TextLine, check_divisible, read_lines, told_of_budgets
from ..scripts.running import Counts, Files, Run
from ..session.outcomes import Refused, SessionError
from ..session.program import Options, find_program

HELP = "runs a script, in one process or several, and writes its replies"
EXAMPLE = """\
  backsim-tools run c17.bench c17.timing c17.stim c17.script > replies
  backsim-tools run c17.bench c17.timing c17.stim c17.script --jobs 4 --shards 64 > replies
  backsim-tools run chip.bench chip.timing chip.stim questions.script --jobs 16 --plan slurm"""
_MOST_JOBS = 1024
_PARTS = "parts"
_MOST_READ = 4_000_000


def add_arguments(parser: argparse.ArgumentParser) -> None:
    add_files(parser)
    parser.add_argument("script", metavar="SCRIPT", help="the script, or - for standard input")
    parser.add_argument("--journal", metavar="FILE", help="keep the journal; with several jobs they are FILE.1, FILE.2 and so on")
    parser.add_argument("--jobs", metavar="N", type=count_of(1, _MOST_JOBS), default=1,
                        help="divide the script over N processes; the replies are those of one session")
    add_memo(parser)
    # the functions of `plans`
    parser.add_argument("--plan", choices=("parallel", "slurm"),
                        help="run nothing, and print the commands that do it by GNU parallel or Slurm")
    parser.add_argument("--parts", metavar="FOLDER", help="the folder that a plan makes for its parts, `parts` where it is left out")
    add_program(parser)


def run(arguments: argparse.Namespace) -> int:
    if arguments.parts is not None and arguments.plan is None:
        raise WordsError("--parts is for --plan")
    if arguments.journal and arguments.plan:
        raise WordsError("--journal and --plan do not go together")
    is_divided = arguments.jobs > 1 or arguments.plan is not None
    options = Options(arguments.workers or (1 if is_divided else None), arguments.shards, arguments.cells)
    with opened(arguments.script) as stream:
        lines = read_lines(stream, arguments.script)
    if is_divided:
        check_divisible(lines, arguments.script)
    if arguments.plan:
        from ..scripts import plans
        names = [arguments.netlist, arguments.timing, arguments.stimulus]
        plan = plans.Plan(find_program(arguments.program), names, options.words(), arguments.script, arguments.jobs, arguments.parts or _PARTS)
        print(getattr(plans, arguments.plan)(plan))
        return 0
    with _folder(arguments.journal) as folder:
        files = Files(arguments.netlist, arguments.timing, arguments.stimulus, arguments.journal or os.path.join(folder, "journal"))
        return _serve(Run(files, lines, options, arguments.jobs, arguments.program), lines)


def _folder(journal: str | None) -> AbstractContextManager[str]:
    """The folder of a journal that is not kept."""
    if journal:
        return nullcontext("")
    from tempfile import TemporaryDirectory
    return TemporaryDirectory(prefix="backsim")


def _serve(session: Run, lines: Sequence[TextLine]) -> int:
    """Writes the replies, and then what is to be said of the run."""
    total = sum(line.has_reply for line in lines)
    spent: list[int] = []
    answered = 0
    try:
        with closing(session.pieces()) as pieces, Bar(total, "lines", Tail(session.journals).count) as bar:
            for piece in pieces:
                sys.stdout.buffer.write(piece.text)
                answered += piece.size
                bar.add(piece.size)
                spent += piece.spent
    except Refused as refused:
        sys.stdout.buffer.write(refused.reply)
        raise
    except SessionError as error:
        _say(f"{error}; {answered} of {total} lines were answered before")
        return error.status
    _tell(session, spent)
    return 0


def _tell(session: Run, spent: Sequence[int]) -> None:
    if session.restarts:
        _say(f"{session.restarts} times a part was run again after a fault")
    if spent and len(session.journals) > 1:
        _say(told_of_budgets(spent))
    stats = session.stats()
    # a point is evaluated again only where a cell was evicted between
    if stats.fills and 2 * stats.evictions > stats.fills:
        _tell_repeats(session.journals, stats)


def _tell_repeats(journals: Sequence[type_of_path], stats: Counts) -> None:
    """Where more than half of the evaluations came again, says which memo would have held all. Journals that it would take longer to
    read than it took to run are left to who keeps them."""
    if sum(os.path.getsize(path) for path in journals) > _MOST_READ:
        _say(f"{stats.evictions} cells were evicted, for {stats.fills} evaluations, so points may have been evaluated again; of a "
             "journal that --journal keeps, `backsim-tools journal FILE --profile` says which memo would hold all")
        return
    # read here, since few runs need it
    from ..journal.profile import profile_of
    profiles = [profile_of(path) for path in journals]
    fills, again = sum(profile.fills for profile in profiles), sum(profile.again for profile in profiles)
    if 2 * again <= fills:
        return
    # of each number of shards the room that every process needs
    rooms = [max(rooms, key=lambda room: int(room.cells)) for rooms in zip(*(profile.rooms() for profile in profiles))]
    fitting = [room for room in rooms if room.fits and room.shards >= profiles[0].shards]
    what = f"--shards {fitting[0].shards} --cells {fitting[0].cells} would have held all" if fitting else "no memo would have held all"
    _say(f"{again} of {fills} evaluations were of points that were evaluated before, since their cells had been evicted; {what}")


def _say(text: str) -> None:
    sys.stdout.flush()
    print(text, file=sys.stderr)
