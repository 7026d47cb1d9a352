"""The profile of a journal as text, and the arguments of the command that writes it."""
from __future__ import annotations

import argparse
import sys
from collections import Counter
from collections.abc import Iterable, Iterator, Mapping, Sequence
from pathlib import Path

from ..circuit.rules import Design, read_design
from ..errors import FormatError, WordsError
from ..formats.netlist import read_netlist
from ..formats.script import read_script
from ..limits import HELD_CELLS, MOST_CELLS
from ..pictures.files import form_of, write_picture
from .needs import needs_of
from .profile import Profile, Question, Stretch, most_first, profile_of

USUAL_MOST = 20


def add_arguments(parser: argparse.ArgumentParser) -> None:
    """The options of a profile, for a command that has JOURNAL."""
    parser.add_argument("--profile", action="store_true", help="tell where the evaluations went, in place of a judgement")
    parser.add_argument("--netlist", type=Path, metavar="FILE", help="the netlist: signals are told by their names")
    parser.add_argument("--timing", type=Path, metavar="FILE", help="the timing file, which --stimulus goes with")
    parser.add_argument("--stimulus", type=Path, metavar="FILE",
                        help="with the netlist and the timing: which budget suffices for each question alone, over an empty memo")
    parser.add_argument("--script", type=Path, metavar="FILE", help="the script: questions are told by their lines")
    parser.add_argument("--most", type=int, metavar="N",
                        help=f"how many questions and signals are listed, {USUAL_MOST} where it is left out")
    parser.add_argument("--picture", type=Path, metavar="FILE", help="draw the profile too, as .svg or .png")


def check_unused(arguments: argparse.Namespace) -> None:
    """WordsError where an option of a profile is given, for what makes none."""
    for name in ("netlist", "timing", "stimulus", "script", "most", "picture"):
        if getattr(arguments, name) is not None:
            raise WordsError(f"--{name} is for --profile")


def run(journal: Path, arguments: argparse.Namespace) -> int:
    """Writes the profile of a journal by these arguments; gives the exit status."""
    form = form_of(arguments.picture, ("svg", "png")) if arguments.picture else None
    most = USUAL_MOST if arguments.most is None else arguments.most
    if most < 1:
        raise WordsError(f"--most takes a number from 1 on, and not {most}")
    if (arguments.timing is None) != (arguments.stimulus is None) or arguments.timing and not arguments.netlist:
        raise WordsError("--timing and --stimulus go together, with --netlist")
    design = read_design(arguments.netlist, arguments.timing, arguments.stimulus) if arguments.timing else None
    netlist = design.netlist if design else read_netlist(arguments.netlist) if arguments.netlist else None
    names = netlist.names if netlist else None
    texts = {line.number: line.text.split("#")[0].strip() for line in read_script(arguments.script)} if arguments.script else {}
    profile = profile_of(journal, keeps_points=design is not None)
    if names is not None and any(signal >= len(names) for signal in profile.signals):
        raise FormatError(journal, None, f"it has signals that {arguments.netlist} does not have: it is of another netlist")
    needs = _needs(profile, design, journal)
    sys.stdout.writelines(f"{line}\n" for line in profile_lines(profile, names, texts, needs, most))
    if form:
        from ..pictures.profile import profile_picture
        write_picture(arguments.picture, profile_picture(profile, form, names, texts))
    return 0


def _needs(profile: Profile, design: Design | None, journal: Path) -> dict[int, int] | None:
    try:
        return needs_of(profile, design) if design else None
    except KeyError as error:
        raise FormatError(journal, None, f"no entry says {error.args[0]}: it is of other files, or was cut") from None


def profile_lines(profile: Profile, names: Sequence[str] | None = None, texts: Mapping[int, str] | None = None,
                  needs: Mapping[int, int] | None = None, most: int = USUAL_MOST) -> Iterator[str]:
    """The lines of the text. `names` are the signals' names by their numbers, `texts` the lines of the script by theirs, and `needs`
    the points that a question needs alone; of questions and signals the first `most` are listed."""
    yield from _head(profile)
    yield ""
    yield from _questions(profile, texts or {}, needs, most)
    yield ""
    yield from _signals(profile, names, most)
    yield ""
    yield from _evictions(profile)
    yield ""
    yield from _rooms(profile)


def _head(profile: Profile) -> Iterator[str]:
    kinds = [f"{count} {kind if count == 1 else _plural(kind)}" for kind, count in profile.sections.items()]
    yield f"memo: {_counted(profile.shards, 'shard')} of {profile.capacity} cells; sections: {', '.join(kinds) or 'none'}"
    yield (f"evaluations: {profile.fills}, of these {profile.again} of a point that was evaluated before; "
           f"evictions: {profile.evictions}, and {profile.trimmed} by trims")
    if profile.sections["held"]:
        yield (f"memos of stuck lines: {profile.held_fills} evaluations, {profile.held_evictions} evictions; "
               f"the fullest had {profile.held_cells} of {HELD_CELLS} cells")


def _plural(kind: str) -> str:
    return {"batch": "batches", "trim": "trims", "held": "held"}[kind]


def _counted(count: int, word: str) -> str:
    return f"{count} {word}" if count == 1 else f"{count} {word}s"


def budget_of(question: Question) -> str:
    """The budget that a question would have needed in this session."""
    return str(question.claims) if question.refused_at is None else f"more than {question.refused_at}"


def _questions(profile: Profile, texts: Mapping[int, str], needs: Mapping[int, int] | None, most: int) -> Iterator[str]:
    questions = sorted(profile.questions.values(), key=lambda question: (-question.claims, question.line))
    yield "questions by their lines of the script, the most evaluations first; told: points that the memo knew;"
    yield ("budget: what would have sufficed here" + ("; alone: what suffices over an empty memo" if needs is not None else ""))
    head = ["line", "evaluations", "told", "budget", *(["alone"] if needs is not None else [])]
    rows = [[str(question.line), str(question.fills), str(question.told), budget_of(question),
             *([str(needs.get(question.line, "-"))] if needs is not None else [])] for question in questions[:most]]
    yield from _table(head, rows, [texts.get(question.line, "") for question in questions[:most]])
    yield from _rest(len(questions) - most, "questions", sum(question.fills for question in questions[most:]))
    refused = profile.refused()
    if refused:
        lines = ", ".join(str(question.line) for question in refused[:most])
        yield f"refused for their budget: {_counted(len(refused), 'question')}, of line {lines}{', ..' if len(refused) > most else ''}"


def _signals(profile: Profile, names: Sequence[str] | None, most: int) -> Iterator[str]:
    cells: Counter[int] = profile.cells_of()
    signals = list(most_first(profile.signals))
    yield "signals, the most evaluations first; cells: different ones"
    rows = [[str(signal), str(count), str(cells[signal])] for signal, count in signals[:most]]
    yield from _table(["signal", "evaluations", "cells"], rows, [names[signal] if names else "" for signal, _ in signals[:most]])
    yield from _rest(len(signals) - most, "signals", sum(count for _, count in signals[most:]))


def _evictions(profile: Profile) -> Iterator[str]:
    if not profile.evictions and not profile.trimmed:
        yield "nothing was evicted"
        return
    yield "evictions over time; again: evaluations of a point that was evaluated before"
    stretches = [stretch for stretch in profile.stretches if stretch.fills or stretch.evictions]
    rows = [[sections_of(stretch), str(stretch.fills), str(stretch.again), str(stretch.evictions)] for stretch in stretches]
    yield from _table(["sections", "evaluations", "again", "evictions"], rows, [""] * len(rows))


def sections_of(stretch: Stretch) -> str:
    """The sections of a stretch, as `3` or `3-7`."""
    return str(stretch.first) if stretch.first == stretch.last else f"{stretch.first}-{stretch.last}"


def _rooms(profile: Profile) -> Iterator[str]:
    yield "to hold every cell, so that nothing is evaluated again:"
    for room in profile.rooms():
        note = "" if room.fits else f"   (more than {MOST_CELLS}, the most)"
        here = "   this session's shards" if room.shards == profile.shards else ""
        yield f"  --shards {room.shards} --cells {room.cells}{note}{here}"
    if profile.refused():
        yield "the questions that were refused would need more"


def _table(head: Sequence[str], rows: Sequence[Sequence[str]], notes: Iterable[str]) -> Iterator[str]:
    """Columns that are set to the right, and a note behind each row."""
    widths = [max(len(row[place]) for row in (head, *rows)) for place in range(len(head))]
    yield "  " + "  ".join(word.rjust(width) for word, width in zip(head, widths))
    for row, note in zip(rows, notes):
        yield ("  " + "  ".join(word.rjust(width) for word, width in zip(row, widths)) + f"  {note}").rstrip()


def _rest(count: int, what: str, evaluations: int) -> Iterator[str]:
    if count > 0:
        yield f"  and {count} more {what}, with {evaluations} evaluations"
