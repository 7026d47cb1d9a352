"""The forms of the lines of a prompt: what each asks, the names and numbers in it, and how its answer is told."""
from __future__ import annotations

from collections.abc import Callable, Iterator
from typing import TYPE_CHECKING, NamedTuple

from ..circuit.buses import number_of as number_of_word, written_number
from ..command_line.no_value import no_value_of
from ..errors import UsageError
from ..explanations.names import in_short
from ..explanations.sentences import text_of, word_text
from ..formats.text import number_of
from ..formats.units import Unit, units_until
from ..limits import MOST_ASKED_TIME
from ..records import dataclass
from ..values import At, First, Stuck, Unknown, Wave

if TYPE_CHECKING:
    from .answers import Answers

MOST_LINES = 200


@dataclass(frozen=True, slots=True)
class Asked:
    """What a line asks: `verb`, a word of VERBS or `signal`, and the words behind it."""

    verb: str
    words: tuple[str, ...]


# gives the lines of an answer, of an `Answers` and the words behind the verb
Tell = Callable[..., Iterator[str]]


class Form(NamedTuple):
    """The form of a line that begins with a verb: how many words may stand behind it, what the help says of it, and what tells its answer."""

    counts: tuple[int, ...]
    help: str
    tell: Tell


# by their verbs
FORMS: dict[str, Form] = {}
# what a line of so many words asks that begins with none
_SHORT = {1: "signal", 2: "at", 3: "wave"}


def _form(verb: str, *counts: int, help: str = "") -> Callable[[Tell], Tell]:
    """Has a function tell the answers to lines of this form."""
    def enter(tell: Tell) -> Tell:
        FORMS[verb] = Form(counts, help, tell)
        return tell

    return enter


def asked_by(line: str) -> Asked | None:
    """What a line asks, or None where it is blank or a comment. UsageError where it has none of the forms."""
    words = tuple(line.partition("#")[0].split())
    if not words:
        return None
    # a signal may have the name of a verb: it is asked by `at` or `wave` then
    verb, rest = (words[0], words[1:]) if words[0] in VERBS else (_SHORT.get(len(words), ""), words)
    if verb not in FORMS or len(rest) not in FORMS[verb].counts:
        raise UsageError(f"`{' '.join(words)}` is no question; `help` lists what can be asked")
    return Asked("exit" if verb == "quit" else verb, rest)


def time_in(word: str, horizon: int, unit: Unit | None = None, beyond: int = 0) -> int:
    """The time that a word is; `end` is the horizon, and `15ns` so many units. UsageError where it is none, or is in seconds and after the
    horizon by more than `beyond`."""
    if word == "end":
        return horizon
    number = number_of(word.replace(",", ""))
    if number is None and word[:1].isdigit():
        number = units_until(word, unit, horizon, beyond=beyond)
    if number is None or number > MOST_ASKED_TIME:
        raise UsageError(f"{word} is no time: a whole number from 0 to {MOST_ASKED_TIME:,} is wanted, or `end`")
    return number


def value_in(word: str, bits: int) -> str:
    """The value that a word is for a signal or a bus of so many bits: letters of 0, 1, x and z, or a number. UsageError where it is
    none."""
    lower = word.lower()
    if len(lower) == bits and not lower.strip("01xz"):
        return lower
    number = written_number(lower)
    if number is None or not 0 <= number < 1 << bits:
        raise UsageError(f"{word} is no value of {bits} bit{'s' * (bits != 1)}")
    return f"{number:0{bits}b}"


def shown(value: str) -> str:
    """A value, of a bus with its number."""
    number = number_of_word(value) if len(value) > 1 else None
    return word_text(value) if number is None else f"{word_text(value)} ({number:,})"


# in the order of the help


@_form("at", 2, help="NAME TIME                    the value at a time, as in `count[7:0] 1200`")
def _at(own: Answers, name: str, time_word: str) -> Iterator[str]:
    time = own.time(time_word)
    answers = [answer for _, answer in own.each(own.named(name), lambda asked, one, budget: asked.at(one, time, budget), f"at {time:,}")]
    width = max(len(answer.name) for answer in answers)
    for answer in answers:
        assert isinstance(answer, At)
        own.last = answer.name, time
        yield f"{answer.name:{width}} = {shown(answer.value)}"


@_form("wave", 1, 3, help="NAME FROM TO                 the waveform from FROM on and before TO")
def _wave(own: Answers, name: str, *times: str) -> Iterator[str]:
    start, stop = own.window(times)
    waves = dict(own.each(own.named(name), lambda asked, one, budget: asked.wave(one, start, stop, budget), f"from {start:,} to {stop:,}"))
    width = max(map(len, waves))
    for one, wave in waves.items():
        yield from _runs(own, wave, f"{one:{width}}" if len(waves) > 1 else "")


def _runs(own: Answers, wave: Wave, label: str) -> Iterator[str]:
    """The changes of a wave: of one signal a line each, of several in one line."""
    if wave.changes:
        own.last = wave.name, wave.changes[-1][0]
    if label:
        yield f"{label}  " + (", ".join(f"{value} from {time:,}" for time, value in wave.changes[:20])
                              + (f" and {len(wave) - 20:,} more changes" if len(wave) > 20 else "") or "no time")
        return
    for time, value in wave.changes[:MOST_LINES]:
        yield f"{time:>13,}  {shown(value)}"
    if len(wave) > MOST_LINES:
        yield f"{len(wave) - MOST_LINES:,} more changes; ask from {wave.changes[MOST_LINES][0]:,} on"


@_form("first", 2, 4, help="first NAME VALUE [FROM TO]   the first time that it is VALUE, a letter or word of 0, 1, x and z, or a number as 0x1f, "
                           "5'h1f or 31")
def _first(own: Answers, name: str, word: str, *times: str) -> Iterator[str]:
    one = own.only(name)
    value = value_in(word, len(own.session.bits(one)))
    start, stop = own.window(times)
    answer: First = own.within(lambda budget: own.session.first(one, value, start, stop, budget), one)
    if answer.time is None:
        yield f"{one} is never {shown(value)} from {start:,} on and before {stop:,}"
    else:
        own.last = one, answer.time
        yield f"{one} is {shown(value)} at {answer.time:,} first"


@_form("why", 0, 1, 2, help="why NAME TIME                the causes of a value, and the chain to the first; `why` alone goes on from the last answer")
def _why(own: Answers, name: str = "", time_word: str = "") -> Iterator[str]:
    if not name and own.last is None:
        raise UsageError("say NAME and TIME: nothing was asked before")
    one, time = (own.only(name), own.time(time_word)) if time_word else own.last or ("", 0)
    if name and not time_word:
        one = own.only(name)
    explanation = own.told(own.session.explain(one, time), f"{one} at {time:,}")
    yield from text_of(explanation, chains=1).splitlines()


@_form("stuck", 5, help="stuck SITE VALUE NAME FROM TO    the waveform where the signal SITE is always 0 or 1")
def _stuck(own: Answers, site: str, value: str, name: str, *times: str) -> Iterator[str]:
    start, stop = own.window(times)
    one = own.only(name)
    answer: Stuck = own.within(lambda budget: own.session.stuck(site, value, one, start, stop, budget), one)
    last = own.last
    yield from _runs(own, answer.wave, "")
    own.last = last


@_form("signal", 1, help="NAME                         what drives a signal, and what reads it")
def _signal(own: Answers, name: str) -> Iterator[str]:
    netlist = own.session.netlist
    names = own.named(name)
    one = names[0]
    strange = next((bit for bit in own.session.bits(one) if bit not in netlist), None)
    if strange is not None:
        raise no_value_of(Unknown(strange, own.session.nearest(strange)), *own.files, strange)
    if len(names) > 1 or one not in netlist:
        yield in_short([bit for each in names for bit in own.session.bits(each)], MOST_LINES, netlist.ascending)
        return
    gate = netlist.gates.get(one)
    drives = f"{one} = {gate.kind.value}({', '.join(gate.pins)})" + (f"  {gate.source}" if gate.source else "") if gate else f"input {one}"
    readers = [other.name for other in netlist.gates.values() if one in other.pins]
    yield drives
    yield f"{'an output; ' if one in netlist.outputs else ''}read by {in_short(readers, 12, netlist.ascending) or 'nothing'}"


@_form("names", 0, 1, help="names [PATTERN]              the names of a pattern")
def _names(own: Answers, pattern: str = "*") -> Iterator[str]:
    found = own.session.names(pattern)
    yield from in_short(found, MOST_LINES, own.session.netlist.ascending).split(", ") if found else [f"no signal is of the pattern {pattern}"]


@_form("stats", 0, help="stats, trim CELLS            the counts of the session; evicts all but so many cells of each shard")
def _stats(own: Answers) -> Iterator[str]:
    stats = own.session.stats()
    yield f"{stats.batches:,} batches, {stats.fills:,} evaluations, {stats.evictions:,} evictions, {stats.cells:,} cells stored"


@_form("trim", 1)
def _trim(own: Answers, cells: str) -> Iterator[str]:
    yield f"{own.session.trim(time_in(cells, 0)).cells:,} cells evicted"


@_form("help", 0, help="help, quit                   this list; the end, as does Ctrl-D")
def _help(own: Answers) -> Iterator[str]:
    yield from HELP.splitlines()


@_form("exit", 0)
@_form("quit", 0)
def _leave(own: Answers) -> Iterator[str]:
    raise EOFError


VERBS = tuple(verb for verb in FORMS if verb != "signal")
HELP = "\n".join(form.help for form in FORMS.values() if form.help) + """

NAME may be a bus, as count[7:0], or count for all of it, or a pattern with * for any letters and ? for one. A time may be `end`, the
horizon, have commas, 1,200, or be in seconds, 15ns, where the files say what a unit is. Tab completes a name, the arrow keys bring back what was asked."""
