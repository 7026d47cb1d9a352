"""Value change dumps, VCD, in the four-state form of IEEE 1364-2005, section 18: a reader of the dumps of any simulator, and a writer.

The extended form (EVCD, `$dumpports`) is another format and is refused. Some simulators of VHDL write the nine values of IEEE 1164;
the reader keeps them, and refuses them where a signal's values are asked for."""
from __future__ import annotations

import codecs
import re
from bisect import bisect_right
from collections.abc import Callable, Iterable, Iterator, Sequence
from dataclasses import field
from difflib import get_close_matches
from itertools import groupby
from typing import IO, TextIO, Union

from ..errors import FormatError, type_of_path
from ..records import dataclass
from ..values import AFTER_VALUES
from .dump_files import BLOCK, opened_dump
from .units import Unit

Changes = tuple[tuple[int, str], ...]
TIMESCALE = re.compile(r"(1|10|100)\s*(s|ms|us|ns|ps|fs)")
_REFERENCE = re.compile(r"(.+?)(?:\[(-?[0-9]+)(?::(-?[0-9]+))?\])?")
_FOUR = "01xz"
_SHOWN = 10
_NINE = "uwhl-"
_BODY_COMMANDS = ("$dumpvars", "$dumpall", "$dumpon", "$dumpoff", "$end")


@dataclass(frozen=True, slots=True)
class Variable:
    """What is dumped: its scope from the top on, its name without a range, its width in bits, and the numbers of its leftmost and
    rightmost bit (None of a single bit without a number). `code` is that of the file."""

    scope: tuple[str, ...]
    name: str
    width: int = 1
    left: int | None = None
    right: int | None = None
    code: str = ""

    @property
    def path(self) -> str:
        """The scope with dots between its parts."""
        return ".".join(self.scope)

    def bits(self) -> tuple[str, ...]:
        """The names of the bits, the leftmost first: `count[3]`, or the name itself of a single bit without a number."""
        if self.left is None or self.right is None:
            return (self.name,)
        step = 1 if self.right >= self.left else -1
        return tuple(f"{self.name}[{place}]" for place in range(self.left, self.right + step, step))


@dataclass(slots=True)
class Vcd:
    """A dump that was read. `ticks` is the size of a tick in units of `unit`, `s`, `ms`, `us`, `ns`, `ps` or `fs`; times count ticks.
    `scopes` lists every scope, with dots between its parts; `last` is the last time that the file reaches. `cut` is the line in which it
    ends, where it ends inside one."""

    path: str
    ticks: int = 1
    unit: str = "s"
    scopes: list[str] = field(default_factory=list)
    variables: list[Variable] = field(default_factory=list)
    last: int = 0
    cut: int | None = None
    _changes: dict[str, list[tuple[int, str]]] = field(default_factory=dict, repr=False)
    _foreign: dict[str, tuple[int, str]] = field(default_factory=dict, repr=False)

    def in_scope(self, scope: str) -> list[Variable]:
        """The variables of a scope and of those below it. FormatError, with the list of scopes, where there is no such scope."""
        if scope not in self.scopes:
            shown, like = self.scopes, list[str]()
            if len(shown) > _SHOWN:
                # those next to the top, and those that are like it
                shown, like = sorted(shown, key=lambda own: own.count("."))[:_SHOWN], get_close_matches(scope, shown, 3)
            raise FormatError(self.path, None, f"there is no scope {scope}" + f"; near it: {', '.join(like)}" * bool(like)
                              + f"; the scopes are: {', '.join(shown) or 'none'}" + " ..." * (len(shown) < len(self.scopes)))
        return [variable for variable in self.variables if f"{variable.path}.".startswith(f"{scope}.")]

    def signal(self, scope: str, name: str) -> Changes:
        """The changes, as (tick, value), of a variable of the scope, or of one of its bits, as `count[3]`. The value of a variable
        of several bits is a word, the leftmost bit first. FormatError where the scope or the name is not there, or a value is none
        of 0, 1, x and z."""
        inside = self.in_scope(scope)
        for variable in inside:
            own = _below(scope, variable)
            if name in (own, *_names_of(own, variable)[:1 if variable.width == 1 else 0]):
                return tuple(self.changes(variable))
        bits = self.bits(scope, (name,))
        if name not in bits:
            known = [_below(scope, variable) for variable in inside]
            like = get_close_matches(name, known, 3)
            raise FormatError(self.path, None, f"nothing is dumped as {name} in the scope {scope}"
                              + (f"; near it: {', '.join(like)}" if like else ""))
        return bits[name]

    def bits(self, scope: str, wanted: Iterable[str] | None = None) -> dict[str, Changes]:
        """The changes, as (tick, value), of each bit of the scope and of those below it, by names such as `count[3]`, and
        `part.count[3]` in a scope below; neighbours differ. With `wanted`, of the bits of these names alone. FormatError where the
        scope is not there, or a value of these bits is none of 0, 1, x and z."""
        names = None if wanted is None else set(wanted)
        found: dict[str, Changes] = {}
        for variable in self.in_scope(scope):
            if variable.width == 0:
                continue
            for place, name in enumerate(_names_of(_below(scope, variable), variable)):
                if name not in found and (names is None or name in names):
                    found[name] = tuple(_without_repeats((time, value[place]) for time, value in self.changes(variable)))
        return found

    def ascending(self, scope: str) -> set[str]:
        """The names of the vectors of the scope and of those below it whose leftmost bit has the lowest number, as `key` of `key[0:7]`."""
        return {_below(scope, variable) for variable in self.in_scope(scope)
                if variable.left is not None and variable.right is not None and variable.left < variable.right}

    def codes(self, scope: str, names: Iterable[str]) -> set[str]:
        """The codes of the variables of which a bit has one of these names in the scope."""
        wanted = {*names}
        return {variable.code for variable in self.in_scope(scope)
                if variable.width and not wanted.isdisjoint(_names_of(_below(scope, variable), variable))}

    def changes(self, variable: Variable) -> list[tuple[int, str]]:
        """The changes of a variable. FormatError where it has values other than 0, 1, x and z, or is a real number."""
        if variable.width == 0:
            raise FormatError(self.path, None, f"{variable.path}.{variable.name} is no signal of bits")
        if variable.code in self._foreign:
            line, value = self._foreign[variable.code]
            raise FormatError(self.path, line, f"{variable.path}.{variable.name} has the value {value.upper()}, "
                              "which is none of 0, 1, x and z")
        return self._changes[variable.code]


@dataclass(frozen=True, slots=True)
class Selection:
    """What is kept of a dump: the codes whose changes are, all where it is None, and a window from the tick `start` up to the tick `stop`,
    both in it, or to the end. Times then count from `start`, and what was before is the value at 0."""

    codes: set[str] | None = None
    start: int = 0
    stop: int | None = None


def value_at(changes: Sequence[tuple[int, str]], time: int) -> str:
    """The value of a bit at a time, x before its first change."""
    place = bisect_right(changes, (time, AFTER_VALUES))
    return changes[place - 1][1] if place else "x"


def _below(scope: str, variable: Variable) -> str:
    return f"{variable.path}.{variable.name}"[len(scope) + 1:]


def _names_of(own: str, variable: Variable) -> tuple[str, ...]:
    return tuple(own[:len(own) - len(variable.name)] + bit for bit in variable.bits())


def _without_repeats(changes: Iterable[tuple[int, str]]) -> Iterator[tuple[int, str]]:
    before = ""
    for time, value in changes:
        if value != before:
            yield time, value
            before = value


def read_vcd(path: type_of_path, select: Callable[[Vcd], Selection] | None = None, progress: Callable[[int], None] | None = None) -> Vcd:
    """The dump of a file, or of what fst2vcd makes of an FST file. FormatError where it can't be read, is no four-state dump, its header
    is cut, or it ends before its window.

    `select` says, of a dump whose header is read, what is kept of the rest. Memory grows with that alone. `progress` is told each block's
    count of bytes. A file that ends inside a line is taken up to directly before its last time, and `cut` has the number of the line."""
    with opened_dump(path) as stream:
        return _Reader(str(path), select).read(stream, progress or (lambda count: None))


# what a line that is known means: its code's changes and its value, or nothing
_Meaning = Union[tuple[list[tuple[int, str]], str], tuple[()]]
_UNWANTED: _Meaning = ()
_NONE: dict[bytes, _Meaning] = {}
_MOST_KNOWN = 1 << 16


class _Reader:
    """Reads one dump. The header is read word by word. The rest is read by blocks, and a line that came before, as most did, is looked up."""

    def __init__(self, path: str, select: Callable[[Vcd], Selection] | None) -> None:
        self.vcd = Vcd(path)
        self.select = select
        self.start = 0
        self.stop: int | None = None
        self.line = 0
        self.now = 0        # in ticks of the file
        self.shown = 0      # from the start on
        self.has_ended = False
        self.has_value = False
        self.here: list[str] = []
        self.widths: dict[str, int] = {}
        self.is_doubled = False  # Icarus Verilog writes each backslash of a name twice
        self.known: dict[bytes, _Meaning] = {}
        self.pending = ""        # a word of a vector whose code is to follow
        self.is_comment = False

    def fault(self, cause: str) -> FormatError:
        return FormatError(self.vcd.path, self.line, cause)

    def words_of(self, lines: Iterable[str]) -> Iterator[str]:
        for line in lines:
            self.line += 1
            yield from line.split()

    def read(self, stream: IO[bytes], progress: Callable[[int], None]) -> Vcd:
        head, rest = self.split_header(stream, progress)
        self.header(self.words_of(head.decode("latin-1").removesuffix("\n").split("\n") if head else ()))
        self.line = head.count(b"\n")
        if self.select is not None:
            selection = self.select(self.vcd)
            self.start, self.stop = selection.start, selection.stop
            if selection.codes is not None:
                self.vcd._changes = {code: changes for code, changes in self.vcd._changes.items() if code in selection.codes}
        self.blocks(stream, rest, progress)
        if not self.has_ended and self.now < self.start:
            tick = Unit(self.vcd.ticks, self.vcd.unit)
            raise FormatError(self.vcd.path, None, f"the dump ends at {tick.times(self.now)}, before {tick.times(self.start)}, where the window begins")
        if self.vcd.variables and not (self.has_value if self.select else any(self.vcd._changes.values())):
            raise self.fault("the dump is cut after its header: it has no value")
        return self.vcd

    def split_header(self, stream: IO[bytes], progress: Callable[[int], None]) -> tuple[bytes, bytes]:
        """The bytes up to the `$end` of `$enddefinitions`, or all, and what was read behind them."""
        data = b""
        while True:
            block = stream.read(BLOCK)
            progress(len(block))
            data += block
            place = data.find(b"$enddefinitions")
            end = data.find(b"$end", place + len(b"$enddefinitions")) if place >= 0 else -1
            if end >= 0 or not block or not _may_be_header(data):
                data = data.removeprefix(codecs.BOM_UTF8) if place < 0 else data
                return (data, b"") if end < 0 else (data[:end + 4].removeprefix(codecs.BOM_UTF8), data[end + 4:])

    def blocks(self, stream: IO[bytes], rest: bytes, progress: Callable[[int], None]) -> None:
        """What follows the header."""
        while not self.has_ended:
            block = stream.read(BLOCK)
            progress(len(block))
            data = rest + block
            end = data.rfind(b"\n") + 1
            rest = data[end:]
            whole = data[:end].replace(b"\r", b"") if b"\r" in data else data[:end]
            if self.now < self.start and not self.pending and not self.is_comment and self.is_before(whole):
                self.skim(whole)
            else:
                self.lines(whole.split(b"\n"))
            if not block:
                self.last_line(rest)
                return

    def last_line(self, rest: bytes) -> None:
        """What is behind the last line feed. A time is left open there that may lack changes: it is taken back."""
        if rest.strip() and not self.has_ended:
            self.line += 1
            self.vcd.cut = self.line
            for changes in self.vcd._changes.values():
                if changes and changes[-1][0] == self.shown and self.shown > 0:
                    changes.pop()
            self.vcd.last = max(0, self.shown - 1)
        elif self.pending:
            raise self.fault(f"the file is cut after `{self.pending[:40]}`: a code was to follow")
        elif self.is_comment:
            raise self.fault("the file ends inside $comment")

    def is_before(self, block: bytes) -> bool:
        """Whether the last time of a block is before the start, and nothing in it needs more than a look at each line."""
        place = block.rfind(b"\n#")
        digits = block[place + 2:block.find(b"\n", place + 1)].strip() if place >= 0 else b""
        return digits.isdigit() and int(digits) < self.start and b"$comment" not in block

    def skim(self, block: bytes) -> None:
        """Takes the last value of each code of a block before the start. Where a line is more than one time or change, or has blanks that
        it needs not, the whole block is taken line by line."""
        lines = block.split(b"\n")
        done: set[bytes] = set()
        time = b""
        has_tabs = b"\t" in block
        # each text once, the last first
        for line in dict.fromkeys(reversed(lines)):
            first = line[:1]
            if line and first in b"bBrRsS":
                code = line.partition(b" ")[2]
                is_plain = code != b"" and b" " not in code
            else:
                code = line[1:]
                is_plain = len(line) != 1 and b" " not in line
            if has_tabs or not is_plain:
                self.lines(lines)
                return
            if first == b"#":
                time = time or line
            elif line and line not in (b"$end", b"$dumpvars", b"$dumpall", b"$dumpon", b"$dumpoff"):
                if code not in done:
                    done.add(code)
                    if self.known.get(line) != _UNWANTED:
                        self.words(line, len(lines) - 1)
        self.words(time, 0)
        self.line += len(lines) - 1

    def lines(self, lines: Sequence[bytes]) -> None:
        """Takes the lines of a block, of which the last is empty."""
        base, known = self.line, self.known
        for place, line in enumerate(lines, 1):
            entry = known.get(line)
            if entry is None:
                self.line = base + place
                if line:
                    self.words(line, 0)
                if self.has_ended:
                    return
                known = _NONE if self.pending or self.is_comment else self.known
            elif entry:
                changes, value = entry
                if changes:
                    time, before = changes[-1]
                    if before == value:
                        continue
                    if time == self.shown:
                        changes.pop()
                        if changes and changes[-1][1] == value:
                            continue
                changes.append((self.shown, value))
        self.line = base + len(lines) - 1

    def command(self, words: Iterator[str], command: str) -> list[str]:
        """The words up to `$end`."""
        body: list[str] = []
        for word in words:
            if word == "$end":
                return body
            body.append(word)
        raise self.fault(f"the file ends inside {command}")

    def header(self, words: Iterator[str]) -> None:
        for word in words:
            if not word.startswith("$"):
                raise self.fault(f"expected a declaration of a VCD header, as $var, and found `{word[:40]}`")
            body = self.command(words, word)
            if word == "$enddefinitions":
                return
            if word == "$scope":
                self.enter(body)
            elif word == "$upscope":
                if not self.here:
                    raise self.fault("$upscope without a scope that is open")
                self.here.pop()
            elif word == "$timescale":
                self.timescale(" ".join(body))
            elif word == "$version":
                self.is_doubled = "Icarus" in body
            elif word == "$var":
                self.declare(body)
            elif word.startswith("$dumpports"):
                raise self.fault("this is an extended dump (EVCD); write one by $dumpvars")
        raise self.fault("the file ends before $enddefinitions: the header of a VCD file is cut or missing")

    def name_of(self, word: str) -> str:
        """The name that a word of the header stands for: without the backslash in front of an escaped one."""
        name = word.removeprefix("\\")
        return name.replace("\\\\", "\\") if self.is_doubled else name

    def enter(self, body: list[str]) -> None:
        if len(body) < 2:
            raise self.fault("expected `$scope KIND NAME $end`")
        self.here.append(self.name_of(body[1]))
        path = ".".join(self.here)
        if path not in self.vcd.scopes:
            self.vcd.scopes.append(path)

    def timescale(self, text: str) -> None:
        parts = TIMESCALE.fullmatch(text)
        if parts is None:
            raise self.fault(f"the time scale `{text[:40]}` is none of 1, 10 or 100 of s, ms, us, ns, ps or fs")
        self.vcd.ticks, self.vcd.unit = int(parts[1]), parts[2]

    def declare(self, body: list[str]) -> None:
        if body and body[0] == "port":
            raise self.fault("this is an extended dump (EVCD, `$var port`); write one by $dumpvars")
        width = int(body[1]) if len(body) >= 4 and re.fullmatch("[0-9]{1,7}", body[1]) else 0
        if width == 0:
            raise self.fault("expected `$var KIND WIDTH CODE NAME $end`")
        code = body[2]
        is_number = body[0] in ("real", "realtime", "string")
        parts = _REFERENCE.fullmatch(self.name_of("".join(body[3:])))
        if parts is None:
            raise self.fault("the variable has no name")
        name, left, right = parts[1], parts[2], parts[3]
        if is_number:
            variable = Variable(tuple(self.here), parts[0], 0, None, None, code)
        elif right is not None and width == 1 and body[3].startswith("\\") and body[3].endswith("]"):
            # brackets in an escaped name are part of it, as in `\$0\valid[0:0]` of Yosys
            variable = Variable(tuple(self.here), parts[0], 1, None, None, code)
        elif right is not None:
            variable = Variable(tuple(self.here), name, width, int(left), int(right), code)
        elif width > 1:
            variable = Variable(tuple(self.here), parts[0], width, width - 1, 0, code)
        else:
            variable = Variable(tuple(self.here), name, 1, *((int(left),) * 2 if left is not None else (None, None)), code)
        if not is_number and len(variable.bits()) != width:
            raise self.fault(f"{parts[0]} has {width} bits, and its range another number")
        if self.widths.setdefault(code, variable.width) != variable.width:
            raise self.fault(f"the code {code} stands for variables of different widths")
        self.vcd.variables.append(variable)
        self.vcd._changes.setdefault(code, [])

    def words(self, line: bytes, lines_before: int) -> None:
        """Takes the words of a line that is not known."""
        words = line.decode("latin-1").split()
        code = ""
        for word in words:
            first = word[0].lower()
            if self.is_comment:
                self.is_comment = word != "$end"
            elif self.pending:
                code, before = word, self.pending
                self.pending = ""
                if before[0] in "bB":
                    self.change(code, before[1:].lower(), line if len(words) == 2 else b"")
                else:
                    self.width_of(code)
            elif first in _FOUR or first in _NINE:
                self.change(word[1:], first, line if len(words) == 1 else b"")
            elif first == "#":
                self.time(word[1:])
                if self.has_ended:
                    return
            elif first in "brs":
                self.pending = word
            elif word == "$comment":
                self.is_comment = True
            elif word in _BODY_COMMANDS:
                continue
            elif first == "p" or word.startswith("$dumpports") or word == "$vcdclose":
                raise self.fault("this is an extended dump (EVCD); write one by $dumpvars")
            else:
                raise self.fault(f"expected a time or a value change, and found `{word[:40]}`")

    def time(self, digits: str) -> None:
        if not re.fullmatch("[0-9]{1,18}", digits):
            raise self.fault(f"`#{digits[:40]}` is no time")
        time = int(digits)
        if time < self.now:
            raise self.fault(f"the time {time} comes after {self.now}")
        if self.stop is not None and time > self.stop:
            self.has_ended = True
            time = self.stop
        self.now = time
        self.shown = self.vcd.last = max(0, time - self.start)

    def width_of(self, code: str) -> int:
        width = self.widths.get(code)
        if width is None:
            raise self.fault(f"no variable has the code `{code[:40]}`")
        return width

    def change(self, code: str, value: str, line: bytes) -> None:
        """A change. `line` is what stands for it, where a line has nothing else."""
        width = self.width_of(code)
        self.has_value = True
        if not value or len(value) > max(1, width) or value.strip(_FOUR + _NINE):
            raise self.fault(f"`{value[:40]}` is no value of {width} bits")
        changes = self.vcd._changes.get(code)
        if changes is None:
            self.keep(line, _UNWANTED)
            return
        foreign = value.strip(_FOUR)
        if foreign:
            self.vcd._foreign.setdefault(code, (self.line, foreign[0]))
        if width > 1:
            value = value.rjust(width, value[0] if value[0] in "xz" else "0")
        if changes and changes[-1][0] == self.shown:
            changes.pop()
        if not changes or changes[-1][1] != value:
            changes.append((self.shown, value))
        self.keep(line, (changes, value))

    def keep(self, line: bytes, entry: _Meaning) -> None:
        if line:
            if len(self.known) >= _MOST_KNOWN:
                self.known.clear()
            self.known[line] = entry


def _may_be_header(data: bytes) -> bool:
    """Whether the bytes may go on as a header of a VCD file: its first word is a command."""
    begin = data.removeprefix(codecs.BOM_UTF8).lstrip()
    return not begin or begin.startswith(b"$")


class VcdWriter:
    """Writes a dump: the header of any number of variables, and then changes by ascending time.

    `timescale` is 1, 10 or 100 of s, ms, us, ns, ps or fs, as `1 ns`. Variables of one scope stand together. A variable of several
    bits is written as a vector, with the range that it has, or `[width - 1:0]`."""

    def __init__(self, stream: TextIO, variables: Sequence[Variable], timescale: str = "1 ns") -> None:
        parts = TIMESCALE.fullmatch(timescale)
        if parts is None:
            raise ValueError(f"the time scale {timescale} is none of 1, 10 or 100 of s, ms, us, ns, ps or fs")
        self._stream = stream
        self._widths = [variable.width for variable in variables]
        self._now = -1
        stream.write(f"$timescale {parts[1]} {parts[2]} $end\n")
        self._declare(variables)
        stream.write("$enddefinitions $end\n")

    def _declare(self, variables: Sequence[Variable]) -> None:
        by_scope: dict[tuple[str, ...], list[int]] = {}
        for place, variable in enumerate(variables):
            by_scope.setdefault(variable.scope, []).append(place)
        here: tuple[str, ...] = ()
        for scope, places in sorted(by_scope.items()):
            common = 0
            while common < min(len(here), len(scope)) and here[common] == scope[common]:
                common += 1
            self._stream.write("$upscope $end\n" * (len(here) - common))
            self._stream.writelines(f"$scope module {part} $end\n" for part in scope[common:])
            here = scope
            self._stream.writelines(f"$var wire {variables[place].width} {code_of(place)} {_reference(variables[place])} $end\n"
                                    for place in places)
        self._stream.write("$upscope $end\n" * len(here))

    def change(self, time: int, place: int, value: str) -> None:
        """The variable at this place of the list has the value from the time on: a letter, or a word of as many letters as the
        variable has bits. ValueError where the time is before that of the last change."""
        if time < self._now:
            raise ValueError(f"a change at {time} after one at {self._now}")
        if len(value) != self._widths[place]:
            raise ValueError(f"the value {value} has not {self._widths[place]} bits")
        if time > self._now:
            self._stream.write(f"#{time}\n")
            self._now = time
        self._stream.write(f"{value}{code_of(place)}\n" if len(value) == 1 else f"b{value} {code_of(place)}\n")

    def finish(self, time: int) -> None:
        """Says that the dump reaches this time."""
        if time > self._now:
            self._stream.write(f"#{time}\n")
            self._now = time


def write_vcd(stream: TextIO, dumped: Sequence[tuple[Variable, Changes]], timescale: str = "1 ns", last: int | None = None) -> None:
    """Writes a dump of the variables with their changes, up to the time `last` where it is given."""
    writer = VcdWriter(stream, [variable for variable, _ in dumped], timescale)
    changes = sorted((time, place, value) for place, (_, own) in enumerate(dumped) for time, value in own)
    for time, group in groupby(changes, key=lambda change: change[0]):
        for _, place, value in group:
            writer.change(time, place, value)
    if last is not None:
        writer.finish(last)


def code_of(place: int) -> str:
    """The code of the variable at this place: one byte from `!` to `~`, then two, and so on."""
    code = ""
    while True:
        code = chr(33 + place % 94) + code
        if place < 94:
            return code
        place = place // 94 - 1


def _reference(variable: Variable) -> str:
    name = f"\\{variable.name}" if variable.name.startswith("$") else variable.name
    if variable.left is not None and variable.right is not None:
        return f"{name} [{variable.left}:{variable.right}]" if variable.width > 1 else f"{name} [{variable.left}]"
    return name if variable.width == 1 else f"{name} [{variable.width - 1}:0]"
