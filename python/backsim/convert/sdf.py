"""SDF, the standard delay format of IEEE 1497-2001, read: the paths of its cells, the wires, and their delays."""
from __future__ import annotations

import re
from collections import Counter
from collections.abc import Iterator
from dataclasses import field
from fractions import Fraction

from ..errors import FormatError, type_of_path
from ..formats.text import read_foreign
from ..formats.units import Unit
from ..records import dataclass
from .sdf_entries import ANY, Corner, Numbers, Path, Place, Wire

_TOKEN = re.compile(r'\s+|//[^\n]*|/\*.*?\*/|([()])|"((?:[^"\\]|\\.)*)"|((?:\\.|[^\s()"])+)', re.S)
_NUMBER = re.compile(r"[+-]?(?:[0-9]+(?:\.[0-9]*)?|\.[0-9]+)(?:[eE][+-]?[0-9]{1,2})?")
_LETTER = re.compile(r"\\.|.", re.S)
_SCALE = re.compile(r"(1|10|100)(?:\.0*)?\s*(s|ms|us|ns|ps|fs)")
MOST_DEPTH = 100
_HEADER = ("SDFVERSION", "DESIGN", "DATE", "VENDOR", "PROGRAM", "VERSION", "VOLTAGE", "PROCESS", "TEMPERATURE")


@dataclass(slots=True)
class _Form:
    """What stands between two brackets: its line, and its words and inner forms."""

    line: int
    parts: list[str | _Form] = field(default_factory=list)

    @property
    def word(self) -> str:
        return self.parts[0].upper() if self.parts and isinstance(self.parts[0], str) else ""

    def words(self) -> list[str]:
        return [part for part in self.parts[1:] if isinstance(part, str)]

    def forms(self) -> list[_Form]:
        return [part for part in self.parts if isinstance(part, _Form)]


@dataclass(slots=True)
class Delays:
    """The paths and wires of a file, in its order, the unit of its numbers, the corner that was read, the types of its instances with the
    lines of their cells, and how often each other form was left out, with its first line."""

    unit: Unit
    corner: Corner = Corner.MAX
    paths: list[Path] = field(default_factory=list)
    wires: list[Wire] = field(default_factory=list)
    types: dict[str, tuple[str, int]] = field(default_factory=dict)
    left_out: Counter[str] = field(default_factory=Counter)
    first_lines: dict[str, int] = field(default_factory=dict)

    def leave_out(self, what: str, line: int) -> None:
        """Counts a form that is left out."""
        self.left_out[what] += 1
        self.first_lines.setdefault(what, line)


def read_sdf(path: type_of_path, corner: Corner = Corner.MAX) -> Delays:
    """The delays of a file. FormatError where it can't be read, is no SDF, or is cut."""
    return _Reader(str(path), corner).read(read_foreign(path).decode("latin-1"))


class _Reader:
    """Reads one file."""

    def __init__(self, path: str, corner: Corner) -> None:
        self.path = path
        self.corner = corner
        self.delays = Delays(Unit(1, "ns"), corner)
        self.divider = "."

    def fault(self, line: int, cause: str) -> FormatError:
        return FormatError(self.path, line, cause)

    def read(self, text: str) -> Delays:
        whole = self.form_of(text)
        if whole.word != "DELAYFILE":
            raise self.fault(whole.line, "expected `(DELAYFILE`: this is no SDF file")
        for form in whole.forms():
            if form.word == "TIMESCALE":
                scale = " ".join(form.words())
                parts = _SCALE.fullmatch(scale)
                if parts is None:
                    raise self.fault(form.line, f"the time scale `{scale[:40]}` is none of 1, 10 or 100 of s, ms, us, ns, ps or fs")
                self.delays.unit = Unit(int(parts[1]), parts[2])
            elif form.word == "DIVIDER":
                self.divider = (form.words() or ["."])[0]
            elif form.word == "CELL":
                self.cell(form)
            elif form.word not in _HEADER:
                self.delays.leave_out(form.word, form.line)
        return self.delays

    def tokens(self, text: str) -> Iterator[tuple[int, str, str]]:
        """Line, kind (a bracket, `word` or `string`) and text."""
        place, line = 0, 1
        while place < len(text):
            found = _TOKEN.match(text, place)
            if found is None:
                raise self.fault(line, "a text between quotes, or a bracket, does not end")
            if found[1]:
                yield line, found[1], ""
            elif found[2] is not None:
                yield line, "string", found[2]
            elif found[3]:
                yield line, "word", found[3]
            line += text.count("\n", place, found.end())
            place = found.end()

    def form_of(self, text: str) -> _Form:
        """The outermost form."""
        whole: _Form | None = None
        open_forms: list[_Form] = []
        line = 1
        for line, kind, word in self.tokens(text):
            if kind == "(" and len(open_forms) < MOST_DEPTH and (open_forms or whole is None):
                form = _Form(line)
                if open_forms:
                    open_forms[-1].parts.append(form)
                else:
                    whole = form
                open_forms.append(form)
            elif kind == ")" and open_forms:
                open_forms.pop()
            elif open_forms and kind in ("word", "string"):
                open_forms[-1].parts.append(word)
            else:
                raise self.fault(line, "expected one form `(DELAYFILE ...)`: this is no SDF file")
        if whole is None or open_forms:
            raise self.fault(line, f"the file ends before the bracket of line {open_forms[-1].line} is closed" if open_forms else
                             "expected `(DELAYFILE`: this is no SDF file")
        return whole

    def name_of(self, word: str) -> str:
        """A name without its escapes, and with dots between its parts."""
        return ".".join(self.parts_of(word))

    def parts_of(self, word: str) -> list[str]:
        """The parts of a name between dividers that are not escaped, without their escapes."""
        parts = [""]
        for letter in _LETTER.findall(word):
            if letter == self.divider:
                parts.append("")
            else:
                parts[-1] += letter[-1]
        return parts

    def cell(self, form: _Form) -> None:
        cell_type, instance = self.only_word(form, "CELLTYPE"), self.only_word(form, "INSTANCE")
        name = instance if instance == ANY else self.name_of(instance)
        self.delays.types.setdefault(name, (cell_type, form.line))
        for inner in form.forms():
            if inner.word == "DELAY":
                for kind in inner.forms():
                    if kind.word in ("ABSOLUTE", "INCREMENT"):
                        for entry in kind.forms():
                            self.entry(Place(entry.line, cell_type, name, kind.word == "INCREMENT"), entry)
                    else:
                        self.delays.leave_out(kind.word, kind.line)
            elif inner.word not in ("CELLTYPE", "INSTANCE"):
                self.delays.leave_out(inner.word, inner.line)

    def only_word(self, cell: _Form, keyword: str) -> str:
        """The word in the one form of this keyword in a cell; empty where there is none."""
        found = [form for form in cell.forms() if form.word == keyword]
        if len(found) > 1 or any(len(form.parts) > 2 or form.forms() for form in found):
            raise self.fault(found[-1].line, f"expected one `({keyword} NAME)` in a cell")
        return "".join(found[0].words()) if found else ""

    def entry(self, place: Place, form: _Form) -> None:
        """A form below ABSOLUTE or INCREMENT; of a condition the path in it counts."""
        if form.word in ("COND", "CONDELSE"):
            *inner, path = form.parts
            if not isinstance(path, _Form) or path.word != "IOPATH":
                raise self.fault(form.line, f"expected `({form.word} .. (IOPATH ..))`")
            self.path_of(Place(path.line, place.cell_type, place.instance, place.is_increment), path, _text_of(inner))
        elif form.word == "IOPATH":
            self.path_of(place, form)
        elif form.word == "DEVICE":
            self.device_of(place, form)
        elif form.word in ("INTERCONNECT", "PORT"):
            self.wire_of(place, form)
        else:
            self.delays.leave_out(form.word, form.line)

    def path_of(self, place: Place, form: _Form, condition: str = "") -> None:
        ports = form.parts[1:3]
        first: str | _Form = ports[0] if ports else ""
        second: str | _Form = ports[1] if len(ports) == 2 else form
        source = first.parts if isinstance(first, _Form) else ["", first]
        if len(source) != 2 or not all(isinstance(part, str) for part in source) or not source[1] or not isinstance(second, str):
            raise self.fault(form.line, "expected `(IOPATH PORT PORT (DELAY) ..)`")
        edge, port = (str(part) for part in source)
        numbers = self.delays_of(form, form.parts[3:])
        if numbers:
            self.delays.paths.append(Path(place, form.word, (condition, edge.lower()), numbers, self.name_of(port), self.name_of(second)))

    def device_of(self, place: Place, form: _Form) -> None:
        ports = form.words()[:1]
        numbers = self.delays_of(form, form.parts[1 + len(ports):])
        if numbers:
            self.delays.paths.append(Path(place, form.word, ("", ""), numbers, ANY, self.name_of(ports[0]) if ports else ANY))

    def wire_of(self, place: Place, form: _Form) -> None:
        count = 2 if form.word == "INTERCONNECT" else 1
        ports = form.words()[:count]
        if len(ports) != count or form.parts[1:1 + count] != ports:
            raise self.fault(form.line, f"expected `({form.word}{' PORT' * count} (DELAY) ..)`")
        numbers = self.delays_of(form, form.parts[1 + count:])
        if numbers:
            *inner, port = self.parts_of(ports[-1])
            whole = ".".join(([place.instance] if place.instance else []) + inner)
            driver = self.name_of(ports[0]) if count == 2 else ""
            self.delays.wires.append(Wire(place, form.word, (driver,), numbers, whole, port))

    def delays_of(self, form: _Form, parts: list[str | _Form]) -> Numbers | None:
        """The delays of a rise and a fall, in seconds; those that follow them are of z. Counts a form that has none."""
        found: list[Fraction | None] = []
        for part in parts:
            if not isinstance(part, _Form):
                raise self.fault(form.line, f"expected a delay in brackets, and found `{part[:40]}`")
            if part.word == "RETAIN":
                self.delays.leave_out("RETAIN", part.line)
            else:
                found.append(self.number(part))
        numbers = [None if number is None else number * self.delays.unit.seconds for number in found[:2]]
        if numbers in ([], [None], [None, None]):
            self.delays.leave_out(f"{form.word} without a number", form.line)
            return None
        return numbers[0], numbers[-1]

    def number(self, form: _Form) -> Fraction | None:
        """The number of `(1)`, `(1:2:3)` or `(1::3)` that counts, and of several such in brackets that of the first, the others being
        limits of pulses; None of `()`."""
        inner = form.forms()
        if inner:
            return self.number(inner[0])
        words = " ".join(part for part in form.parts if isinstance(part, str)).replace(" ", "").split(":")
        if len(words) not in (1, 3) or any(word and not _NUMBER.fullmatch(word) for word in words):
            raise self.fault(form.line, f"`{':'.join(words)[:40]}` is no delay")
        return self.corner.of_triple([Fraction(word) if word else None for word in words])


def _text_of(parts: list[str | _Form]) -> str:
    """What a condition is, with its keyword: two with the same words are the same."""
    return "".join(part if isinstance(part, str) else f"({_text_of(part.parts)})" for part in parts)
