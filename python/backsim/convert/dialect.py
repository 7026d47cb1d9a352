"""Netlists in other dialects of the `.bench` form, rewritten into the nine kinds."""
from __future__ import annotations

import codecs
import enum
import re
from collections.abc import Sequence
from dataclasses import field

from ..circuit.kinds import Kind, kind_of
from ..errors import FormatError, type_of_path
from ..formats import causes
from ..formats.netlist import Netlist
from ..formats.text import content_of, is_name, lines_of, read_bytes
from ..limits import NAME_LIMIT
from ..records import dataclass
from .build import Builder
from .tables import ones_of

MOST_PINS_OF_A_TABLE = 16
MOST_PINS_OF_A_MAJORITY = 7
_TOKEN = re.compile(r"[(),=]|[^(),= ]+")
_CONSTANTS = {"vdd": "1", "vcc": "1", "const1": "1", "gnd": "0", "vss": "0", "const0": "0"}
# constants that are kinds alone: a pin of such a name is a signal
_KINDS_OF_CONSTANTS = {"ONE": "1", "ZERO": "0"}
_SYNONYMS = {"INV": Kind.NOT, "INVERTER": Kind.NOT, "BUFFER": Kind.BUFF, "NXOR": Kind.XNOR}
_LATCHES = ("LATCH", "DLATCH", "LAT")
_KNOWN = ("AND, NAND, OR, NOR, XOR, XNOR, NOT, INV, BUFF, BUFFER, DFF, DFFRSE, SDFF, MUX, MAJ, LUT and the constants vdd, gnd, CONST0, CONST1, "
          "ONE and ZERO")


class MuxOrder(enum.Enum):
    """In which order a MUX has its pins: what selects, what it shows where that is 0, and what where it is 1."""

    SELECT_ZERO_ONE = "select,zero,one"
    SELECT_ONE_ZERO = "select,one,zero"
    ZERO_ONE_SELECT = "zero,one,select"
    ONE_ZERO_SELECT = "one,zero,select"

    def sorted(self, pins: Sequence[str]) -> tuple[str, str, str]:
        """The pins in the order select, zero, one."""
        words = self.value.split(",")
        select, zero, one = (pins[words.index(word)] for word in ("select", "zero", "one"))
        return select, zero, one


@dataclass(frozen=True, slots=True)
class _Statement:
    """`name = word table (pins)`; `pins` is None where the line has no brackets."""

    line: int
    name: str
    word: str
    table: str
    pins: tuple[str, ...] | None


@dataclass(slots=True)
class Normalised:
    """The netlist, and what is to be told of its making: a line of text each."""

    netlist: Netlist
    notes: list[str] = field(default_factory=list)


def read_dialect(path: type_of_path, order: MuxOrder | None = None) -> Normalised:
    """The netlist of a file in any of the dialects. FormatError where it can't be read, or a line has no meaning in any of them."""
    return parse_dialect(read_bytes(path), str(path), order)


def parse_dialect(data: bytes, path: str, order: MuxOrder | None = None) -> Normalised:
    """The netlist of a file's bytes; `path` is what errors name. Where `order` is None and there is a MUX, its pins are taken as
    select, zero, one, and a note says so."""
    return _Rewriter(path, order).rewrite(data)


def _plain(data: bytes, path: str) -> bytes:
    """The bytes without a byte order mark."""
    if data.startswith(codecs.BOM_UTF8):
        return data[len(codecs.BOM_UTF8):]
    if data.startswith((codecs.BOM_UTF16_LE, codecs.BOM_UTF16_BE)):
        try:
            return data.decode("utf-16").encode("latin-1")
        except UnicodeError:
            raise FormatError(path, None, "the file begins with the mark of UTF-16, and is no text of it") from None
    return data


class _Rewriter:
    """Rewrites one file."""

    def __init__(self, path: str, order: MuxOrder | None) -> None:
        self.path = path
        self.order = order
        self.has_scan = False
        self.inputs: dict[str, int] = {}
        self.outputs: dict[str, int] = {}
        self.statements: dict[str, _Statement] = {}
        self.notes: list[str] = []

    def fault(self, line: int, cause: str) -> FormatError:
        return FormatError(self.path, line, cause)

    def rewrite(self, data: bytes) -> Normalised:
        for number, line in enumerate(lines_of(_plain(data, self.path)), 1):
            tokens = _TOKEN.findall(content_of(line))
            if tokens:
                self.take(number, tokens)
        self.builder = Builder({*self.inputs, *self.outputs, *self.statements})
        self.builder.inputs.extend(self.inputs)
        self.builder.outputs.extend(self.signal(name, line) for name, line in self.outputs.items())
        for statement in self.statements.values():
            self.make(statement)
        return Normalised(self.builder.netlist(), self.notes)

    def take(self, number: int, tokens: list[str]) -> None:
        if tokens[1:2] == ["="]:
            statement = self.statement_of(number, tokens)
            self.check_name(number, statement.name)
            if statement.name in self.statements or statement.name in self.inputs:
                raise self.fault(number, f"{causes.NETLIST[4]}: {statement.name}")
            self.statements[statement.name] = statement
            return
        if len(tokens) != 4 or tokens[1] != "(" or tokens[3] != ")" or tokens[0].upper() not in ("INPUT", "OUTPUT"):
            raise self.fault(number, causes.NETLIST[1])
        self.check_name(number, tokens[2])
        if tokens[0].upper() == "INPUT":
            if tokens[2] in self.statements:
                raise self.fault(number, f"{causes.NETLIST[4]}: {tokens[2]}")
            self.inputs.setdefault(tokens[2], number)
        else:
            self.outputs.setdefault(tokens[2], number)

    def statement_of(self, number: int, tokens: list[str]) -> _Statement:
        name, _, *rest = tokens
        words, marks = rest, []
        if "(" in rest:
            words, marks = rest[:rest.index("(")], rest[rest.index("("):]
        pins = None
        if marks:
            inner = marks[1:-1]
            pins = tuple(inner[::2])
            if marks[-1] != ")" or inner and len(inner) % 2 == 0 or any(mark != "," for mark in inner[1::2]) or not all(
                    map(is_name, pins)):
                raise self.fault(number, causes.NETLIST[1])
        has_table = len(words) == 2 and words[0].upper() == "LUT"
        if not is_name(name) or not (len(words) == 1 or has_table) or not is_name(words[0]):
            raise self.fault(number, causes.NETLIST[1])
        for pin in pins or ():
            self.check_name(number, pin)
        return _Statement(number, name, words[0], words[1] if has_table else "", pins)

    def check_name(self, number: int, name: str) -> None:
        if not is_name(name):
            raise self.fault(number, f"a name of a netlist has no byte but those from 33 to 126: {ascii(name)}")
        if len(name) > NAME_LIMIT:
            raise self.fault(number, causes.NETLIST[6])

    def signal(self, name: str, line: int) -> str:
        """The signal that a name stands for: one of the file, or a constant."""
        if name in self.statements or name in self.inputs:
            return name
        value = _CONSTANTS.get(name.lower())
        if value is None:
            raise self.fault(line, f"{causes.NETLIST[5]}: {name}")
        return self.builder.constant(value)

    def make(self, statement: _Statement) -> None:
        """The gates of one statement."""
        name, word, line = statement.name, statement.word.upper(), statement.line
        if word in _KINDS_OF_CONSTANTS and not statement.pins and statement.word not in {*self.statements, *self.inputs}:
            self.builder.gate(name, Kind.BUFF, (self.builder.constant(_KINDS_OF_CONSTANTS[word]),), line)
            return
        if statement.pins is None or not statement.pins and word.lower() in _CONSTANTS:
            self.builder.gate(name, Kind.BUFF, (self.signal(statement.word, line),), line)
            return
        if word == "DFFRSE":
            self.check_reset(statement)
            pins = [self.signal(statement.pins[0], line)]
        else:
            pins = [self.signal(pin, line) for pin in statement.pins]
        if word == "LUT":
            self.builder.table(name, self.table_of(statement), pins, line)
        elif word == "MUX":
            self.make_mux(statement, pins)
        elif word == "MAJ":
            self.make_majority(statement, pins)
        elif word == "SDFF":
            self.make_scan(statement, pins)
        elif word in _LATCHES:
            raise self.fault(line, f"{name} is a latch ({statement.word}), which no netlist has: make it a flip-flop where the file comes from")
        else:
            kind = Kind.DFF if word == "DFFRSE" else _SYNONYMS.get(word) or kind_of(word)
            if kind is None:
                raise self.fault(line, f"the kind {statement.word} is none of {_KNOWN}")
            if not kind.takes(len(pins)):
                raise self.fault(line, f"{statement.word} has {len(pins)} pins: {causes.NETLIST[3]}")
            self.builder.gate(name, kind, pins, line)

    def check_reset(self, statement: _Statement) -> None:
        """A DFFRSE whose further pins are the constant 0 is a plain flip-flop."""
        first, *others = statement.pins or ("",)
        if not first or any(_CONSTANTS.get(pin.lower()) != "0" or pin in self.statements or pin in self.inputs for pin in others):
            raise self.fault(statement.line, f"the flip-flop {statement.name} has a reset, set or enable that is not gnd; tools differ "
                             "in what these pins mean, so make gates of them where the file comes from")

    def make_majority(self, statement: _Statement, pins: Sequence[str]) -> None:
        """A gate that is 1 where more than half of its pins are."""
        count = len(pins)
        if count % 2 == 0 or not 3 <= count <= MOST_PINS_OF_A_MAJORITY:
            raise self.fault(statement.line, f"a MAJ has 3, 5 or {MOST_PINS_OF_A_MAJORITY} pins, and this one {count}")
        bits = sum(1 << index for index in range(1 << count) if 2 * ones_of(index) > count)
        self.builder.table(statement.name, bits, pins, statement.line)

    def make_scan(self, statement: _Statement, pins: Sequence[str]) -> None:
        """A flip-flop that takes its data, or its scan input where the scan enable is 1."""
        if len(pins) not in (1, 3):
            raise self.fault(statement.line, f"an SDFF has the pin data, or data, scan input and scan enable, and this one has {len(pins)} pins")
        if len(pins) == 3:
            if not self.has_scan:
                self.has_scan = True
                self.notes.append(f"{self.path}:{statement.line}: an SDFF is taken as SDFF(data, scan input, scan enable)")
            data, scan, enable = pins
            pins = [self.builder.mux(self.builder.fresh(statement.name), enable, data, scan, line=statement.line)]
        self.builder.gate(statement.name, Kind.DFF, pins, statement.line)

    def make_mux(self, statement: _Statement, pins: Sequence[str]) -> None:
        if len(pins) != 3:
            raise self.fault(statement.line, f"a MUX has three pins, and this one {len(pins)}")
        if self.order is None:
            self.order = MuxOrder.SELECT_ZERO_ONE
            self.notes.append(f"{self.path}:{statement.line}: a MUX is taken as MUX(select, zero, one); other tools have other orders "
                              "(ABC: select,one,zero): say which by --mux")
        select, zero, one = self.order.sorted(pins)
        self.builder.mux(statement.name, select, zero, one, line=statement.line)

    def table_of(self, statement: _Statement) -> int:
        count = len(statement.pins or ())
        digits = re.fullmatch(r"(?:0[xX])?([0-9a-fA-F]+)", statement.table)
        if digits is None or count > MOST_PINS_OF_A_TABLE:
            raise self.fault(statement.line, "expected `LUT 0xTABLE (pins)` with a table in hexadecimal and at most "
                             f"{MOST_PINS_OF_A_TABLE} pins")
        bits = int(digits[1], 16)
        if bits >> (1 << count):
            raise self.fault(statement.line, f"the table {statement.table} has more than the {1 << count} bits that {count} pins have")
        return bits
